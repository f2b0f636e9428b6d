# a row for each entry: path, type, length, time in nanoseconds, and number
tree
  d /keep
  d /r/b
  f 3 /r/a
  f 5 /r/b/.c
  f 0 /r/-x
  l a	/r/link
  p /r/pipe
  t 100.000000007 /r/a
  t -2 /r/b/.c
  t 0 /r/-x
$ since -j1 --save /keep/s /r
$ since --rows /keep/s
~ -x\x09f\x090\x090\x09
~ a\x09f\x093\x09100000000007\x09
~ b\x09d\x09
~ b/.c\x09f\x095\x09-2000000000\x09
~ link\x09l\x091\x09
~ pipe\x09o\x090\x09

# -0 ends each row with a zero byte, -q writes none, -l says nothing more
$ since --rows -0 /keep/s
~ ./-x\x09f\x090\x090\x09
$ since --rows -q /keep/s
$ since --rows -l /keep/s
~ a\x09f\x093\x09100000000007\x09

# the disk isn't asked, and no root is taken
then
  - /r/a
$ since --rows /keep/s
~ a\x09f\x093\x09100000000007\x09
$ since --rows /keep/s /r
! since: /r: with --rows no root is read
= 2

# no entries
tree
  d /keep
  d /r
$ since -j1 --save /keep/s /r
$ since --rows /keep/s

# an output that can't be written
tree
  d /keep
  f 1 /r/a
$ since -j1 --save /keep/s /r
full$ since --rows /keep/s
! since: cannot write: No space left on device (os error 28)
= 2
closed$ since --rows /keep/s
= 2

# no snapshot
rules /keep/text
  a text
$ since --rows /keep/text
! since: /keep/text: not a snapshot
= 2
