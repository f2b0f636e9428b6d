# nothing changed
tree
  d /keep
  d /r/e
  f 1 /r/a
  f 1 /r/b
  f 1 /r/d/.h
  f 1 /r/d/in
  l a	/r/link
$ since -j1 --save /keep/s /r
$ since --quick /keep/s
$ since --quick -j1 /keep/s /r

# a rewritten file isn't told, and no time
then
  f 9 /r/a
  t 100 /r/a
  t 100 /r/d
$ since --quick /keep/s
$ since /keep/s
  ~ a
= 1

# names that are added or removed, and other types
then
  - /r/b
  d /r/b
  f 1 /r/b/new
  f 1 /r/d/.new
  - /r/d/in
  - /r/e
  l a	/r/e
  - /r/link
  f 1 /r/link
$ since -l --quick /keep/s
  ~ b\x09type
  + b/new
  + d/.new
  - d/in
  ~ e\x09type
  ~ link\x09type
= 1
$ since -0 --quick -j4 /keep/s
  ~ b\x00+ b/new\x00+ d/.new\x00- d/in\x00~ e\x00~ link\x00
= 1
$ since -q --quick /keep/s
= 1

# another place
tree
  d /keep
  f 1 /r/d/a
  f 2 /t/d/a
  f 2 /t/d/b
$ since -j1 --save /keep/s /r
$ since --quick /keep/s /t
  + d/b
= 1

# hidden names left out, and a depth
tree
  d /keep
  f 1 /r/.h
  f 1 /r/d/e/in
$ since -j1 --save --exclude-hidden -d 2 /keep/s /r
then
  f 1 /r/.new
  f 1 /r/d/e/new
$ since --quick /keep/s
then
  f 1 /r/d/new
$ since --quick --exclude-hidden -d 2 /keep/s
  + d/new
= 1
$ since --quick -d 2 /keep/s
! since: /keep/s: was saved with --exclude-hidden --max-depth=2: with other words, add --save
= 2

# the file lies in the tree
tree
  f 1 /r/a
$ since -j1 --save /r/s /r
$ since --quick /r/s
then
  f 0 /r/s.new-0
  f 0 /r/new
$ since --quick /r/s
  + new
= 1

# words that need more than names and types
$ since --quick --save /r/s
! since: the options --quick and --save exclude each other
= 2
$ since --quick -x /r/s
! since: the options --quick and --one-file-system exclude each other
= 2
$ since --rows --quick /r/s
! since: the options --rows and --quick exclude each other
= 2
$ since -j1 --save -x /r/s /r
  + new
= 1
$ since --quick /r/s
! since: /r/s: was saved with --one-file-system, which --quick excludes
= 2
$ since --quick /r/none
! since: /r/none: No such file or directory (os error 2)
= 2
