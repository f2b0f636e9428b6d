-- Which file is which, and the room that files take on the disk. `du` gives the same numbers for the same folders.

# a file with two names counts at the first
tree
  d /r
  d /r/b
  f 9 /r/b/x
  f 1 /r/b/own
  d /r/a
  h /r/b/x	/r/a/x
  f 100000 /r/hole
  d /r/c
  f 5 /r/c/y
rules /r/b/x
  two names
rules /r/b/own
rules /r/c/y
  text
$ tally --plain -b --sort /r
  {blocks /r/a}	/r/a
  {blocks /r/b}-{blocks /r/b/x}	/r/b
  {blocks /r/c}	/r/c
  {blocks /r}	/r
$ tally --plain -b --sort -l /r
  {blocks /r/a}	/r/a
  {blocks /r/b}	/r/b
  {blocks /r/c}	/r/c
  {blocks /r}+{blocks /r/a/x}	/r
$ tally --plain -b --apparent --sort /r
  10+{folders /r/a}	/r/a
  1+{folders /r/b}	/r/b
  5+{folders /r/c}	/r/c
  100016+{folders /r}	/r
$ tally --plain -b --apparent -l /r
  10+{folders /r/a}	/r/a
  11+{folders /r/b}	/r/b
  5+{folders /r/c}	/r/c
  100026+{folders /r}	/r
-- Which of the two names comes first is the disk's to say.
$ tally --plain -b -s /r
  {blocks /r}	/r

# names of a file below two roots count once
$ tally --plain -b --apparent /r/a /r/b
  10+{folders /r/a}	/r/a
  1+{folders /r/b}	/r/b
$ tally --plain -b --apparent /r/b /r/a
  11+{folders /r/b}	/r/b
  {folders /r/a}	/r/a
$ tally --plain -b /r/a /r/b
  {blocks /r/a}	/r/a
  {blocks /r/b}-{blocks /r/b/x}	/r/b
$ tally --plain -b /r/b /r/a
  {blocks /r/b}	/r/b
  {blocks /r/a}-{blocks /r/a/x}	/r/a

# blocks count and not lengths unless these are asked for
$ tally --plain -b /r/hole /r/c/y
  0	/r/hole
  {blocks /r/c/y}	/r/c/y
$ tally --plain -b --apparent /r/hole /r/c/y
  100000	/r/hole
  5	/r/c/y
$ tally --plain --apparent /r/hole
  98	/r/hole

# a root below an earlier one is left out
$ tally --plain -s -b /r /r/b
  {blocks /r}	/r
! tally: /r/b: left out, below an earlier root
$ tally --plain -s -b /r/b /r/b/
  {blocks /r/b}	/r/b
! tally: /r/b/: left out, below an earlier root
$ tally --plain -s -b --apparent /r/b /r/b/x
  11+{folders /r/b}	/r/b
! tally: /r/b/x: left out, below an earlier root

# a root that is not there is an error below an earlier one too
$ tally --plain -s -b /r/b /r/b/none
  {blocks /r/b}	/r/b
! tally: /r/b/none: No such file or directory (os error 2)
= 1

# an error has no control characters on a terminal
$ tally --plain -b --apparent /no\x1b[2J /r/c/y
  5	/r/c/y
! tally: /no\x1b[2J: No such file or directory (os error 2)
= 1
ttyerr$ tally --plain -b --apparent /no\x1b[2J /r/c/y
  5	/r/c/y
! tally: /no?[2J: No such file or directory (os error 2)
= 1

# names that are no UTF-8 are errors with their folder and their bytes, and don't count
tree
  d /odd
  f 1 /odd/bad\xff\xfename
  f 2 /odd/d/b\xe9
  f 4 /odd/y
$ tally --plain -a -b --apparent /odd
  {folders /odd/d}	/odd/d
  4	/odd/y
  4+{folders /odd}	/odd
! tally: invalid filename in /odd: bad\x5cxff\x5cxfename
! tally: invalid filename in /odd/d: b\x5cxe9
= 1
any order

# a followed link is the file that it leads to, which counts once, and a directory counts as often as it is reached
tree
  d /r
  d /r/d
  f 7 /r/d/f
  l d/f	/r/k
  l d	/r/l
$ tally --plain -a -L --sort -b --apparent /r
  7	/r/d/f
  7+{folders /r/d}	/r/d
  0	/r/k
  0	/r/l/f
  {folders /r/d}	/r/l
  7+{folders /r}+{folders /r/d}	/r
$ tally --plain -a -L -l -b --apparent /r
  7	/r/d/f
  7+{folders /r/d}	/r/d
  7	/r/k
  7	/r/l/f
  7+{folders /r/d}	/r/l
  21+{folders /r}+{folders /r/d}	/r

# a root that is a link is what it leads to
$ tally --plain -b --apparent /r/l
  7+{folders /r/d}	/r/l
$ tally --plain -b --apparent /r/l/
  7+{folders /r/d}	/r/l/
$ tally --plain -s -b --apparent -L /r/l
  7+{folders /r/d}	/r/l
$ tally --plain -b /r/l
  {blocks /r/d}	/r/l
$ tally --plain -b --apparent /r/k
  7	/r/k

# a link that leads nowhere or through a file is an error if links are followed
tree
  f 7 /r/a/f
  l none	/r/a/n
  l ../a/f/x	/r/b/t
$ tally --plain -a -b --apparent --sort /r/a
  7	/r/a/f
  4	/r/a/n
  11+{folders /r/a}	/r/a
$ tally --plain -a -L -b --apparent /r/a
  7	/r/a/f
  7+{folders /r/a}	/r/a
! tally: /r/a/n: No such file or directory (os error 2)
= 1
$ tally --plain -a -L -b --apparent /r/b
  {folders /r/b}	/r/b
! tally: /r/b/t: Not a directory (os error 20)
= 1
$ tally --plain -s -b --apparent /r/a/n /r/b/t /r/a/f
  7	/r/a/f
! tally: /r/a/n: No such file or directory (os error 2)
! tally: /r/b/t: Not a directory (os error 20)
= 1

# a link back to a directory above it is an error if links are followed
tree
  d /r/d
  l ..	/r/d/up
$ tally --plain -L -b --apparent /r
  {folders /r/d}	/r/d
  {folders /r}	/r
! tally: /r/d/up: a link that leads back to /r
= 1
