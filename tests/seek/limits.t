-- Limits, over what ignore files leave.

# the first of what is left
tree
  d r
  d r/.git
  f 1 r/a.o
  f 1 r/b.c
  f 1 r/c.c
  f 1 r/d.c
rules r/.gitignore
  *.o
rules named
  b.c
rules /home/u/.config/git/ignore
  c.c
$ seek --sort -1 . r
  r/b.c
$ seek --sort -1 --ignore-file=named . r
  r/d.c
$ seek --sort --max-results=2 . r
  r/b.c
  r/d.c
$ seek --sort --max-results=2 --ignore-file=named -I . r
  r/a.o
  r/c.c
$ seek --sort --max-results=1 --ignore-file=named . r
  r/d.c
$ seek --sort -1 --ignore-file=named -I [bc] r
  r/c.c
$ seek --sort -a1 --ignore-file=named . r
  /r/d.c
$ seek --sort -1 -I . r
  r/a.o
$ seek --sort -1 -p r/[acd] r
  r/d.c
$ seek --sort -a1 [acd][.]c r
  /r/d.c
$ seek --sort -ap --max-results=2 ^/r/[bd] r
  /r/b.c
  /r/d.c

# the status alone
$ seek -q ^d r
$ seek -q ^a r
= 1
$ seek -q ^b r
$ seek -q --ignore-file=named ^b r
= 1
$ seek -q ^c r
= 1
$ seek -q -I ^[ac] r
$ seek -q -p r/d r
$ seek -q -p r/c r
= 1
$ seek -q -p --ignore-file=named r/b r
= 1
$ seek -qap ^/r/d r
$ seek -qap ^/r/[ac] r
= 1
$ seek -qap --ignore-file=named ^/r/[bc] r
= 1
