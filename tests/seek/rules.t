-- Ignore files.

# rules leave out what they name
tree
  d /r
  d /r/.git
  f 1 /r/a.o
  f 1 /r/a.c
  d /r/build
  f 1 /r/build/x.c
  d /r/lib
  f 1 /r/lib/keep.o
  f 1 /r/lib/b.o
rules /r/.gitignore
  *.o
  build/
rules /r/lib/.gitignore
  !keep.o
$ seek . /r
  /r/a.c
  /r/lib
  /r/lib/keep.o
$ seek -H . /r
  /r/.gitignore
  /r/a.c
  /r/lib
  /r/lib/.gitignore
  /r/lib/keep.o
$ seek keep /r/lib
  /r/lib/keep.o

# no ignore
$ seek -I . /r
  /r/a.c
  /r/a.o
  /r/build
  /r/build/x.c
  /r/lib
  /r/lib/b.o
  /r/lib/keep.o
$ seek --no-ignore . /r
  /r/a.c
  /r/a.o
  /r/build
  /r/build/x.c
  /r/lib
  /r/lib/b.o
  /r/lib/keep.o
$ seek -HI git /r
  /r/.git
  /r/.gitignore
  /r/lib/.gitignore

# words that undo others
$ seek -I --ignore o$ /r
  /r/lib/keep.o
$ seek --ignore -I o$ /r
  /r/a.o
  /r/lib/b.o
  /r/lib/keep.o
$ seek --no-ignore-vcs --ignore-vcs o$ /r
  /r/lib/keep.o
$ seek --no-ignore-parent --ignore-parent o$ /r
  /r/lib/keep.o
$ seek -H --no-hidden git /r
$ seek --no-hidden -H git /r
  /r/.gitignore
  /r/lib/.gitignore
$ seek -H --no-hidden -H ^.git /r/lib
  /r/lib/.gitignore
$ seek -u --ignore o$|git /r
  /r/.gitignore
  /r/lib/.gitignore
  /r/lib/keep.o
$ seek -u --no-hidden o$|git /r
  /r/a.o
  /r/lib/b.o
  /r/lib/keep.o

# rules of exclude and words of a call
tree
  d /r
  d /r/.git
  f 1 /r/a.o
  f 1 /r/a.c
  d /r/build
  f 1 /r/build/x.c
  d /r/lib
  f 1 /r/lib/.gitignore
  f 1 /r/lib/keep.o
  f 1 /r/lib/b.o
rules /r/.git/info/exclude
  *.c
rules /r/.gitignore
  !a.c
rules /r/lib/.gitignore
$ seek c$ /r
  /r/a.c
$ seek -E a.* -E lib . /r
  /r/build
$ seek -E !x.c c$ /r
  /r/a.c

# rules above the root
tree
  d /r
  d /r/.git
  f 1 /r/a.o
  f 1 /r/a.c
  d /r/build
  f 1 /r/build/x.c
  d /r/lib
  f 1 /r/lib/.gitignore
  f 1 /r/lib/keep.o
  f 1 /r/lib/b.o
rules /r/.gitignore
  /lib/b.o
rules /r/lib/.gitignore
$ seek . /r/lib
  /r/lib/keep.o
$ seek -I . /r/lib
  /r/lib/b.o
  /r/lib/keep.o

# gitignore counts in repositories alone
tree
  d /r
  f 1 /r/a.o
  f 1 /r/b.o
  f 1 /r/c
rules /r/.gitignore
  c
rules /r/.ignore
  *.o
  !b.o
$ seek . /r
  /r/b.o
  /r/c

# rules, exclude and ignore together
tree
  d /k
  d /k/.git
  d /k/.git/info
  f 0 /k/a.c
  f 0 /k/a.o
  f 0 /k/k.o
  d /k/d
  f 0 /k/d/x
  d /k/e
  f 0 /k/e/x
  f 0 /k/e/y
  l a.c	/k/l
  f 0 /k/new\x0aline
rules /k/.git/info/exclude
  /d
rules /k/.gitignore
  *.o
  !k.o
rules /k/e/.ignore
  y
$ seek --sort . /k
  /k/a.c
  /k/e
  /k/e/x
  /k/k.o
  /k/l
  /k/new
  line
$ seek -H --sort ignore /k
  /k/.gitignore
  /k/e/.ignore
$ seek -I --sort [ox]$ /k
  /k/a.o
  /k/d/x
  /k/e/x
  /k/k.o
$ seek --type=l . /k
  /k/l
