-- What a call leaves out: by its words, and by files of rules.

# lines leave out what they name
tree
  d /r
  d /r/.git
  f 100 /r/.git/index
  f 11 /r/.gitignore
  f 1 /r/a.o
  f 2 /r/a.c
  d /r/build
  f 3 /r/build/x.c
  d /r/lib
  f 20 /r/lib/.gitignore
  f 4 /r/lib/keep.o
  f 5 /r/lib/b.o
rules /r/.gitignore
  *.o
  build/
rules /r/lib/.gitignore
  !keep.o
$ tally --plain -b --apparent -E build -E .git /r
  29+{folders /r/lib}	/r/lib
  43+{folders /r}-{folders /r/build}-{folders /r/.git}	/r
$ tally --plain -b --apparent -E *.o -E !b.o -s /r
  141+{folders /r}	/r
$ tally --plain -b --apparent --exclude=/lib -s /r /r/lib
  117+{folders /r}-{folders /r/lib}	/r
! tally: /r/lib: left out, below an earlier root

# a root counts whatever names it
$ tally --plain -b --apparent --exclude=/lib -s /r/lib /r
  29+{folders /r/lib}	/r/lib
  117+{folders /r}-{folders /r/lib}	/r
$ tally --plain -b --apparent --exclude=lib -s /r/lib
  29+{folders /r/lib}	/r/lib

# ignore files leave out what they name if that is asked for
$ tally --plain -b --apparent -s /r
  146+{folders /r}	/r
$ tally --plain -b --apparent -a --ignore /r
  11	/r/.gitignore
  2	/r/a.c
  20	/r/lib/.gitignore
  4	/r/lib/keep.o
  24+{folders /r/lib}	/r/lib
  37+{folders /r}-{folders /r/build}-{folders /r/.git}	/r
$ tally --plain -b --apparent --ignore --exclude-hidden /r
  4+{folders /r/lib}	/r/lib
  6+{folders /r}-{folders /r/build}-{folders /r/.git}	/r
$ tally --plain -b --apparent --ignore -E lib /r
  13+{folders /r}-{folders /r/build}-{folders /r/.git}-{folders /r/lib}	/r
$ tally --plain -b --apparent --ignore /r/lib
  24+{folders /r/lib}	/r/lib

# what is left out makes no errors, though its type can't be found
tree
  d /r
  d /r/x
  f 1 /r/x/.h
  f 1 /r/x/e
  f 1 /r/x/i
  m 444 /r/x
rules /r/.ignore
  i
nobody
$ tally --plain -b --apparent --exclude-hidden -E e -E i /r
  {folders /r/x}	/r/x
  {folders /r}	/r
$ tally --plain -b --apparent --exclude-hidden -E e /r
  {folders /r/x}	/r/x
  {folders /r}	/r
! tally: /r/x/i: Permission denied (os error 13)
= 1
$ tally --plain -b --apparent --exclude-hidden --ignore -E e /r
  {folders /r/x}	/r/x
  {folders /r}	/r
$ tally --plain -b --apparent -E e -E i -E .ignore /r
  {folders /r/x}	/r/x
  {folders /r}	/r
! tally: /r/x/.h: Permission denied (os error 13)
= 1
$ tally --plain -b --apparent --ignore -E .* -E e/ /r
  {folders /r/x}	/r/x
  {folders /r}	/r
! tally: /r/x/e: Permission denied (os error 13)
= 1

# a file of lines leaves out what they name, and lines of -E decide behind it
tree
  d /t
  f 5000 /t/x.o
  f 70 /t/kept.o
  f 3000 /t/y.c
  f 4 /ex
rules /ex
  *.o
$ tally --plain -b --apparent -a -X /ex /t
  3000	/t/y.c
  3000+{folders /t}	/t
$ tally --plain -b --apparent -a -E !kept.o -X /ex /t
  70	/t/kept.o
  3000	/t/y.c
  3070+{folders /t}	/t
$ tally --plain -X /none /t
! tally: /none: No such file or directory (os error 2)
= 1
