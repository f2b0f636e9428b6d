-- Roots with directories in them, below which several threads read, and roots without.

tree
  f 1 /r/deep/a
  f 1 /r/deep/in/b
  f 1 /r/deep/in/.hidden/c
  f 1 /r/flat/a
  f 1 /r/flat/b.o
  f 1 /r/flat/.hidden
  f 1 /r/links/a
  l ../deep	/r/links/deep
  d /r/none
  f 1 /r/rules/a
  f 1 /r/rules/b.o
  f 1 /r/rules/.ignore
  f 1 /r/file
  l deep	/r/to_deep
  l flat	/r/to_flat
  l nowhere	/r/dead
rules /r/rules/.ignore
  *.o

# one root without directories, with one, without anything, with a link to a directory
$ seek . /r/flat
  /r/flat/a
  /r/flat/b.o
$ seek -I . /r/flat
  /r/flat/a
  /r/flat/b.o
$ seek -u . /r/flat
  /r/flat/.hidden
  /r/flat/a
  /r/flat/b.o
$ seek . /r/deep
  /r/deep/a
  /r/deep/in
  /r/deep/in/b
$ seek -I . /r/deep
  /r/deep/a
  /r/deep/in
  /r/deep/in/b
$ seek . /r/none
$ seek -u . /r/none
$ seek . /r/links
  /r/links/a
  /r/links/deep
$ seek -L . /r/links
  /r/links/a
  /r/links/deep
  /r/links/deep/a
  /r/links/deep/in
  /r/links/deep/in/b

# rules of a root without directories
$ seek . /r/rules
  /r/rules/a
$ seek -I . /r/rules
  /r/rules/a
  /r/rules/b.o

# all one after another, one of them twice
$ seek . /r/flat /r/deep /r/none /r/rules /r/to_flat /r/to_deep /r/flat
  /r/flat/a
  /r/flat/b.o
  /r/deep/a
  /r/deep/in
  /r/deep/in/b
  /r/rules/a
  /r/to_flat/a
  /r/to_flat/b.o
  /r/to_deep/a
  /r/to_deep/in
  /r/to_deep/in/b
  /r/flat/a
  /r/flat/b.o
$ seek -uL . /r/to_flat /r/links /r/none /r/to_deep
  /r/to_flat/.hidden
  /r/to_flat/a
  /r/to_flat/b.o
  /r/links/a
  /r/links/deep
  /r/links/deep/a
  /r/links/deep/in
  /r/links/deep/in/.hidden
  /r/links/deep/in/.hidden/c
  /r/links/deep/in/b
  /r/to_deep/a
  /r/to_deep/in
  /r/to_deep/in/.hidden
  /r/to_deep/in/.hidden/c
  /r/to_deep/in/b

# between them a file, a link that leads nowhere, and roots that are missing
$ seek a /r/flat /r/file /r/deep /r/dead /r/none/no /r/to_flat
  /r/flat/a
  /r/deep/a
  /r/to_flat/a
! seek: /r/file: Not a directory
! seek: /r/dead: No such file or directory (os error 2)
! seek: /r/none/no: No such file or directory (os error 2)
= 1

# limits end at any root
$ seek --sort --max-results 3 . /r/flat /r/deep /r/to_flat
  /r/flat/a
  /r/flat/b.o
  /r/deep/a
$ seek --sort --max-results 6 . /r/deep /r/flat /r/to_deep
  /r/deep/a
  /r/deep/in
  /r/deep/in/b
  /r/flat/a
  /r/flat/b.o
  /r/to_deep/a
$ seek -q b.o /r/deep /r/flat
$ seek -q c /r/deep /r/flat
= 1
