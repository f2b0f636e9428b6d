-- Ignore files that a call names, and those of the user.

# ignore files that are named
tree
  d t
  d t/r
  d t/r/.git
  f 1 t/r/a.o
  f 1 t/r/b.c
  d t/r/s
  f 1 t/r/s/b.c
  f 1 t/r/s/top
  f 1 t/r/top
  d t/p
  f 1 t/p/a.o
  f 1 t/p/b.c
  f 1 t/p/top
rules objects
  *.o
rules in/folders
  /t/p/b.c
  r/s
  /p
rules kept
  \xef\xbb\xbf!a.o
$ seek --ignore-file objects . t
  t/p
  t/p/b.c
  t/p/top
  t/r
  t/r/b.c
  t/r/s
  t/r/s/b.c
  t/r/s/top
  t/r/top

# a slash in front is the folder that the program runs in
$ seek --ignore-file=in/folders . t
  t/p
  t/p/a.o
  t/p/top
  t/r
  t/r/a.o
  t/r/b.c
  t/r/s
  t/r/s/b.c
  t/r/s/top
  t/r/top

# the last one decides
$ seek --ignore-file=objects --ignore-file=kept . t
  t/p
  t/p/a.o
  t/p/b.c
  t/p/top
  t/r
  t/r/a.o
  t/r/b.c
  t/r/s
  t/r/s/b.c
  t/r/s/top
  t/r/top
$ seek --ignore-file=kept --ignore-file=objects .o t
  t/p/top
  t/r/s/top
  t/r/top

# no other ignore files
$ seek -I --ignore-file=objects . t/p
  t/p/b.c
  t/p/top
$ seek -HI --ignore-file=in/folders . t
  t/p
  t/p/a.o
  t/p/top
  t/r
  t/r/.git
  t/r/a.o
  t/r/b.c
  t/r/s
  t/r/s/b.c
  t/r/s/top
  t/r/top
$ seek -I --ignore-file=in/folders -E=top . ./t/p
  ./t/p/a.o
$ seek -I --ignore-file=objects --ignore-file=kept .o t/p
  t/p/a.o
  t/p/top

# one that cannot be read
$ seek --ignore-file none -d1 . t
  t/p
  t/r
! seek: none: No such file or directory (os error 2)
$ seek -I --ignore-file none --ignore-file objects -d1 . t/p
  t/p/b.c
  t/p/top
! seek: none: No such file or directory (os error 2)

# named ignore files decide last
tree
  d t
  f 1 t/a
  f 1 t/b
  d t/.git
rules t/.ignore
  !a
rules /t/.ignore
  !a
rules named
  a
  b
rules t/.git/info/exclude
  !b
$ seek --ignore-file=named . t
  t/a
  t/b
$ seek --ignore-file=named --no-ignore-vcs . t
  t/a

# the user's excludes
tree
  d t
  d t/r
  d t/r/.git
  f 1 t/r/a.o
  f 1 t/r/b.c
  d t/r/s
  f 1 t/r/s/b.c
  f 1 t/r/s/top
  f 1 t/r/top
  d t/p
  f 1 t/p/a.o
  f 1 t/p/b.c
  f 1 t/p/top
rules /home/u/.config/git/ignore
  *.o
  /top
$ seek . t
  t/p
  t/p/a.o
  t/p/b.c
  t/p/top
  t/r
  t/r/b.c
  t/r/s
  t/r/s/b.c
  t/r/s/top
$ seek --no-global-ignore-file . t
  t/p
  t/p/a.o
  t/p/b.c
  t/p/top
  t/r
  t/r/a.o
  t/r/b.c
  t/r/s
  t/r/s/b.c
  t/r/s/top
  t/r/top
$ seek --no-ignore-vcs . t
  t/p
  t/p/a.o
  t/p/b.c
  t/p/top
  t/r
  t/r/a.o
  t/r/b.c
  t/r/s
  t/r/s/b.c
  t/r/s/top
  t/r/top
$ seek -I . t
  t/p
  t/p/a.o
  t/p/b.c
  t/p/top
  t/r
  t/r/a.o
  t/r/b.c
  t/r/s
  t/r/s/b.c
  t/r/s/top
  t/r/top

# where .git is a file
tree
  d t
  f 1 t/.git
  f 1 t/a.o
  f 1 t/b.c
  d t/s
  f 1 t/s/c.o
  f 1 t/s/top
  f 1 t/top
rules /home/u/.config/git/ignore
  *.o
  /top
$ seek . t
  t/b.c
  t/s
  t/s/top
$ seek --no-global-ignore-file -d1 . t
  t/a.o
  t/b.c
  t/s
  t/top

# the first configuration names the file
tree
  d t
  d t/r
  d t/r/.git
  f 1 t/r/a.o
  f 1 t/r/b.c
  d t/r/s
  f 1 t/r/s/b.c
  f 1 t/r/s/top
  f 1 t/r/top
  d t/p
  f 1 t/p/a.o
  f 1 t/p/b.c
  f 1 t/p/top
rules /home/u/.gitconfig
  [user]
  \x09excludesFile = /x
  [Core] ; git
  \x09ExcludesFile = "~/my ignore" # mine
  [x]
  excludesfile=/y
rules /home/u/.config/git/config
  [core]
  excludesfile=/z
rules /home/u/.config/git/ignore
  b.c
rules /home/u/my ignore
  *.o
  /top
$ seek . t
  t/p
  t/p/a.o
  t/p/b.c
  t/p/top
  t/r
  t/r/b.c
  t/r/s
  t/r/s/b.c
  t/r/s/top

# the second one does, and a repository's own rules decide before
tree
  d t
  d t/r
  d t/r/.git
  f 1 t/r/a.o
  f 1 t/r/b.c
  d t/r/s
  f 1 t/r/s/b.c
  f 1 t/r/s/top
  f 1 t/r/top
  d t/p
  f 1 t/p/a.o
  f 1 t/p/b.c
  f 1 t/p/top
rules /home/u/.gitconfig
  [user]
  name = u
rules /home/u/.config/git/config
  [core]
  excludesfile=~/z ; all
rules /home/u/z
  *.o
  /top
rules t/r/.git/info/exclude
  !a.o
$ seek . t
  t/p
  t/p/a.o
  t/p/b.c
  t/p/top
  t/r
  t/r/a.o
  t/r/b.c
  t/r/s
  t/r/s/b.c
  t/r/s/top

# the user's excludes aren't read outside of repositories
tree
  d /t
  d /t/p
  f 1 /t/p/b.c
  f 1 /home/u/.config/git/ignore
  m 0 /home/u/.config/git/ignore
nobody
$ seek b t/p
  t/p/b.c
