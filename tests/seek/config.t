# a setting on the line of its header, behind a byte order mark
tree
  d /r/.git
  f 1 /r/a.o
  f 1 /r/b.c
rules /home/u/.gitconfig
  \xef\xbb\xbf[Core] excludesFile = "~/o" # mine
rules /home/u/o
  *.o
$ seek . /r
  /r/b.c

# quotes anywhere, a mark of a comment in them, escapes, and spaces
tree
  d /r/.git
  f 1 /r/a.o
  f 1 /r/b.c
rules /home/u/.gitconfig
  ; [core]
  [core]
  \x09excludesfile \x09=  ~/"a # b"  c\x5c\x5c\x5c"d \x09; e
rules /home/u/a # b  c\x5c"d
  *.o
$ seek . /r
  /r/b.c

# a value goes on behind a backslash
tree
  d /r/.git
  f 1 /r/a.o
  f 1 /r/b.c
rules /home/u/.gitconfig
  [core]\x0d
  excludesFile = ~/\x5c\x0d
  o\x0d
rules /home/u/o
  *.o
$ seek . /r
  /r/b.c

# both files are read, and the later value counts
tree
  d /r/.git
  f 1 /r/a.o
  f 1 /r/b.c
rules /home/u/.config/git/config
  [core]
  excludesFile = ~/o
rules /home/u/.gitconfig
  [core "x"]
  excludesFile = ~/none
  [core.x]
  excludesFile = ~/none
  [core] [user] excludesFile = ~/none
  [core]
  excludesFile = ~/c
rules /home/u/o
  *.o
rules /home/u/c
  *.c
$ seek . /r
  /r/a.o

# an empty value names no file
tree
  d /r/.git
  f 1 /r/a.o
rules /home/u/.config/git/ignore
  *.o
rules /home/u/.gitconfig
  [core]
  excludesFile =
$ seek . /r
  /r/a.o

# included files
tree
  d /r/.git
  f 1 /r/a.o
  f 1 /r/b.c
rules /home/u/.gitconfig
  [include]
  path = none
  path = below/more
  [includeIf "gitdir:/"]
  path = other
rules /home/u/below/more
  [include]
  path = more2
rules /home/u/below/more2
  [core]
  excludesFile = ~/o
rules /home/u/other
  [core]
  excludesFile = ~/c
rules /home/u/o
  *.o
rules /home/u/c
  *.c
$ seek . /r
  /r/b.c

# a repository's own configuration comes last
tree
  d /r/.git
  f 1 /r/a.o
  f 1 /r/b.c
  d /s/.git
  f 1 /s/a.o
  f 1 /s/b.c
rules /home/u/.gitconfig
  [core]
  excludesFile = ~/o
rules /r/.git/config
  [core]
  excludesFile = ~/c
rules /home/u/o
  *.o
rules /home/u/c
  *.c
$ seek . /r
  /r/a.o
$ seek . /s
  /s/b.c

# a worktree has that of its repository
tree
  d /m/.git
  f 1 /w/a.o
  f 1 /w/b.c
rules /w/.git
  gitdir: ../m/.git/worktrees/w
rules /m/.git/worktrees/w/commondir
  ../..
rules /m/.git/config
  [core]
  excludesFile = ~/o
rules /home/u/o
  *.o
$ seek . /w
  /w/b.c

# a bad line is told where a repository is
tree
  d /r/.git
  f 1 /r/a.o
  f 1 /p/a.o
rules /home/u/.gitconfig
  [core]
  excludesFile = "~/o
rules /home/u/o
  *.o
$ seek . /r
  /r/a.o
! seek: /r/.git/info/exclude: /home/u/.gitconfig: bad config line 2
= 1
$ seek . /p
  /p/a.o
$ seek --no-global-ignore-file . /r
  /r/a.o

# a key without a value
tree
  d /r/.git
  f 1 /r/a.o
rules /home/u/.gitconfig
  [core]
  excludesFile
$ seek . /r
  /r/a.o
! seek: /r/.git/info/exclude: /home/u/.gitconfig: missing value on line 2
= 1

# a file that includes itself
tree
  d /r/.git
  f 1 /r/a.o
rules /home/u/.gitconfig
  [include]
  path = .gitconfig
$ seek . /r
  /r/a.o
! seek: /r/.git/info/exclude: /home/u/.gitconfig: included too deep
= 1

# excludes that can't be read
tree
  d /r/.git
  f 1 /r/a.o
  f 1 /home/u/x
  m 0 /home/u/x
rules /home/u/.gitconfig
  [core]
  excludesFile = ~/x
nobody
$ seek . /r
  /r/a.o
! seek: /r/.git/info/exclude: /home/u/x: Permission denied (os error 13)
= 1
