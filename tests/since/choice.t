# hidden names left out, and what is below them
tree
  d /keep
  d /r/d
  f 1 /r/a
  f 1 /r/.h
  f 1 /r/.g/in
$ since -j1 --save --exclude-hidden /keep/s /r
then
  f 0 /r/.new
  f 0 /r/.g/new
  - /r/.h
  f 0 /r/d/.new
  f 0 /r/d/new
$ since /keep/s
  + d/new
= 1
$ since --exclude-hidden /keep/s
  + d/new
= 1

# the file remembers: other words need --save
$ since -d 1 /keep/s
! since: /keep/s: was saved with --exclude-hidden: with other words, add --save
= 2
$ since --exclude-hidden -x -d 3 /keep/s
! since: /keep/s: was saved with --exclude-hidden: with other words, add --save
= 2
$ since -j1 --save --exclude-hidden -x -d 3 /keep/s
  + d/new
= 1
$ since /keep/s
$ since -x -d 3 --exclude-hidden /keep/s
$ since --exclude-hidden /keep/s
! since: /keep/s: was saved with --exclude-hidden --one-file-system --max-depth=3: with other words, add --save
= 2

# a depth: what lies below it is left out
tree
  d /keep
  f 1 /r/a
  f 1 /r/d/b
  f 1 /r/d/e/c
$ since -j1 --save -d 1 /keep/s /r
then
  f 1 /r/d/new
  f 1 /r/new
  - /r/d/e/c
$ since /keep/s
  + new
= 1
$ since -j1 --save -d 2 /keep/s
  + d/b
  + d/e
  + d/new
  + new
= 1
$ since /keep/s
$ since --max-depth 2 /keep/s
$ since --max-depth 3 /keep/s
! since: /keep/s: was saved with --max-depth=2: with other words, add --save
= 2

# a snapshot without words
tree
  d /keep
  f 1 /r/a
  f 1 /r/.h
$ since -j1 --save /keep/s /r
$ since --exclude-hidden /keep/s
! since: /keep/s: was saved without such words: with them, add --save
= 2
$ since -j1 --save --exclude-hidden /keep/s
  - .h
= 1
$ since /keep/s

# a line leaves out what it names, and what is below it. Of several the last that matches decides
tree
  d /keep
  f 1 /r/a.c
  f 1 /r/a.o
  f 1 /r/lib/b.o
  f 1 /r/lib/kept.o
  f 1 /r/out/x.c
$ since -j1 --save -E *.o -E !kept.o -E /out /keep/s /r
then
  f 9 /r/a.o
  f 1 /r/c.o
  f 1 /r/lib/out/new
  f 9 /r/lib/kept.o
  f 1 /r/out/y.c
$ since -l /keep/s
  ~ lib/kept.o\x09length\x09time
  + lib/out
  + lib/out/new
= 1
$ since --exclude=*.o -E !kept.o -E /out -q /keep/s
= 1
$ since --rows -q /keep/s

# the file remembers the lines in their order
$ since -E *.o -E /out -E !kept.o /keep/s
! since: /keep/s: was saved with --exclude=*.o --exclude=!kept.o --exclude=/out: with other words, add --save
= 2
$ since -d 9 /keep/s
! since: /keep/s: was saved with --exclude=*.o --exclude=!kept.o --exclude=/out: with other words, add --save
= 2
$ since --quick /keep/s
! since: /keep/s: was saved with --exclude or --ignore, which --quick excludes
= 2
$ since -j1 --save -E a.? /keep/s
  - a.c
  + c.o
  + lib/b.o
  ~ lib/kept.o
  + lib/out
  + lib/out/new
  + out
  + out/x.c
  + out/y.c
= 1
$ since /keep/s

# ignore files leave out what they name, and the repository's own folder
tree
  d /keep
  d /r/.git
  f 1 /r/.git/index
  f 1 /r/.hidden
  f 7 /r/.gitignore
  f 1 /r/a.c
  f 1 /r/a.o
  f 1 /r/lib/a.o
  f 9 /r/lib/.gitignore
rules /r/.gitignore
  *.o
rules /r/lib/.gitignore
  !a.o
$ since -j1 --save --ignore /keep/s /r
then
  f 2 /r/.git/index
  f 2 /r/.hidden
  f 2 /r/a.o
  f 2 /r/lib/a.o
  f 2 /r/b.o
$ since /keep/s
  ~ .hidden
  ~ lib/a.o
= 1
$ since --ignore /keep/s
  ~ .hidden
  ~ lib/a.o
= 1
$ since --ignore --exclude-hidden /keep/s
! since: /keep/s: was saved with --ignore: with other words, add --save
= 2
$ since --quick /keep/s
! since: /keep/s: was saved with --exclude or --ignore, which --quick excludes
= 2

# with both, and without hidden names
$ since -j1 --save --ignore --exclude-hidden -E *.c /keep/s
  - .gitignore
  - .hidden
  - a.c
  - lib/.gitignore
  ~ lib/a.o
= 1
$ since --exclude-hidden -d 1 /keep/s
! since: /keep/s: was saved with --exclude-hidden --exclude=*.c --ignore: with other words, add --save
= 2

# what is left out makes no errors, though its type can't be found
tree
  m 777 /keep
  d /keep
  d /r/x
  f 1 /r/x/.h
  f 1 /r/x/e
  f 1 /r/x/i
  m 444 /r/x
nobody
$ since -j1 --save --exclude-hidden -E e -E i /keep/s /r
$ since /keep/s
$ since -j1 --save -E e -E i /keep/s
!~ since: /r/x/.h: Permission denied (os error 13)
= 2
$ since -j1 --save --exclude-hidden -E e /keep/s
!~ since: /r/x/i: Permission denied (os error 13)
= 2
