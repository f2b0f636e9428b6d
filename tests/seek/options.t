-- Each option.

# hidden
tree
  d /t
  f 1 /t/a.txt
  f 1 /t/B.TXT
  f 1 /t/.hidden
  d /t/sub
  f 1 /t/sub/c.rs
  f 1 /t/sub/notes.tar.gz
  d /t/sub/deep
  f 1 /t/sub/deep/a.rs
  l a.txt	/t/link
  l sub	/t/down
$ seek hid /t
$ seek -H hid /t
  /t/.hidden
$ seek --hidden hid /t
  /t/.hidden

# follow
$ seek -L ^c /t
  /t/down/c.rs
  /t/sub/c.rs
$ seek --follow ^c /t
  /t/down/c.rs
  /t/sub/c.rs
$ seek -L --no-follow ^c /t
  /t/sub/c.rs
$ seek --no-follow -L ^c /t
  /t/down/c.rs
  /t/sub/c.rs

$ seek --dereference ^c /t
  /t/down/c.rs
  /t/sub/c.rs

# types
$ seek -t d . /t
  /t/sub
  /t/sub/deep
$ seek -tl . /t
  /t/down
  /t/link
$ seek --type=f ^a /t
  /t/a.txt
  /t/sub/deep/a.rs
$ seek -t o . /t
$ seek -t l -t d -d1 . /t
  /t/down
  /t/link
  /t/sub
$ seek -L -tl . /t

# extensions
$ seek -e txt . /t
  /t/B.TXT
  /t/a.txt
$ seek -e rs -e gz . /t
  /t/sub/c.rs
  /t/sub/deep/a.rs
  /t/sub/notes.tar.gz
$ seek --extension=tar.gz . /t
  /t/sub/notes.tar.gz
$ seek -e .TAR.gz . /t
  /t/sub/notes.tar.gz
$ seek -e hidden -H . /t

# what is no size
$ seek -S+k . /t
!~ '+k' is no size
= 2
$ seek -S1x . /t
!~ '1x' is no size
= 2
$ seek -S 18446744073709551616b . /t
!~ '18446744073709551616b' is no size
= 2
$ seek -S 18014398509481984ki . /t
!~ '18014398509481984ki' is no size
= 2
$ seek -S 1 . /t
! seek: '1' is no size: write a number and a unit, as in +10k, with + for at least and - for at most that
= 2

# exclude
$ seek -E sub . /t
  /t/B.TXT
  /t/a.txt
  /t/down
  /t/link
$ seek -E *.rs -E !a.rs rs$ /t
  /t/sub/deep/a.rs
$ seek --exclude=/deep deep /t
  /t/sub/deep
$ seek --exclude=/sub/deep deep /t
$ seek -I -E link/ link /t
  /t/link

# prune
$ seek --prune ^sub|^c /t
  /t/sub
$ seek --prune . /t
  /t/B.TXT
  /t/a.txt
  /t/down
  /t/link
  /t/sub
$ seek --prune -tf rs$ /t
  /t/sub/c.rs
  /t/sub/deep/a.rs
$ seek --prune deep|rs$ /t
  /t/sub/c.rs
  /t/sub/deep
$ seek --sort --prune --max-results=2 sub|deep|down /t
  /t/down
  /t/sub
$ seek --prune -I ^sub|^c /t /t/sub
  /t/sub
  /t/sub/c.rs

# more roots
$ seek ^c|^a --search-path=/t/sub
  /t/sub/c.rs
  /t/sub/deep/a.rs
$ seek ^a --search-path /t/sub /t --search-path=/t/sub/deep
  /t/a.txt
  /t/sub/deep/a.rs
  /t/sub/deep/a.rs
  /t/sub/deep/a.rs

# several roots in their order
$ seek ^a /t/sub /t
  /t/sub/deep/a.rs
  /t/a.txt
  /t/sub/deep/a.rs

# no root is the folder without a dot in front
$ seek ^a
  t/a.txt
  t/sub/deep/a.rs
$ seek -d1
  t
$ seek ^a .
  ./t/a.txt
  ./t/sub/deep/a.rs
$ seek -p ^/t/a
  t/a.txt

# a root is not printed
$ seek sub /t/sub

# absolute path
$ seek -a ^a
  /t/a.txt
  /t/sub/deep/a.rs
$ seek -a ^a t
  /t/a.txt
  /t/sub/deep/a.rs
$ seek --absolute-path ^a ./t
  /t/a.txt
  /t/sub/deep/a.rs
$ seek -a ^a /t
  /t/a.txt
  /t/sub/deep/a.rs
$ seek -ap ^/t/a t
  /t/a.txt
$ seek -a0 ^b t
  /t/B.TXT\x00
$ seek -a --relative-path ^b t
  t/B.TXT
$ seek --relative-path -a ^b t
  /t/B.TXT

# max depth
$ seek -d 1 . /t
  /t/B.TXT
  /t/a.txt
  /t/down
  /t/link
  /t/sub
$ seek -d1 . /t
  /t/B.TXT
  /t/a.txt
  /t/down
  /t/link
  /t/sub
$ seek --max-depth=1 . /t
  /t/B.TXT
  /t/a.txt
  /t/down
  /t/link
  /t/sub
$ seek --maxdepth 1 . /t
  /t/B.TXT
  /t/a.txt
  /t/down
  /t/link
  /t/sub
$ seek --max-depth 0 . /t

# min depth
$ seek --min-depth 3 . /t
  /t/sub/deep/a.rs
$ seek --min-depth 0 . /t
  /t/B.TXT
  /t/a.txt
  /t/down
  /t/link
  /t/sub
  /t/sub/c.rs
  /t/sub/deep
  /t/sub/deep/a.rs
  /t/sub/notes.tar.gz

# exact depth
$ seek --exact-depth 2 . /t
  /t/sub/c.rs
  /t/sub/deep
  /t/sub/notes.tar.gz
$ seek --exact-depth 0 . /t

# options behind the roots
$ seek hid /t -H
  /t/.hidden
$ seek -H -- hid /t
  /t/.hidden

# colors
$ seek --color always ^a|rs$|link /t
  \x1b[34m/t/\x1b[0ma.txt
  \x1b[34m/t/\x1b[0m\x1b[01;36mlink\x1b[0m
  \x1b[34m/t/sub/\x1b[0m\x1b[31mc.rs\x1b[0m
  \x1b[34m/t/sub/deep/\x1b[0m\x1b[31ma.rs\x1b[0m
$ seek --color=always ^sub /t
  \x1b[34m/t/\x1b[0m\x1b[34msub\x1b[0m
$ seek -c always ^sub /t
  \x1b[34m/t/\x1b[0m\x1b[34msub\x1b[0m
$ seek --color=auto ^sub /t
  /t/sub
$ seek --color=never ^sub /t
  /t/sub

# no folder in front
$ seek --strip-cwd-prefix ^sub /t
  /t/sub

# print0
$ seek -0 ^a /t
  /t/a.txt\x00
  /t/sub/deep/a.rs\x00
$ seek --print0 ^a /t
  /t/a.txt\x00
  /t/sub/deep/a.rs\x00

# sort
$ seek --sort -d1 . /t
  /t/B.TXT
  /t/a.txt
  /t/down
  /t/link
  /t/sub

# results
$ seek --sort -1 txt /t
  /t/B.TXT
$ seek --sort --max-results=2 txt /t
  /t/B.TXT
  /t/a.txt
$ seek --max-results 3 txt /t
  /t/B.TXT
  /t/a.txt
$ seek --max-results=0 txt /t
  /t/B.TXT
  /t/a.txt
$ seek --sort --max-results=2 ^a /t/sub /t /no
  /t/sub/deep/a.rs
  /t/a.txt
$ seek --sort -I1 ^a /t/sub /no /t
  /t/sub/deep/a.rs

# quiet
$ seek -q txt /t /no
$ seek --quiet nothing /t
= 1
$ seek -q txt /no /t
! seek: /no: No such file or directory (os error 2)
$ seek -q txt /no
! seek: /no: No such file or directory (os error 2)
= 1
$ seek -q1 -I txt /t

# threads
$ seek -j1 txt /t
  /t/B.TXT
  /t/a.txt
$ seek --threads=9 txt /t
  /t/B.TXT
  /t/a.txt
$ seek -j0 txt /t
  /t/B.TXT
  /t/a.txt
$ seek -j -1 txt /t
!~ --threads
= 2

# the last of an option counts
$ seek -d1 --maxdepth 9 -d2 ^c|^a.rs /t
  /t/sub/c.rs
$ seek --min-depth=9 --min-depth 3 . /t
  /t/sub/deep/a.rs
$ seek --exact-depth 1 --exact-depth=3 . /t
  /t/sub/deep/a.rs
$ seek -j1 --threads=4 txt /t
  /t/B.TXT
  /t/a.txt
$ seek --color=always -c never ^sub /t
  /t/sub
$ seek --color=never --color=always ^sub /t
  \x1b[34m/t/\x1b[0m\x1b[34msub\x1b[0m
$ seek --path-separator=+ --path-separator=# ^sub t
  t#sub
$ seek --base-directory=/none --base-directory /t ^a
  a.txt
  sub/deep/a.rs
$ seek --sort --max-results=0 --max-results=1 txt /t
  /t/B.TXT
$ seek --sort -1 --max-results=3 txt /t
  /t/B.TXT
  /t/a.txt
$ seek -1 --max-results=0 txt /t
  /t/B.TXT
  /t/a.txt
$ seek --sort --max-results=2 -1 txt /t
  /t/B.TXT
$ seek --sort --max-results=0 -1 txt /t
  /t/B.TXT
$ seek --exact-depth=1 -d2 --exact-depth=1 . /t
!~ --max-depth
= 2

# short options in one word
$ seek -HIsd1 hid /t
  /t/.hidden

# the same option twice
$ seek -HH --hidden hid /t
  /t/.hidden

# unrestricted
tree
  d /r
  f 1 /r/a
  f 1 /r/.h
rules /r/.ignore
  a
$ seek . /r
$ seek -u . /r
  /r/.h
  /r/.ignore
  /r/a
$ seek -uu . /r
  /r/.h
  /r/.ignore
  /r/a
$ seek --unrestricted . /r
  /r/.h
  /r/.ignore
  /r/a

# sizes
tree
  d /s
  f 999 /s/a
  f 1000 /s/b
  f 1024 /s/c
  f 1025 /s/d
  d /s/e
  l b	/s/l
$ seek -S +1k . /s
  /s/b
  /s/c
  /s/d
$ seek -S-1k . /s
  /s/a
  /s/b
$ seek -S 1k . /s
  /s/b
$ seek --size=+1ki . /s
  /s/c
  /s/d
$ seek -S 1025B . /s
  /s/d
$ seek -S -1M . /s
  /s/a
  /s/b
  /s/c
  /s/d
$ seek -S -1mi -S +1KI . /s
  /s/c
  /s/d
$ seek -S 1k --size=+1B . /s
  /s/b
$ seek -S+1Kb -S-1KiB . /s
  /s/b
  /s/c
$ seek -S+1m . /s
$ seek -L -S1k . /s
  /s/b
  /s/l
$ seek -S+0b -td . /s

# empty files and directories
tree
  d /r
  d /r/d
  d /r/d/h
  f 0 /r/d/h/.h
  f 0 /r/d/z
  d /r/e
  f 1 /r/a
  f 0 /r/z
  l e	/r/le
  l z	/r/lz
  l none	/r/gone
$ seek -t e . /r
  /r/d/z
  /r/e
  /r/z
$ seek -t empty -t f . /r
  /r/d/z
  /r/z
$ seek -te -td . /r
  /r/e
$ seek -te -tl . /r
  /r/d/z
  /r/e
  /r/z
$ seek -te -tx . /r
$ seek -H -te . /r
  /r/d/h/.h
  /r/d/z
  /r/e
  /r/z
$ seek -L -te . /r
  /r/d/z
  /r/e
  /r/le
  /r/lz
  /r/z
$ seek -te --prune . /r
  /r/d/z
  /r/e
  /r/z
$ seek -te -S0b . /r
  /r/d/z
  /r/z
$ seek -te --exact-depth 2 . /r
  /r/d/z
$ seek -q -te ^a$ /r
= 1
$ seek -q -te ^e$ /r

tree
  d /r
  d /r/x
  x /r/x
nobody
$ seek -te . /r
! seek: /r/x: Permission denied (os error 13)
= 1

# prune and errors
tree
  d /r
  d /r/x
  d /r/x/y
  f 1 /r/x/y/a
  f 1 /r/z
  x /r/x/y
nobody
$ seek --prune . /r
  /r/x
  /r/z
$ seek --prune y /r
  /r/x/y
! seek: /r/x/y: Permission denied (os error 13)
= 1
$ seek --prune z /r
  /r/z
! seek: /r/x/y: Permission denied (os error 13)
= 1

tree
  d /r
  d /r/x
  l ..	/r/x/up
  f 1 /r/x/z
  f 1 /r/z
$ seek -L --prune . /r
  /r/x
  /r/z
$ seek -L --prune z /r
  /r/x/z
  /r/z
! seek: /r/x/up: a link that leads back to /r
= 1

# one file system
$ seek --one-file-system ^ptmx$ /dev
  /dev/ptmx
$ seek --mount ^ptmx$ /dev
  /dev/ptmx
$ seek --xdev ^ptmx$ /dev
  /dev/ptmx
