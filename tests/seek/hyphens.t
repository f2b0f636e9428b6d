-- Sizes and roots that begin with a hyphen.

# a size in a word of its own
tree
  d /s
  f 999 /s/a
  f 1000 /s/b
  f 1024 /s/c
  f 5 /s/.h
  f 5 /s/-1k
$ seek -S -1k . /s
  /s/-1k
  /s/a
  /s/b
$ seek --size -1k . /s
  /s/-1k
  /s/a
  /s/b
$ seek . /s -S -1k
  /s/-1k
  /s/a
  /s/b
$ seek -HS -10b . /s
  /s/-1k
  /s/.h
$ seek -S +1k -IS -1ki . /s
  /s/b
  /s/c
$ seek -S -1k -S -10b . /s
  /s/-1k

# another option behind a size
$ seek --sort -S +1k -1 . /s
  /s/b

# words that are not joined: an extension and another option, and what is behind two hyphens
tree
  d /s
  f 1 /s/a.S
  f 1 /s/b.S
$ seek --sort -eS -1 . /s
  /s/a.S
$ seek -- -S /s
$ seek -I -- S /s
  /s/a.S
  /s/b.S

# words that are refused
$ seek -S -H . /s
!~ '--size <SIZE>'
= 2
$ seek -S - . /s
! seek: '-' is no size: write a number and a unit, as in +10k, with + for at least and - for at most that
= 2
$ seek -d -1 . /s
!~ --max-depth
= 2

# a root of the name of an option or of a size
$ seek -- --size -1k
! seek: -1k: No such file or directory (os error 2)
= 1
$ seek -tf -- ^a /s --
  /s/a.S
! seek: --: No such file or directory (os error 2)
= 1
