-- The meaning of words, and bad words.

# other words are bad
input
  d /r\c
$ walk
! walk: bad words
= 2
$ walk --sort --sort /r
! walk: bad words
= 2
$ walk --tree --tree /r
! walk: bad words
= 2
$ walk --batch 2 --crew 2 /r
! walk: bad words
= 2
$ walk --crew 2 --batch 2 /r
! walk: bad words
= 2
$ walk --crew 2 --crew 2 /r
! walk: bad words
= 2
$ walk --crew x /r
! walk: bad words
= 2
$ walk --crew 2
! walk: bad words
= 2
$ walk --min x /r
! walk: bad words
= 2
$ walk --min 3
! walk: bad words
= 2
$ walk /r /r
! walk: bad words
= 2

# the last word is the root whatever it looks like
input
$ walk --tree /
  0 d /
$ walk --tree --tree
  ! 0 --tree NotFound
= 1
$ walk --tree
  ! 0 --tree NotFound
= 1
$ walk --sort
  ! 0 --sort NotFound
= 1

# a walk goes over the tree where that is asked and else over the disk
input
  d /.r
  d /.r/a
$ walk --hidden --tree --max 1 /
  0 d /
  1 d /.r
$ walk --hidden --max 1 .
  0 d .

input
  no line of a tree\c
$ walk .
  0 d .

# depths have up to 20 digits
tree
  d /t
  f 1 /t/c.txt
  f 2 /t/a.txt
  d /t/group 2
  f 3 /t/group 2/.hidden_file.txt
  f 4 /t/group 2/e.txt
  d /t/group 1
  f 5 /t/group 1/d.txt
  f 6 /t/b.txt
$ walk --max 00000000000000000000 /t
  0 d /t
$ walk --min 00000000000000000002 /t
  2 f /t/group 2/e.txt
  2 f /t/group 1/d.txt
$ walk --min 18446744073709551615 /t

# the least depth is set before the greatest
$ walk --sort --min 5 --max 2 /t
$ walk --sort --max 2 --min 5 /t

# the first bad line is named
input
  d /r
  d /r
$ walk --tree /r
! walk: bad tree, line 2
= 2

input
  d /r\x0a
  f 1
$ walk --tree /r
! walk: bad tree, line 3
= 2
