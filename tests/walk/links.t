-- Links, followed and not.

# a link to a directory above is a loop
tree
  d /r
  d /r/a
  d /r/a/b
  d /r/a/b/c
  l /r/a	/r/a/b/c/a-link
$ walk /r
  0 d /r
  1 d /r/a
  2 d /r/a/b
  3 d /r/a/b/c
  4 L /r/a/b/c/a-link
$ walk --follow /r
  0 d /r
  1 d /r/a
  2 d /r/a/b
  3 d /r/a/b/c
  ! 4 /r/a/b/c/a-link loop /r/a
= 1

tree
  d /r
  d /r/a
  d /r/a/b
  d /r/a/b/c
  l ../..	/r/a/b/c/a-link
$ walk --follow /r
  0 d /r
  1 d /r/a
  2 d /r/a/b
  3 d /r/a/b/c
  ! 4 /r/a/b/c/a-link loop /r/a
= 1

tree
  d /r
  l .	/r/l
$ walk --follow /r
  0 d /r
  ! 1 /r/l loop /r
= 1

-- What the links on the way lead to isn't looked up in memory, where the link's text decides: /r/k/l joined to the path of
-- its directory is /r. On the disk directories are told by device and inode: the link leads to /s, and it is only the link
-- below that that leads back.
input
  d /r
  l /s/t	/r/k
  d /s
  d /s/t
  l ..	/s/t/l
$ walk --tree --follow /r
  0 d /r
  1 D /r/k
  ! 2 /r/k/l loop /r
= 1

disk
  d /r
  l /s/t	/r/k
  d /s
  d /s/t
  l ..	/s/t/l
$ walk --follow /r
  0 d /r
  1 D /r/k
  2 D /r/k/l
  3 d /r/k/l/t
  ! 4 /r/k/l/t/l loop /r/k/l
= 1

-- In memory a path that ends with a slash is that of the link. On the disk it is that of what the link leads to, and the
-- directory above is named as the root was written.
input
  d /s
  l /s	/l
  l /l	/s/k
$ walk --tree --follow /l/
  0 D /l
  ! 1 /l/k loop /l
= 1

disk
  d /s
  l /s	/l
  l /l	/s/k
$ walk --follow /l/
  0 d /l
  ! 1 /l/k loop /l/
= 1

# a link beside its directory
tree
  d /r
  d /r/a
  f 0 /r/a/zzz
  l a	/r/a-link
$ walk /r/a-link
  0 L /r/a-link
  1 f /r/a-link/zzz
$ walk --follow /r/a-link
  0 D /r/a-link
  1 f /r/a-link/zzz
$ walk --follow /r
  0 d /r
  1 d /r/a
  2 f /r/a/zzz
  1 D /r/a-link
  2 f /r/a-link/zzz

# links to files and to nothing
tree
  d /r
  f 3 /r/f
  l f	/r/l
$ walk --follow /r
  0 d /r
  1 f /r/f
  1 F /r/l

tree
  d /r
  l a	/r/a
$ walk --follow /r
  0 d /r
  ! 1 /r/a Other
= 1
$ walk /r
  0 d /r
  1 L /r/a

input
  d /r
  l 	/r/l
$ walk --tree --follow /r
  0 d /r
  ! 1 /r/l NotFound
= 1

input
  d /r
  l 	/r/a\x09b\c
$ walk --tree /r
  0 d /r
  1 L /r/a\x09b

tree
  l /nowhere	/x
$ walk /x
  ! 0 /x NotFound
= 1

# links to each other
-- A loop that the texts don't show is gone round in memory until a path leads through more than 40 links. On the disk the
-- second link leads back to the directory that the first one is in.
disk
  d /r
  d /r/a
  l ../b	/r/a/l
  d /r/b
  l ../a	/r/b/m
$ walk --follow /r
  0 d /r
  1 d /r/a
  2 D /r/a/l
  ! 3 /r/a/l/m loop /r/a
  1 d /r/b
  2 D /r/b/m
  ! 3 /r/b/m/l loop /r/b
= 1

input
  d /r
  d /r/a
  l ../b	/r/a/l
  d /r/b
  l ../a	/r/b/m
$ walk --tree --follow /r
  0 d /r
  1 d /r/a
  2 D /r/a/l
  3 D /r/a/l/m
  4 D /r/a/l/m/l
  5 D /r/a/l/m/l/m
  6 D /r/a/l/m/l/m/l
  7 D /r/a/l/m/l/m/l/m
  8 D /r/a/l/m/l/m/l/m/l
  9 D /r/a/l/m/l/m/l/m/l/m
  10 D /r/a/l/m/l/m/l/m/l/m/l
  11 D /r/a/l/m/l/m/l/m/l/m/l/m
  12 D /r/a/l/m/l/m/l/m/l/m/l/m/l
  13 D /r/a/l/m/l/m/l/m/l/m/l/m/l/m
  14 D /r/a/l/m/l/m/l/m/l/m/l/m/l/m/l
  15 D /r/a/l/m/l/m/l/m/l/m/l/m/l/m/l/m
  16 D /r/a/l/m/l/m/l/m/l/m/l/m/l/m/l/m/l
  17 D /r/a/l/m/l/m/l/m/l/m/l/m/l/m/l/m/l/m
  18 D /r/a/l/m/l/m/l/m/l/m/l/m/l/m/l/m/l/m/l
  19 D /r/a/l/m/l/m/l/m/l/m/l/m/l/m/l/m/l/m/l/m
  20 D /r/a/l/m/l/m/l/m/l/m/l/m/l/m/l/m/l/m/l/m/l
  21 D /r/a/l/m/l/m/l/m/l/m/l/m/l/m/l/m/l/m/l/m/l/m
  22 D /r/a/l/m/l/m/l/m/l/m/l/m/l/m/l/m/l/m/l/m/l/m/l
  23 D /r/a/l/m/l/m/l/m/l/m/l/m/l/m/l/m/l/m/l/m/l/m/l/m
  24 D /r/a/l/m/l/m/l/m/l/m/l/m/l/m/l/m/l/m/l/m/l/m/l/m/l
  25 D /r/a/l/m/l/m/l/m/l/m/l/m/l/m/l/m/l/m/l/m/l/m/l/m/l/m
  26 D /r/a/l/m/l/m/l/m/l/m/l/m/l/m/l/m/l/m/l/m/l/m/l/m/l/m/l
  27 D /r/a/l/m/l/m/l/m/l/m/l/m/l/m/l/m/l/m/l/m/l/m/l/m/l/m/l/m
  28 D /r/a/l/m/l/m/l/m/l/m/l/m/l/m/l/m/l/m/l/m/l/m/l/m/l/m/l/m/l
  29 D /r/a/l/m/l/m/l/m/l/m/l/m/l/m/l/m/l/m/l/m/l/m/l/m/l/m/l/m/l/m
  30 D /r/a/l/m/l/m/l/m/l/m/l/m/l/m/l/m/l/m/l/m/l/m/l/m/l/m/l/m/l/m/l
  31 D /r/a/l/m/l/m/l/m/l/m/l/m/l/m/l/m/l/m/l/m/l/m/l/m/l/m/l/m/l/m/l/m
  32 D /r/a/l/m/l/m/l/m/l/m/l/m/l/m/l/m/l/m/l/m/l/m/l/m/l/m/l/m/l/m/l/m/l
  33 D /r/a/l/m/l/m/l/m/l/m/l/m/l/m/l/m/l/m/l/m/l/m/l/m/l/m/l/m/l/m/l/m/l/m
  34 D /r/a/l/m/l/m/l/m/l/m/l/m/l/m/l/m/l/m/l/m/l/m/l/m/l/m/l/m/l/m/l/m/l/m/l
  35 D /r/a/l/m/l/m/l/m/l/m/l/m/l/m/l/m/l/m/l/m/l/m/l/m/l/m/l/m/l/m/l/m/l/m/l/m
  36 D /r/a/l/m/l/m/l/m/l/m/l/m/l/m/l/m/l/m/l/m/l/m/l/m/l/m/l/m/l/m/l/m/l/m/l/m/l
  37 D /r/a/l/m/l/m/l/m/l/m/l/m/l/m/l/m/l/m/l/m/l/m/l/m/l/m/l/m/l/m/l/m/l/m/l/m/l/m
  38 D /r/a/l/m/l/m/l/m/l/m/l/m/l/m/l/m/l/m/l/m/l/m/l/m/l/m/l/m/l/m/l/m/l/m/l/m/l/m/l
  39 D /r/a/l/m/l/m/l/m/l/m/l/m/l/m/l/m/l/m/l/m/l/m/l/m/l/m/l/m/l/m/l/m/l/m/l/m/l/m/l/m
  40 D /r/a/l/m/l/m/l/m/l/m/l/m/l/m/l/m/l/m/l/m/l/m/l/m/l/m/l/m/l/m/l/m/l/m/l/m/l/m/l/m/l
  41 D /r/a/l/m/l/m/l/m/l/m/l/m/l/m/l/m/l/m/l/m/l/m/l/m/l/m/l/m/l/m/l/m/l/m/l/m/l/m/l/m/l/m
  ! 42 /r/a/l/m/l/m/l/m/l/m/l/m/l/m/l/m/l/m/l/m/l/m/l/m/l/m/l/m/l/m/l/m/l/m/l/m/l/m/l/m/l/m/l Other
  1 d /r/b
  2 D /r/b/m
  3 D /r/b/m/l
  4 D /r/b/m/l/m
  5 D /r/b/m/l/m/l
  6 D /r/b/m/l/m/l/m
  7 D /r/b/m/l/m/l/m/l
  8 D /r/b/m/l/m/l/m/l/m
  9 D /r/b/m/l/m/l/m/l/m/l
  10 D /r/b/m/l/m/l/m/l/m/l/m
  11 D /r/b/m/l/m/l/m/l/m/l/m/l
  12 D /r/b/m/l/m/l/m/l/m/l/m/l/m
  13 D /r/b/m/l/m/l/m/l/m/l/m/l/m/l
  14 D /r/b/m/l/m/l/m/l/m/l/m/l/m/l/m
  15 D /r/b/m/l/m/l/m/l/m/l/m/l/m/l/m/l
  16 D /r/b/m/l/m/l/m/l/m/l/m/l/m/l/m/l/m
  17 D /r/b/m/l/m/l/m/l/m/l/m/l/m/l/m/l/m/l
  18 D /r/b/m/l/m/l/m/l/m/l/m/l/m/l/m/l/m/l/m
  19 D /r/b/m/l/m/l/m/l/m/l/m/l/m/l/m/l/m/l/m/l
  20 D /r/b/m/l/m/l/m/l/m/l/m/l/m/l/m/l/m/l/m/l/m
  21 D /r/b/m/l/m/l/m/l/m/l/m/l/m/l/m/l/m/l/m/l/m/l
  22 D /r/b/m/l/m/l/m/l/m/l/m/l/m/l/m/l/m/l/m/l/m/l/m
  23 D /r/b/m/l/m/l/m/l/m/l/m/l/m/l/m/l/m/l/m/l/m/l/m/l
  24 D /r/b/m/l/m/l/m/l/m/l/m/l/m/l/m/l/m/l/m/l/m/l/m/l/m
  25 D /r/b/m/l/m/l/m/l/m/l/m/l/m/l/m/l/m/l/m/l/m/l/m/l/m/l
  26 D /r/b/m/l/m/l/m/l/m/l/m/l/m/l/m/l/m/l/m/l/m/l/m/l/m/l/m
  27 D /r/b/m/l/m/l/m/l/m/l/m/l/m/l/m/l/m/l/m/l/m/l/m/l/m/l/m/l
  28 D /r/b/m/l/m/l/m/l/m/l/m/l/m/l/m/l/m/l/m/l/m/l/m/l/m/l/m/l/m
  29 D /r/b/m/l/m/l/m/l/m/l/m/l/m/l/m/l/m/l/m/l/m/l/m/l/m/l/m/l/m/l
  30 D /r/b/m/l/m/l/m/l/m/l/m/l/m/l/m/l/m/l/m/l/m/l/m/l/m/l/m/l/m/l/m
  31 D /r/b/m/l/m/l/m/l/m/l/m/l/m/l/m/l/m/l/m/l/m/l/m/l/m/l/m/l/m/l/m/l
  32 D /r/b/m/l/m/l/m/l/m/l/m/l/m/l/m/l/m/l/m/l/m/l/m/l/m/l/m/l/m/l/m/l/m
  33 D /r/b/m/l/m/l/m/l/m/l/m/l/m/l/m/l/m/l/m/l/m/l/m/l/m/l/m/l/m/l/m/l/m/l
  34 D /r/b/m/l/m/l/m/l/m/l/m/l/m/l/m/l/m/l/m/l/m/l/m/l/m/l/m/l/m/l/m/l/m/l/m
  35 D /r/b/m/l/m/l/m/l/m/l/m/l/m/l/m/l/m/l/m/l/m/l/m/l/m/l/m/l/m/l/m/l/m/l/m/l
  36 D /r/b/m/l/m/l/m/l/m/l/m/l/m/l/m/l/m/l/m/l/m/l/m/l/m/l/m/l/m/l/m/l/m/l/m/l/m
  37 D /r/b/m/l/m/l/m/l/m/l/m/l/m/l/m/l/m/l/m/l/m/l/m/l/m/l/m/l/m/l/m/l/m/l/m/l/m/l
  38 D /r/b/m/l/m/l/m/l/m/l/m/l/m/l/m/l/m/l/m/l/m/l/m/l/m/l/m/l/m/l/m/l/m/l/m/l/m/l/m
  39 D /r/b/m/l/m/l/m/l/m/l/m/l/m/l/m/l/m/l/m/l/m/l/m/l/m/l/m/l/m/l/m/l/m/l/m/l/m/l/m/l
  40 D /r/b/m/l/m/l/m/l/m/l/m/l/m/l/m/l/m/l/m/l/m/l/m/l/m/l/m/l/m/l/m/l/m/l/m/l/m/l/m/l/m
  41 D /r/b/m/l/m/l/m/l/m/l/m/l/m/l/m/l/m/l/m/l/m/l/m/l/m/l/m/l/m/l/m/l/m/l/m/l/m/l/m/l/m/l
  ! 42 /r/b/m/l/m/l/m/l/m/l/m/l/m/l/m/l/m/l/m/l/m/l/m/l/m/l/m/l/m/l/m/l/m/l/m/l/m/l/m/l/m/l/m Other
= 1
