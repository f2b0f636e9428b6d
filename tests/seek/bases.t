-- `--base-directory`.

# a base
tree
  d /t
  f 1 /t/a.txt
  f 1 /t/B.TXT
  f 1 /t/.hidden
  d /t/sub
  f 1 /t/sub/c.rs
  f 1 /t/sub/notes.tar.gz
  d /t/sub/deep
  f 1 /t/sub/deep/a.rs
  l a.txt	/t/link
  l sub	/t/down
$ seek --base-directory /t ^a
  a.txt
  sub/deep/a.rs
$ seek --base-directory=t/sub ^a
  deep/a.rs
$ seek --base-directory=/t ^a sub
  sub/deep/a.rs
$ seek --base-directory=/t ^a .
  ./a.txt
  ./sub/deep/a.rs
$ seek --base-directory=/t ^a /t/sub
  /t/sub/deep/a.rs
$ seek --base-directory=/t/sub ^a --search-path=deep
  deep/a.rs

# a base and absolute paths
$ seek --base-directory=/t -a ^c
  /t/sub/c.rs
$ seek --base-directory=/t -p ^/t/sub/c
  sub/c.rs
$ seek --base-directory=/t -p ^/sub/c

# a base that is no folder
$ seek --base-directory=/no a
! seek: /no: No such file or directory (os error 2)
= 1
$ seek --base-directory=/t/a.txt a
! seek: /t/a.txt: Not a directory (os error 20)
= 1
$ seek --base-directory=/t a no
! seek: no: No such file or directory (os error 2)
= 1

# a base and rules
tree
  d /t
  d /t/sub
  f 1 /t/sub/c.rs
  f 1 /t/sub/d.rs
rules /t/.ignore
  *.rs
rules /t/sub/.ignore
  !c.rs
$ seek --base-directory=/t rs$
  sub/c.rs
$ seek --base-directory=/t/sub rs$
  c.rs
$ seek --base-directory=/t -E /sub rs$
