-- Files of rules that cannot be read.

# rules that cannot be read are an error behind their entry
tree
  d /r
  d /r/.git
  f 1 /r/.h
  f 1 /r/a
  d /r/s
  f 1 /r/s/a
  f 1 /r/s/b
  m 0 /r/.gitignore
rules /r/.gitignore
  a
rules /r/s/.gitignore
  b
nobody
$ seek -H . /r
  /r/.gitignore
  /r/.h
  /r/a
  /r/s
  /r/s/.gitignore
  /r/s/a
! seek: /r/.gitignore: Permission denied (os error 13)
= 1

# the error stands where the entry is hidden
$ seek . /r
  /r/a
  /r/s
  /r/s/a
! seek: /r/.gitignore: Permission denied (os error 13)
= 1

# rules above go on where nearer ones cannot be read
tree
  d /r
  d /r/.git
  f 1 /r/.h
  f 1 /r/a
  d /r/s
  f 1 /r/s/a
  f 1 /r/s/b
  m 0 /r/s/.gitignore
rules /r/.gitignore
  a
rules /r/s/.gitignore
  b
nobody
$ seek -H . /r
  /r/.gitignore
  /r/.h
  /r/s
  /r/s/.gitignore
  /r/s/b
! seek: /r/s/.gitignore: Permission denied (os error 13)
= 1

# an exclude file that cannot be read is an error though git is dropped
tree
  d /r
  d /r/.git
  f 1 /r/.h
  f 1 /r/a
  d /r/s
  f 1 /r/s/a
  f 1 /r/s/b
  m 0 /r/.git/info/exclude
  f 1 /r/.git/info/exclude
rules /r/.gitignore
  a
rules /r/s/.gitignore
  b
nobody
$ seek -H . /r
  /r/.gitignore
  /r/.h
  /r/s
  /r/s/.gitignore
! seek: /r/.git/info/exclude: Permission denied (os error 13)
= 1
