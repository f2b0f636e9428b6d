-- The ignore files that are in force at each place.

# the kinds decide in order
tree
  d /r
  d /r/.git
  f 1 /r/a
rules /r/.gitignore
  !a
rules /r/.ignore
  a
$ seek -H . /r
  /r/.gitignore
  /r/.ignore

tree
  d /r
  d /r/.git
  f 1 /r/a
rules /r/.gitignore
  a
rules /r/.ignore
  !a
$ seek -H . /r
  /r/.gitignore
  /r/.ignore
  /r/a

tree
  d /r
  d /r/.git
  f 1 /r/a
rules /r/.git/info/exclude
  a
rules /r/.gitignore
  !a
$ seek -H . /r
  /r/.gitignore
  /r/a

tree
  d /r
  d /r/.git
  f 1 /r/a
  f 1 /r/b
rules /r/.git/info/exclude
  a
$ seek -H . /r
  /r/b

tree
  d /r
  d /r/.git
  d /r/s
  f 1 /r/s/a
rules /r/.ignore
  a
rules /r/s/.gitignore
  !a
$ seek -H . /r
  /r/.ignore
  /r/s
  /r/s/.gitignore

# nearer rules decide
tree
  d /r
  d /r/.git
  d /r/s
  f 1 /r/s/a
  d /r/s/t
  f 1 /r/s/t/a
rules /r/.gitignore
  a
rules /r/s/.gitignore
  !a
rules /r/s/t/.gitignore
  a
$ seek -H . /r
  /r/.gitignore
  /r/s
  /r/s/.gitignore
  /r/s/a
  /r/s/t
  /r/s/t/.gitignore

# nothing below an ignored directory is left
tree
  d /r
  d /r/.git
  d /r/s
  f 1 /r/s/a
  f 1 /r/s/b
rules /r/.gitignore
  s/
  !s/a
rules /r/s/.gitignore
  !a
$ seek -H . /r
  /r/.gitignore

# a nested repository ends the outer rules
tree
  d /r
  d /r/.git
  d /r/s
  d /r/s/.git
  f 1 /r/s/a
  f 1 /r/s/b
  f 1 /r/s/c
  d /r/s/t
  f 1 /r/s/t/a
rules /r/.git/info/exclude
  c
rules /r/.gitignore
  a
rules /r/.ignore
  b
$ seek -H . /r
  /r/.gitignore
  /r/.ignore
  /r/s
  /r/s/a
  /r/s/c
  /r/s/t
  /r/s/t/a

# git as a file is a repository
tree
  d /r
  f 1 /r/.git
  f 1 /r/a
  f 1 /r/b
rules /r/.gitignore
  b
$ seek -H . /r
  /r/.gitignore
  /r/a

# outside repositories
tree
  d /r
  f 1 /r/a
  f 1 /r/b
rules /r/.gitignore
  a
rules /r/.ignore
  b
$ seek -H . /r
  /r/.gitignore
  /r/.ignore
  /r/a

# hidden rules are read
tree
  d /r
  d /r/.git
  f 1 /r/.h
  d /r/.s
  f 1 /r/.s/b
  f 1 /r/a
  f 1 /r/b
rules /r/.gitignore
  a
$ seek . /r
  /r/b

# rules above the root are in force
tree
  d /r
  d /r/.git
  f 1 /r/a
  d /r/s
  f 1 /r/s/a
  f 1 /r/s/b
  f 1 /r/s/c
  d /r/s/t
  f 1 /r/s/t/b
  f 1 /r/s/t/d
rules /r/.gitignore
  a
  s/
  s/b
rules /r/.ignore
  c
$ seek -H . /r/s
  /r/s/t
  /r/s/t/b
  /r/s/t/d
$ seek -H . /r/s/
  /r/s/t
  /r/s/t/b
  /r/s/t/d
$ seek -H . r/s
  r/s/t
  r/s/t/b
  r/s/t/d

# a root that is a file
$ seek -H . /r/s/a
! seek: /r/s/a: Not a directory
= 1
