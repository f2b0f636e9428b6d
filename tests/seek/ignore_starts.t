-- Rules that are the same wherever a walk starts.

# ignore files above a repository are in force
tree
  d /r
  d /r/.git
  d /r/p
  d /r/p/.git
  f 1 /r/p/x
  d /r/p/s
  f 1 /r/p/s/x
  f 1 /r/p/s/y
  f 1 /r/x
rules /r/.gitignore
  y
rules /r/.ignore
  x
$ seek -H . /r
  /r/.gitignore
  /r/.ignore
  /r/p
  /r/p/s
  /r/p/s/y
$ seek -H . /r/p
  /r/p/s
  /r/p/s/y

# beyond the repository no file of git is opened
tree
  d /r
  d /r/.git
  d /r/p
  d /r/p/.git
  f 1 /r/p/x
  d /r/p/s
  f 1 /r/p/s/x
  f 1 /r/p/s/y
  f 1 /r/x
  m 0 /r/.gitignore
rules /r/.gitignore
  y
rules /r/.ignore
  x
nobody
$ seek -H . /r/p/s
  /r/p/s/y

# a file of rules above the root is a regular file
tree
  d /r
  d /r/s
  f 1 /r/s/a
  l ../rules	/r/.ignore
  l ../rules	/r/.gitignore
rules /r/.git
rules /rules
  a
$ seek -H . /r/s
  /r/s/a

tree
  d /r
  d /r/s
  f 1 /r/s/a
  d /r/.ignore
  d /r/.gitignore
rules /r/.git
$ seek -H . /r/s
  /r/s/a

tree
  d /r
  d /r/s
  f 1 /r/s/a
  s /r/.ignore
  p /r/.gitignore
rules /r/.git
$ seek -H . /r/s
  /r/s/a

# a link to a file of rules is not read
tree
  d /r
  d /r/.git
  f 1 /r/a
  f 1 /r/t
  l t	/r/.gitignore
  l t	/r/.ignore
$ seek -H . /r
  /r/.gitignore
  /r/.ignore
  /r/a
  /r/t
$ seek -H -L . /r
  /r/.gitignore
  /r/.ignore
  /r/a
  /r/t

# an exclude that is no file is not read
tree
  d /r
  d /r/.git
  f 1 /r/a
  p /r/.git/info/exclude
$ seek -H . /r
  /r/a

tree
  d /r
  d /r/.git
  f 1 /r/a
  s /r/.git/info/exclude
$ seek -H . /r
  /r/a

# what git leads to makes a repository: a directory
tree
  d /r
  f 1 /r/a
  d /r/s
  f 1 /r/s/a
  f 1 /r/s/b
  l ..	/r/.git
rules /r/.gitignore
  a
$ seek -H . /r
  /r/.gitignore
  /r/s
  /r/s/b
$ seek -H . /r/s
  /r/s/b

# what git leads to makes a repository: a file
tree
  d /r
  f 1 /r/a
  d /r/s
  f 1 /r/s/a
  f 1 /r/s/b
  l ../file	/r/.git
  f 1 /file
rules /r/.gitignore
  a
$ seek -H . /r
  /r/.gitignore
  /r/s
  /r/s/b
$ seek -H . /r/s
  /r/s/b

# what git leads to makes no repository: a link that leads nowhere
tree
  d /r
  f 1 /r/a
  d /r/s
  f 1 /r/s/a
  f 1 /r/s/b
  l nowhere	/r/.git
rules /r/.gitignore
  a
$ seek -H . /r
  /r/.gitignore
  /r/a
  /r/s
  /r/s/a
  /r/s/b
$ seek -H . /r/s
  /r/s/a
  /r/s/b

# what git leads to makes no repository: neither a directory nor a file
tree
  d /r
  f 1 /r/a
  d /r/s
  f 1 /r/s/a
  f 1 /r/s/b
  l ../pipe	/r/.git
  p /pipe
rules /r/.gitignore
  a
$ seek -H . /r
  /r/.gitignore
  /r/a
  /r/s
  /r/s/a
  /r/s/b
$ seek -H . /r/s
  /r/s/a
  /r/s/b

# a git that leads back to its directory makes a repository
tree
  d /r
  f 1 /r/a
  f 1 /r/b
  l .	/r/.git
rules /r/.gitignore
  a
$ seek -H -L . /r
  /r/.gitignore
  /r/b
! seek: /r/.git: a link that leads back to /r
= 1

# a file of rules is a regular file, at the root and above it
tree
  d /k
  l nowhere	/k/.git
  d /k/.gitignore
  l rules	/k/.ignore
  d /k/s
  f 0 /k/s/a
  l ../rules	/k/s/.ignore
rules /k/rules
  a
$ seek . /k/s
  /k/s/a
