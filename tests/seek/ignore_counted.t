-- What is left where not all files of rules count, or more of them do.

# without version control ignore files count
tree
  d /r
  d /r/.git
  f 1 /r/a
  f 1 /r/b
  f 1 /r/c
rules /r/.git/info/exclude
  c
rules /r/.gitignore
  a
rules /r/.ignore
  b
$ seek -H . /r
  /r/.gitignore
  /r/.ignore
$ seek -H --no-ignore-vcs . /r
  /r/.gitignore
  /r/.ignore
  /r/a
  /r/c

# without version control its files are not read
tree
  d /r
  d /r/.git
  f 1 /r/a
  d /r/s
  f 1 /r/s/b
  f 1 /r/s/c
  m 0 /r/.gitignore
  m 0 /r/s/.gitignore
  m 0 /r/.git/info/exclude
rules /r/.git/info/exclude
  c
rules /r/.gitignore
  a
rules /r/s/.gitignore
  b
nobody
$ seek -H --no-ignore-vcs . /r
  /r/.gitignore
  /r/a
  /r/s
  /r/s/.gitignore
  /r/s/b
  /r/s/c
$ seek -H --no-ignore-vcs . /r/s
  /r/s/.gitignore
  /r/s/b
  /r/s/c

# without rules from above those below count, in the repository all the same
tree
  d /r
  d /r/.git
  f 1 /r/s/a
  f 1 /r/s/b
  f 1 /r/s/c
  f 1 /r/s/d
  f 1 /r/s/e
  f 1 /r/s/f
  f 1 /r/s/g
  f 1 /r/s/h
rules /r/.git/info/exclude
  c
rules /r/.gitignore
  a
rules /r/.ignore
  b
rules /r/.fdignore
  f
rules /r/s/.gitignore
  d
rules /r/s/.ignore
  e
rules /r/s/.fdignore
  g
$ seek -H . /r/s
  /r/s/.fdignore
  /r/s/.gitignore
  /r/s/.ignore
  /r/s/h
$ seek -H --no-ignore-parent . /r/s
  /r/s/.fdignore
  /r/s/.gitignore
  /r/s/.ignore
  /r/s/a
  /r/s/b
  /r/s/c
  /r/s/f
  /r/s/h

# without rules from above no file there is read
tree
  d /r
  d /r/.git
  f 1 /r/s/a
  f 1 /r/s/b
  f 1 /r/s/c
  f 1 /r/s/d
  f 1 /r/s/e
  f 1 /r/s/f
  f 1 /r/s/g
  f 1 /r/s/h
  m 0 /r/.gitignore
  m 0 /r/.ignore
  m 0 /r/.fdignore
rules /r/.git/info/exclude
  c
rules /r/.gitignore
  a
rules /r/.ignore
  b
rules /r/.fdignore
  f
rules /r/s/.gitignore
  d
rules /r/s/.ignore
  e
rules /r/s/.fdignore
  g
nobody
$ seek -H --no-ignore-parent . /r/s
  /r/s/.fdignore
  /r/s/.gitignore
  /r/s/.ignore
  /r/s/a
  /r/s/b
  /r/s/c
  /r/s/f
  /r/s/h

# fdignore decides before ignore
tree
  d /r
  d /r/s
  f 1 /r/s/a
  f 1 /r/s/b
  d /r/s/p
  d /r/s/p/.git
  f 1 /r/s/p/a
  f 1 /r/s/p/b
rules /r/.fdignore
  !a
  b
rules /r/s/.ignore
  a
  !b
$ seek -H . /r
  /r/.fdignore
  /r/s
  /r/s/.ignore
  /r/s/a
  /r/s/p
  /r/s/p/a
