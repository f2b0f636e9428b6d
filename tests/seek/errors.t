-- Errors of walks.

# a root that is missing
tree
  d /r
$ seek . /no
! seek: /no: No such file or directory (os error 2)
= 1

tree
  d /r
  f 1 /r/a
$ seek . /no /r
  /r/a
! seek: /no: No such file or directory (os error 2)
= 1

# a root that is no directory
tree
  d /r
  f 1 /r/a
  d /r/d
  f 1 /r/d/x
  l d	/r/l
  l a	/r/k
$ seek . /r/a /r/k /r/l
  /r/l/x
! seek: /r/a: Not a directory
! seek: /r/k: Not a directory
= 1
$ seek -L . /r/a /r/k /r/l
  /r/l/x
! seek: /r/a: Not a directory
! seek: /r/k: Not a directory
= 1
$ seek -d0 . /r/l

# a directory that may not be read
tree
  d /r
  d /r/x
  f 1 /r/x/a
  f 1 /r/y
  x /r/x
nobody
$ seek . /r
  /r/x
  /r/y
! seek: /r/x: Permission denied (os error 13)
= 1
$ seek y /r
  /r/y
! seek: /r/x: Permission denied (os error 13)
= 1
$ seek -t f --min-depth 2 . /r
! seek: /r/x: Permission denied (os error 13)
= 1
$ seek -d1 . /r
  /r/x
  /r/y
$ seek -E x . /r
  /r/y
$ seek . /r/x
! seek: /r/x: Permission denied (os error 13)
= 1

# names in a directory that may be listed and not entered, of which those that are left out make no errors
tree
  d /r
  d /r/x
  f 1 /r/x/.h
  f 1 /r/x/e
  f 1 /r/x/i
  m 444 /r/x
rules /r/.ignore
  i
nobody
$ seek -E e . /r
  /r/x
$ seek . /r
  /r/x
! seek: /r/x/e: Permission denied (os error 13)
= 1
$ seek -H -E e . /r
  /r/.ignore
  /r/x
! seek: /r/x/.h: Permission denied (os error 13)
= 1
$ seek -H -E e -E .h . /r
  /r/.ignore
  /r/x
$ seek -I -E e . /r
  /r/x
! seek: /r/x/i: Permission denied (os error 13)
= 1
$ seek -I -E e -E /x/i . /r
  /r/x
$ seek -HI -E e -E i . /r
  /r/.ignore
  /r/x
! seek: /r/x/.h: Permission denied (os error 13)
= 1
$ seek -I -E * -E !x . /r
  /r/x
$ seek -I --ignore-file /r/.ignore -E e . /r
  /r/x
$ seek -E * -E !i -E !x . /r/x

# lines for directories alone leave out no name of which the type isn't known
tree
  d /r
  d /r/x
  f 1 /r/x/.h
  d /r/x/d
  m 444 /r/x
rules /r/.ignore
  d/
nobody
$ seek . /r
  /r/x
! seek: /r/x/d: Permission denied (os error 13)
= 1
$ seek -I -E d/ . /r
  /r/x
! seek: /r/x/d: Permission denied (os error 13)
= 1
$ seek -E d . /r
  /r/x

# a hidden file of rules makes an error all the same, if it is to be read
tree
  d /r
  d /r/x
  f 1 /r/x/.ignore
  m 444 /r/x
nobody
$ seek . /r
  /r/x
! seek: /r/x/.ignore: Permission denied (os error 13)
= 1
$ seek -I . /r
  /r/x

# a link that leads back
tree
  d /r
  f 1 /r/a
  l ..	/r/up
  l .	/r/here
$ seek . /r
  /r/a
  /r/here
  /r/up
$ seek -L a /r -d1
  /r/a
! seek: /r/here: a link that leads back to /r
= 1

# a link that leads nowhere
tree
  d /r
  l no	/r/c
  l no	/r/.h
  d /r/b
  l no	/r/b/d
  l no	/r/b/e
rules /r/.ignore
  e
$ seek -L --sort . /r
  /r/b
  /r/b/d
  /r/c
$ seek -LI -tl . /r
  /r/b/d
  /r/b/e
  /r/c
$ seek -LH -E c -tl . /r
  /r/.h
  /r/b/d
$ seek -L . /r/c
! seek: /r/c: Not a directory
= 1

# a root that is missing in a folder that is there
$ seek . /r/none
! seek: /r/none: No such file or directory (os error 2)
= 1

# an error has no control characters on a terminal
$ seek . '/no\x1b[2J\xc2\x9b\x09é'
! seek: /no\x1b[2J\xc2\x9b\x09é: No such file or directory (os error 2)
= 1
ttyerr$ seek . '/no\x1b[2J\xc2\x9b\x09é'
! seek: /no?[2J??é: No such file or directory (os error 2)
= 1

# three hundred links in a ring
tree
  l {001..299}	/r/{000..298}
  l 000	/r/299
$ seek -tl . /r
  /r/{000..299}
$ seek -L . /r
! seek: /r/{000..299}: Too many levels of symbolic links (os error 40)
= 1
any order
