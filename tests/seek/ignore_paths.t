-- Ignore files and paths, with the decisions of git 2.39.

# what git says of a path
tree
  d /r/.git
  f 1 /r/a
rules /r/.gitignore
$ seek -H . /r
  /r/.gitignore
  /r/a

tree
  d /r/.git
  f 1 /r/# a
rules /r/.gitignore
  # a\x0a\x0a \x20
$ seek -H . /r
  /r/# a
  /r/.gitignore

tree
  d /r/.git
  f 1 /r/a
rules /r/.gitignore
  # a\x0a\x0a \x20
$ seek -H . /r
  /r/.gitignore
  /r/a

tree
  d /r/.git
  f 1 /r/#a
rules /r/.gitignore
  \#a
  \!b
$ seek -H . /r
  /r/.gitignore

tree
  d /r/.git
  f 1 /r/!b
rules /r/.gitignore
  \#a
  \!b
$ seek -H . /r
  /r/.gitignore

tree
  d /r/.git
  f 1 /r/a
rules /r/.gitignore
  \#a
  \!b
$ seek -H . /r
  /r/.gitignore
  /r/a

tree
  d /r/.git
  f 1 /r/hello.txt
rules /r/.gitignore
  hello.*
$ seek -H . /r
  /r/.gitignore

tree
  d /r/.git
  f 1 /r/a/hello.java
rules /r/.gitignore
  hello.*
$ seek -H . /r
  /r/.gitignore
  /r/a

tree
  d /r/.git
  f 1 /r/hello
rules /r/.gitignore
  hello.*
$ seek -H . /r
  /r/.gitignore
  /r/hello

tree
  d /r/.git
  f 1 /r/hello.txt
rules /r/.gitignore
  /hello.*
$ seek -H . /r
  /r/.gitignore

tree
  d /r/.git
  f 1 /r/a/hello.java
rules /r/.gitignore
  /hello.*
$ seek -H . /r
  /r/.gitignore
  /r/a
  /r/a/hello.java

tree
  d /r/.git
  d /r/foo
rules /r/.gitignore
  foo/
$ seek -H . /r
  /r/.gitignore

tree
  d /r/.git
  d /r/a/foo
rules /r/.gitignore
  foo/
$ seek -H . /r
  /r/.gitignore
  /r/a

tree
  d /r/.git
  f 1 /r/b/foo
rules /r/.gitignore
  foo/
$ seek -H . /r
  /r/.gitignore
  /r/b
  /r/b/foo

tree
  d /r/.git
  f 1 /r/doc/frotz
rules /r/.gitignore
  doc/frotz
$ seek -H . /r
  /r/.gitignore
  /r/doc

tree
  d /r/.git
  f 1 /r/a/doc/frotz
rules /r/.gitignore
  doc/frotz
$ seek -H . /r
  /r/.gitignore
  /r/a
  /r/a/doc
  /r/a/doc/frotz

tree
  d /r/.git
  f 1 /r/doc/frotz
rules /r/.gitignore
  /doc/frotz
$ seek -H . /r
  /r/.gitignore
  /r/doc

tree
  d /r/.git
  f 1 /r/a/doc/frotz
rules /r/.gitignore
  /doc/frotz
$ seek -H . /r
  /r/.gitignore
  /r/a
  /r/a/doc
  /r/a/doc/frotz

tree
  d /r/.git
  f 1 /r/foo/test.json
rules /r/.gitignore
  foo/*
$ seek -H . /r
  /r/.gitignore
  /r/foo

tree
  d /r/.git
  d /r/foo/bar
rules /r/.gitignore
  foo/*
$ seek -H . /r
  /r/.gitignore
  /r/foo

tree
  d /r/.git
  f 1 /r/a/foo/b
rules /r/.gitignore
  foo/*
$ seek -H . /r
  /r/.gitignore
  /r/a
  /r/a/foo
  /r/a/foo/b

tree
  d /r/.git
  f 1 /r/foo
rules /r/.gitignore
  **/foo
$ seek -H . /r
  /r/.gitignore

tree
  d /r/.git
  f 1 /r/a/foo
rules /r/.gitignore
  **/foo
$ seek -H . /r
  /r/.gitignore
  /r/a

tree
  d /r/.git
  f 1 /r/a/b/foo
rules /r/.gitignore
  **/foo
$ seek -H . /r
  /r/.gitignore
  /r/a
  /r/a/b

tree
  d /r/.git
  f 1 /r/foo/bar
rules /r/.gitignore
  **/foo/bar
$ seek -H . /r
  /r/.gitignore
  /r/foo

tree
  d /r/.git
  f 1 /r/a/foo/bar
rules /r/.gitignore
  **/foo/bar
$ seek -H . /r
  /r/.gitignore
  /r/a
  /r/a/foo

tree
  d /r/.git
  f 1 /r/a/foo/b/bar
rules /r/.gitignore
  **/foo/bar
$ seek -H . /r
  /r/.gitignore
  /r/a
  /r/a/foo
  /r/a/foo/b
  /r/a/foo/b/bar

tree
  d /r/.git
  d /r/abc
rules /r/.gitignore
  abc/**
$ seek -H . /r
  /r/.gitignore
  /r/abc

tree
  d /r/.git
  f 1 /r/abc/x
rules /r/.gitignore
  abc/**
$ seek -H . /r
  /r/.gitignore
  /r/abc

tree
  d /r/.git
  f 1 /r/a/abc/x
rules /r/.gitignore
  abc/**
$ seek -H . /r
  /r/.gitignore
  /r/a
  /r/a/abc
  /r/a/abc/x

tree
  d /r/.git
  f 1 /r/a/b
rules /r/.gitignore
  a/**/b
$ seek -H . /r
  /r/.gitignore
  /r/a

tree
  d /r/.git
  f 1 /r/a/x/b
rules /r/.gitignore
  a/**/b
$ seek -H . /r
  /r/.gitignore
  /r/a
  /r/a/x

tree
  d /r/.git
  f 1 /r/a/x/y/b
rules /r/.gitignore
  a/**/b
$ seek -H . /r
  /r/.gitignore
  /r/a
  /r/a/x
  /r/a/x/y

tree
  d /r/.git
  f 1 /r/x/a/b
rules /r/.gitignore
  a/**/b
$ seek -H . /r
  /r/.gitignore
  /r/x
  /r/x/a
  /r/x/a/b

tree
  d /r/.git
  f 1 /r/a/b
rules /r/.gitignore
  a/***/b
$ seek -H . /r
  /r/.gitignore
  /r/a

tree
  d /r/.git
  f 1 /r/a/x/y/b
rules /r/.gitignore
  a/***/b
$ seek -H . /r
  /r/.gitignore
  /r/a
  /r/a/x
  /r/a/x/y

tree
  d /r/.git
  f 1 /r/a/xzy/b
rules /r/.gitignore
  a/x**y/b
$ seek -H . /r
  /r/.gitignore
  /r/a
  /r/a/xzy

tree
  d /r/.git
  f 1 /r/a/xy/b
rules /r/.gitignore
  a/x**y/b
$ seek -H . /r
  /r/.gitignore
  /r/a
  /r/a/xy

tree
  d /r/.git
  f 1 /r/a/x/y/b
rules /r/.gitignore
  a/x**y/b
$ seek -H . /r
  /r/.gitignore
  /r/a
  /r/a/x
  /r/a/x/y
  /r/a/x/y/b

tree
  d /r/.git
  f 1 /r/a.o
rules /r/.gitignore
  *.o
  !keep.o
$ seek -H . /r
  /r/.gitignore

tree
  d /r/.git
  f 1 /r/keep.o
rules /r/.gitignore
  *.o
  !keep.o
$ seek -H . /r
  /r/.gitignore
  /r/keep.o

tree
  d /r/.git
  f 1 /r/b/keep.o
rules /r/.gitignore
  *.o
  !keep.o
$ seek -H . /r
  /r/.gitignore
  /r/b
  /r/b/keep.o

tree
  d /r/.git
  f 1 /r/o
rules /r/.gitignore
  *.o
  !keep.o
$ seek -H . /r
  /r/.gitignore
  /r/o

tree
  d /r/.git
  f 1 /r/keep.o
rules /r/.gitignore
  !keep.o
  *.o
$ seek -H . /r
  /r/.gitignore

tree
  d /r/.git
  f 1 /r/a
rules /r/.gitignore
  a
  !a
  a
$ seek -H . /r
  /r/.gitignore

tree
  d /r/.git
  f 1 /r/b
rules /r/.gitignore
  b \x20
$ seek -H . /r
  /r/.gitignore

tree
  d /r/.git
  f 1 /r/b \x20
rules /r/.gitignore
  b \x20
$ seek -H . /r
  /r/.gitignore
  /r/b \x20

tree
  d /r/.git
  f 1 /r/b
rules /r/.gitignore
  b\\x20
$ seek -H . /r
  /r/.gitignore
  /r/b

tree
  d /r/.git
  f 1 /r/b\x20
rules /r/.gitignore
  b\\x20
$ seek -H . /r
  /r/.gitignore

tree
  d /r/.git
  f 1 /r/b
rules /r/.gitignore
  b\ \x20
$ seek -H . /r
  /r/.gitignore
  /r/b

tree
  d /r/.git
  f 1 /r/b\x20
rules /r/.gitignore
  b\ \x20
$ seek -H . /r
  /r/.gitignore

tree
  d /r/.git
  f 1 /r/b \x20
rules /r/.gitignore
  b\ \x20
$ seek -H . /r
  /r/.gitignore
  /r/b \x20

tree
  d /r/.git
  f 1 /r/b\
rules /r/.gitignore
  b\\\x20
$ seek -H . /r
  /r/.gitignore

tree
  d /r/.git
  f 1 /r/b\\x20
rules /r/.gitignore
  b\\\x20
$ seek -H . /r
  /r/.gitignore
  /r/b\\x20

tree
  d /r/.git
  f 1 /r/b
rules /r/.gitignore
  b\x09
$ seek -H . /r
  /r/.gitignore
  /r/b

tree
  d /r/.git
  f 1 /r/b\x09
rules /r/.gitignore
  b\x09
$ seek -H . /r
  /r/.gitignore

tree
  d /r/.git
  f 1 /r/b
rules /r/.gitignore
  b\x0d
$ seek -H . /r
  /r/.gitignore

tree
  d /r/.git
  f 1 /r/b\x0d
rules /r/.gitignore
  b\x0d
$ seek -H . /r
  /r/.gitignore
  /r/b\x0d

tree
  d /r/.git
  f 1 /r/b
rules /r/.gitignore
  b\x0d
$ seek -H . /r
  /r/.gitignore

tree
  d /r/.git
  f 1 /r/b\x0d
rules /r/.gitignore
  b\x0d
$ seek -H . /r
  /r/.gitignore
  /r/b\x0d

tree
  d /r/.git
  f 1 /r/b
rules /r/.gitignore
  b \x0d
$ seek -H . /r
  /r/.gitignore

tree
  d /r/.git
  f 1 /r/b
rules /r/.gitignore
  b\x0d\x0d
$ seek -H . /r
  /r/.gitignore
  /r/b

tree
  d /r/.git
  f 1 /r/b\x0d
rules /r/.gitignore
  b\x0d\x0d
$ seek -H . /r
  /r/.gitignore

tree
  d /r/.git
  f 1 /r/b
rules /r/.gitignore
  b\x0d\x20
$ seek -H . /r
  /r/.gitignore
  /r/b

tree
  d /r/.git
  f 1 /r/b\x0d
rules /r/.gitignore
  b\x0d\x20
$ seek -H . /r
  /r/.gitignore

tree
  d /r/.git
  f 1 /r/b
rules /r/.gitignore
  \xef\xbb\xbfb
$ seek -H . /r
  /r/.gitignore

tree
  d /r/.git
  f 1 /r/b
rules /r/.gitignore
  a
  \xef\xbb\xbfb
$ seek -H . /r
  /r/.gitignore
  /r/b

tree
  d /r/.git
  f 1 /r/\xef\xbb\xbfb
rules /r/.gitignore
  a
  \xef\xbb\xbfb
$ seek -H . /r
  /r/.gitignore

tree
  d /r/.git
  f 1 /r/#b
rules /r/.gitignore
  \xef\xbb\xbf#b
$ seek -H . /r
  /r/#b
  /r/.gitignore

tree
  d /r/.git
  f 1 /r/b
rules /r/.gitignore
  # caf\xe9
  b
$ seek -H . /r
  /r/.gitignore

tree
  d /r/.git
  f 1 /r/café
rules /r/.gitignore
  caf?
$ seek -H . /r
  /r/.gitignore
  /r/café
