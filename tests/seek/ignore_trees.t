-- Small trees with ignore files, and the part of each that git 2.39 keeps.

# tree 0
tree
  d /r
  d /r/.git
  f 1 /r/c.o
  d /r/k.o
  f 1 /r/k.o/.h
  d /r/k.o/b
  f 1 /r/k.o/b/b
  d /r/sub
  f 1 /r/sub/a
rules /r/.gitignore
  *sub/**
rules /r/k.o/.gitignore
  !k.o[!a]
$ seek -H . /r
  /r/.gitignore
  /r/c.o
  /r/k.o
  /r/k.o/.gitignore
  /r/k.o/.h
  /r/k.o/b
  /r/k.o/b/b
  /r/sub

# tree 1
tree
  d /r
  d /r/.git
  f 1 /r/.h
  d /r/c.o
  d /r/c.o/b
  d /r/c.o/b/a
  f 1 /r/c.o/b/a/b
  f 1 /r/c.o/b/b
  d /r/c.o/k.o
  d /r/c.o/k.o/c.o
  f 1 /r/c.o/k.o/c.o/b
  f 1 /r/sub
rules /r/.gitignore
  a/**
  ?
  !?\a*.o
rules /r/c.o/b/.gitignore
  subsub[ab]
$ seek -H . /r
  /r/.gitignore
  /r/.h
  /r/c.o
  /r/c.o/k.o
  /r/c.o/k.o/c.o
  /r/sub

# tree 2
tree
  d /r
  d /r/.git
  d /r/a
  f 1 /r/a/sub
  f 1 /r/ab
  d /r/c.o
  f 1 /r/c.o/.h
rules /r/.gitignore
  ?
  a\a?
$ seek -H . /r
  /r/.gitignore
  /r/ab
  /r/c.o
  /r/c.o/.h

# tree 3
tree
  d /r
  d /r/.git
  f 1 /r/.h
  f 1 /r/a
rules /r/.gitignore
  *?
  ?
$ seek -H . /r

# tree 4
tree
  d /r
  d /r/.git
  d /r/a
  d /r/a/b
  f 1 /r/a/b/.h
  d /r/a/b/c.o
  f 1 /r/a/b/c.o/.h
  f 1 /r/a/b/k.o
  d /r/a/sub
  d /r/a/sub/ab
  f 1 /r/a/sub/ab/c.o
  f 1 /r/a/sub/k.o
rules /r/.gitignore
  *.o/
$ seek -H . /r
  /r/.gitignore
  /r/a
  /r/a/b
  /r/a/b/.h
  /r/a/b/k.o
  /r/a/sub
  /r/a/sub/ab
  /r/a/sub/ab/c.o
  /r/a/sub/k.o

# tree 5
tree
  d /r
  d /r/.git
  f 1 /r/b
rules /r/.git/info/exclude
  **//
rules /r/.gitignore
  .hasub
  /**/**
  *[ab]**//
$ seek -H . /r

# tree 6
tree
  d /r
  d /r/.git
  d /r/c.o
  d /r/c.o/c.o
  d /r/c.o/c.o/b
  f 1 /r/c.o/c.o/b/ab
rules /r/.git/info/exclude
  *.o/c.?/
rules /r/.gitignore
  /***
  !/aa
  !/**.h
rules /r/c.o/c.o/.gitignore
  *?
$ seek -H . /r

# tree 7
tree
  d /r
  d /r/.git
  d /r/k.o
  d /r/k.o/ab
  f 1 /r/k.o/ab/.h
  f 1 /r/k.o/ab/ab
  f 1 /r/k.o/ab/sub
  f 1 /r/k.o/b
  f 1 /r/k.o/c.o
rules /r/.gitignore
  /**
rules /r/k.o/.gitignore
  [ab]\a/
  \a
$ seek -H . /r

# tree 8
tree
  d /r
  d /r/.git
  f 1 /r/b
  f 1 /r/k.o
rules /r/.gitignore
  [!a]/ab/
  !/**ab
  /**
$ seek -H . /r

# tree 9
tree
  d /r
  d /r/.git
  f 1 /r/a
  d /r/ab
  d /r/ab/b
  f 1 /r/ab/b/ab
  f 1 /r/c.o
rules /r/.git/info/exclude
  ab
  !*/
  [!a][ab]c.?
rules /r/.gitignore
  subab
  c.?subb
  !k.o*
rules /r/ab/b/.gitignore
  !bab
  c.?ab[!a]/
$ seek -H . /r
  /r/.gitignore
  /r/a
  /r/ab
  /r/ab/b
  /r/ab/b/.gitignore
  /r/c.o

# tree 10
tree
  d /r
  d /r/.git
  d /r/a
  f 1 /r/a/.h
  f 1 /r/a/c.o
  d /r/a/k.o
  f 1 /r/a/k.o/sub
  f 1 /r/c.o
  f 1 /r/sub
rules /r/.git/info/exclude
  !k.oc.?.h
rules /r/.gitignore
  [!a]
  /**
  !k.o**//
$ seek -H . /r

# tree 11
tree
  d /r
  d /r/.git
  d /r/ab
  f 1 /r/ab/.h
  f 1 /r/ab/c.o
  f 1 /r/ab/sub
  f 1 /r/b
  d /r/k.o
  f 1 /r/k.o/c.o
rules /r/.gitignore
  *?/
  k.o\a/
$ seek -H . /r
  /r/.gitignore
  /r/b

# tree 12
tree
  d /r
  d /r/.git
  f 1 /r/.h
  f 1 /r/ab
  f 1 /r/sub
rules /r/.git/info/exclude
  ab
  *.oab
rules /r/.gitignore
  !/aa
$ seek -H . /r
  /r/.gitignore
  /r/.h
  /r/sub

# tree 13
tree
  d /r
  d /r/.git
  f 1 /r/ab
  f 1 /r/c.o
rules /r/.git/info/exclude
  .h
  ab
rules /r/.gitignore
  sub
$ seek -H . /r
  /r/.gitignore
  /r/c.o

# tree 14
tree
  d /r
  d /r/.git
  f 1 /r/.h
  f 1 /r/a
  d /r/c.o
  d /r/c.o/a
  f 1 /r/c.o/a/sub
rules /r/.gitignore
  [ab]\a
  a
$ seek -H . /r
  /r/.gitignore
  /r/.h
  /r/c.o

# tree 15
tree
  d /r
  d /r/.git
  d /r/sub
  f 1 /r/sub/.h
  d /r/sub/b
  f 1 /r/sub/b/a
  f 1 /r/sub/sub
rules /r/.git/info/exclude
  /**
  ab
  [!a]k.oab
rules /r/.gitignore
  asub
rules /r/sub/b/.gitignore
  *
  b
  !/**
$ seek -H . /r

# tree 16
tree
  d /r
  d /r/.git
  f 1 /r/k.o
rules /r/.gitignore
  ?ab**//
  **.o
$ seek -H . /r
  /r/.gitignore

# tree 17
tree
  d /r
  d /r/.git
  f 1 /r/ab
  f 1 /r/c.o
  d /r/k.o
  f 1 /r/k.o/.h
  d /r/k.o/c.o
  d /r/k.o/c.o/sub
  f 1 /r/k.o/c.o/sub/a
  f 1 /r/k.o/c.o/sub/ab
  f 1 /r/k.o/c.o/sub/k.o
rules /r/.gitignore
  !.h?/**
  /**/
  *.o/
rules /r/k.o/.gitignore
  \a
$ seek -H . /r
  /r/.gitignore
  /r/ab
  /r/c.o

# tree 18
tree
  d /r
  d /r/.git
  d /r/k.o
  f 1 /r/k.o/a
  f 1 /r/k.o/b
  f 1 /r/sub
rules /r/.gitignore
  /**/***.o/
  !ab.hab
  !?*.o//
rules /r/k.o/.gitignore
  !b.hab
$ seek -H . /r
  /r/.gitignore
  /r/sub

# tree 19
tree
  d /r
  d /r/.git
  f 1 /r/b
  f 1 /r/sub
rules /r/.gitignore
  b
  *abk.o
  /b*.o
$ seek -H . /r
  /r/.gitignore
  /r/sub

# tree 20
tree
  d /r
  d /r/.git
  f 1 /r/a
  d /r/b
  d /r/b/k.o
  f 1 /r/b/k.o/c.o
  f 1 /r/sub
rules /r/.gitignore
  !/**k.o
  \ac.?b/
  */
rules /r/b/k.o/.gitignore
  !?c.?sub
  [ab]/
$ seek -H . /r
  /r/.gitignore
  /r/a
  /r/sub

# tree 21
tree
  d /r
  d /r/.git
  d /r/c.o
  d /r/c.o/c.o
  d /r/c.o/c.o/a
  f 1 /r/c.o/c.o/a/a
  f 1 /r/c.o/c.o/ab
  f 1 /r/c.o/c.o/k.o
  d /r/sub
  f 1 /r/sub/.h
  f 1 /r/sub/c.o
rules /r/.gitignore
  !?/**/**
rules /r/c.o/c.o/.gitignore
  ?
rules /r/c.o/c.o/a/.gitignore
  sub
  .hc.?
  *b.h
$ seek -H . /r
  /r/.gitignore
  /r/c.o
  /r/c.o/c.o
  /r/c.o/c.o/.gitignore
  /r/c.o/c.o/ab
  /r/c.o/c.o/k.o
  /r/sub
  /r/sub/.h
  /r/sub/c.o

# tree 22
tree
  d /r
  d /r/.git
  f 1 /r/sub
rules /r/.git/info/exclude
  !*.o/
  \aab/
rules /r/.gitignore
  !\a/**/
  /**
  /**.ha
$ seek -H . /r

# tree 23
tree
  d /r
  d /r/.git
  d /r/a
  d /r/a/a
  f 1 /r/a/a/c.o
  d /r/k.o
  f 1 /r/k.o/sub
rules /r/.gitignore
  .h
  ![!a]
  /**/
rules /r/k.o/.gitignore
  !\ab/
  !c.??
$ seek -H . /r
  /r/.gitignore

# tree 24
tree
  d /r
  d /r/.git
  f 1 /r/a
  d /r/b
  f 1 /r/b/ab
  f 1 /r/b/sub
rules /r/.gitignore
  !bsub
  [ab]*
  *.o/**?
rules /r/b/.gitignore
  [!a][ab]
$ seek -H . /r
  /r/.gitignore

# tree 25
tree
  d /r
  d /r/.git
  d /r/b
  f 1 /r/b/a
  d /r/b/c.o
  f 1 /r/b/c.o/.h
  f 1 /r/b/c.o/b
  f 1 /r/b/c.o/k.o
rules /r/.git/info/exclude
  *.o*
  .hc.?.h
rules /r/.gitignore
  !a/
$ seek -H . /r
  /r/.gitignore
  /r/b
  /r/b/a

# tree 26
tree
  d /r
  d /r/.git
  d /r/k.o
  f 1 /r/k.o/.h
  d /r/k.o/b
  d /r/k.o/b/a
  f 1 /r/k.o/b/a/sub
  d /r/sub
  f 1 /r/sub/.h
rules /r/.gitignore
  !.h*.o.h
  !/**//
rules /r/k.o/b/a/.gitignore
  aasub/
rules /r/sub/.gitignore
  .h
$ seek -H . /r
  /r/.gitignore
  /r/k.o
  /r/k.o/.h
  /r/k.o/b
  /r/k.o/b/a
  /r/k.o/b/a/.gitignore
  /r/k.o/b/a/sub
  /r/sub
  /r/sub/.gitignore

# tree 27
tree
  d /r
  d /r/.git
  f 1 /r/k.o
rules /r/.gitignore
  k.o
  c.?/
  k.oab
$ seek -H . /r
  /r/.gitignore

# tree 28
tree
  d /r
  d /r/.git
  d /r/a
  f 1 /r/a/c.o
  f 1 /r/a/k.o
rules /r/.gitignore
  **/k.o*
  !.h/
  .h/
$ seek -H . /r
  /r/.gitignore
  /r/a
  /r/a/c.o

# tree 29
tree
  d /r
  d /r/.git
  f 1 /r/c.o
  d /r/k.o
  d /r/k.o/b
  f 1 /r/k.o/b/.h
rules /r/.gitignore
  *.o
rules /r/k.o/b/.gitignore
  *.o
  **/[ab]/
  b*.o/
$ seek -H . /r
  /r/.gitignore

# tree 30
tree
  d /r
  d /r/.git
  f 1 /r/a
  d /r/ab
  d /r/ab/b
  f 1 /r/ab/b/.h
  d /r/ab/b/k.o
  f 1 /r/ab/b/k.o/k.o
rules /r/.gitignore
  .h[!a]
  .hab\a
  [!a]
rules /r/ab/b/k.o/.gitignore
  !**/[ab]?
  !ac.?
  \a
$ seek -H . /r
  /r/.gitignore
  /r/a
  /r/ab

# tree 31
tree
  d /r
  d /r/.git
  d /r/b
  f 1 /r/b/ab
  f 1 /r/b/b
  d /r/b/c.o
  d /r/b/c.o/a
  f 1 /r/b/c.o/a/c.o
  f 1 /r/b/c.o/a/k.o
  f 1 /r/c.o
rules /r/.gitignore
  !a?ab
  c.?a.h
rules /r/b/.gitignore
  b
  b
  b.h
$ seek -H . /r
  /r/.gitignore
  /r/b
  /r/b/.gitignore
  /r/b/ab
  /r/b/c.o
  /r/b/c.o/a
  /r/b/c.o/a/c.o
  /r/b/c.o/a/k.o
  /r/c.o

# tree 32
tree
  d /r
  d /r/.git
  f 1 /r/.h
  d /r/k.o
  d /r/k.o/c.o
  f 1 /r/k.o/c.o/b
  f 1 /r/k.o/c.o/c.o
  f 1 /r/k.o/k.o
rules /r/.gitignore
  c.?
  \a.h
  a/
rules /r/k.o/.gitignore
  sub
  b
$ seek -H . /r
  /r/.gitignore
  /r/.h
  /r/k.o
  /r/k.o/.gitignore
  /r/k.o/k.o

# tree 33
tree
  d /r
  d /r/.git
  f 1 /r/.h
  d /r/c.o
  f 1 /r/c.o/b
  f 1 /r/c.o/k.o
rules /r/.git/info/exclude
  *.o
  **/
rules /r/.gitignore
  !/k.o/**
  !.h
rules /r/c.o/.gitignore
  \asuba
$ seek -H . /r
  /r/.gitignore
  /r/.h

# tree 34
tree
  d /r
  d /r/.git
  d /r/b
  d /r/b/a
  d /r/b/a/ab
  f 1 /r/b/a/ab/.h
  f 1 /r/b/a/ab/c.o
  d /r/b/a/b
  f 1 /r/b/a/b/c.o
  f 1 /r/b/a/b/k.o
  f 1 /r/b/ab
  f 1 /r/b/sub
rules /r/.gitignore
  *.o
  k.o\a
  sub
rules /r/b/a/ab/.gitignore
  */
  ?/\a
  /**
$ seek -H . /r
  /r/.gitignore
  /r/b
  /r/b/a
  /r/b/a/ab
  /r/b/a/b
  /r/b/ab

# tree 35
tree
  d /r
  d /r/.git
  d /r/a
  f 1 /r/a/b
  d /r/k.o
  f 1 /r/k.o/.h
  d /r/k.o/c.o
  f 1 /r/k.o/c.o/a
  f 1 /r/k.o/c.o/ab
  f 1 /r/k.o/c.o/b
  f 1 /r/k.o/k.o
rules /r/.git/info/exclude
  !ac.?
rules /r/.gitignore
  /?
rules /r/a/.gitignore
  **/c.?\a
$ seek -H . /r
  /r/.gitignore
  /r/k.o
  /r/k.o/.h
  /r/k.o/c.o
  /r/k.o/c.o/a
  /r/k.o/c.o/ab
  /r/k.o/c.o/b
  /r/k.o/k.o

# tree 36
tree
  d /r
  d /r/.git
  f 1 /r/.h
  f 1 /r/a
rules /r/.git/info/exclude
  c.?
  ![ab]*.o**//
  !/a[ab]
rules /r/.gitignore
  a*
  !/**/**a/
$ seek -H . /r
  /r/.gitignore
  /r/.h

# tree 37
tree
  d /r
  d /r/.git
  f 1 /r/a
  d /r/b
  d /r/b/c.o
  d /r/b/c.o/ab
  f 1 /r/b/c.o/ab/ab
  f 1 /r/b/c.o/ab/sub
  f 1 /r/b/c.o/c.o
  f 1 /r/b/c.o/k.o
rules /r/.gitignore
  !*.o
  /**?
  k.o[ab]**/
rules /r/b/.gitignore
  ![!a]
  **/k.ok.o
  [!a]**//
rules /r/b/c.o/.gitignore
  /[!a]
  !b?\a
  !*.o*[ab]
$ seek -H . /r

# tree 38
tree
  d /r
  d /r/.git
  f 1 /r/a
  d /r/b
  f 1 /r/b/ab
  f 1 /r/b/b
rules /r/.gitignore
  \a/
  !.h\a\a/
  **/
rules /r/b/.gitignore
  !//
$ seek -H . /r
  /r/.gitignore
  /r/a

# tree 39
tree
  d /r
  d /r/.git
  d /r/ab
  d /r/ab/ab
  d /r/ab/ab/c.o
  f 1 /r/ab/ab/c.o/.h
  f 1 /r/ab/ab/c.o/k.o
  f 1 /r/ab/c.o
rules /r/.gitignore
  sub/
rules /r/ab/.gitignore
  [!a]b**/
  ?[ab]b
  /**/*
$ seek -H . /r
  /r/.gitignore
  /r/ab

# tree 40
tree
  d /r
  d /r/.git
  d /r/ab
  f 1 /r/ab/sub
  d /r/c.o
  d /r/c.o/ab
  f 1 /r/c.o/ab/ab
  f 1 /r/c.o/ab/k.o
  f 1 /r/c.o/ab/sub
rules /r/.gitignore
  !?**/\a
  b[!a]
  sub
rules /r/c.o/ab/.gitignore
  bsub
$ seek -H . /r
  /r/.gitignore
  /r/ab
  /r/c.o
  /r/c.o/ab
  /r/c.o/ab/.gitignore
  /r/c.o/ab/ab
  /r/c.o/ab/k.o

# tree 41
tree
  d /r
  d /r/.git
  f 1 /r/a
  d /r/ab
  f 1 /r/ab/ab
  f 1 /r/ab/b
  d /r/sub
  f 1 /r/sub/.h
  d /r/sub/b
  f 1 /r/sub/b/c.o
rules /r/sub/b/.gitignore
  *.oc.?sub/
  !sub/
  /**?
$ seek -H . /r
  /r/a
  /r/ab
  /r/ab/ab
  /r/ab/b
  /r/sub
  /r/sub/.h
  /r/sub/b

# tree 42
tree
  d /r
  d /r/.git
  f 1 /r/.h
  f 1 /r/ab
  f 1 /r/k.o
rules /r/.gitignore
  **/*.oc.?
  !sub
  /**
$ seek -H . /r

# tree 43
tree
  d /r
  d /r/.git
  d /r/c.o
  f 1 /r/c.o/.h
  f 1 /r/c.o/c.o
  f 1 /r/c.o/k.o
rules /r/c.o/.gitignore
  !b
  /**?
  !a
$ seek -H . /r
  /r/c.o

# tree 44
tree
  d /r
  d /r/.git
  f 1 /r/b
  d /r/k.o
  f 1 /r/k.o/.h
  f 1 /r/k.o/k.o
rules /r/.git/info/exclude
  !subsub
  !sub*.o*
  ![ab]subc.?/
rules /r/.gitignore
  \ab/
  k.osub/**
  !c.?/**
rules /r/k.o/.gitignore
  !k.o
  .h
$ seek -H . /r
  /r/.gitignore
  /r/b
  /r/k.o
  /r/k.o/.gitignore
  /r/k.o/k.o

# tree 45
tree
  d /r
  d /r/.git
  f 1 /r/.h
  f 1 /r/a
  d /r/b
  f 1 /r/b/a
  d /r/b/k.o
  d /r/b/k.o/c.o
  f 1 /r/b/k.o/c.o/b
  f 1 /r/b/k.o/c.o/k.o
rules /r/.git/info/exclude
  /\ab
rules /r/.gitignore
  !**/
rules /r/b/.gitignore
  ***/
rules /r/b/k.o/c.o/.gitignore
  !*
$ seek -H . /r
  /r/.gitignore
  /r/.h
  /r/a
  /r/b
  /r/b/.gitignore
  /r/b/a

# tree 46
tree
  d /r
  d /r/.git
  d /r/k.o
  f 1 /r/k.o/.h
  d /r/k.o/a
  f 1 /r/k.o/a/ab
  f 1 /r/k.o/sub
  f 1 /r/sub
rules /r/.gitignore
  *.o*/
  aab
  !sub/**/
rules /r/k.o/a/.gitignore
  ![!a]aba/
$ seek -H . /r
  /r/.gitignore
  /r/sub

# tree 47
tree
  d /r
  d /r/.git
  f 1 /r/.h
  d /r/a
  f 1 /r/a/c.o
  d /r/a/sub
  d /r/a/sub/a
  f 1 /r/a/sub/a/a
  f 1 /r/a/sub/a/c.o
  f 1 /r/a/sub/b
rules /r/.gitignore
  sub
rules /r/a/sub/.gitignore
  sub**/
  !c.??/
  !/**/?
$ seek -H . /r
  /r/.gitignore
  /r/.h
  /r/a
  /r/a/c.o

# tree 48
tree
  d /r
  d /r/.git
  f 1 /r/.h
  d /r/ab
  f 1 /r/ab/a
  d /r/ab/ab
  f 1 /r/ab/ab/.h
  d /r/ab/ab/k.o
  f 1 /r/ab/ab/k.o/.h
  f 1 /r/ab/ab/sub
  f 1 /r/ab/c.o
rules /r/.gitignore
  subsub
rules /r/ab/ab/.gitignore
  !**/*k.o
  *
rules /r/ab/ab/k.o/.gitignore
  ?[ab]/
  [!a]a/
  !a\a
$ seek -H . /r
  /r/.gitignore
  /r/.h
  /r/ab
  /r/ab/a
  /r/ab/ab
  /r/ab/c.o

# tree 49
tree
  d /r
  d /r/.git
  f 1 /r/ab
  d /r/sub
  f 1 /r/sub/.h
rules /r/.git/info/exclude
  c.?b[ab]/
  /**
rules /r/.gitignore
  !sub
  /
$ seek -H . /r
  /r/sub

# tree 50
tree
  d /r
  d /r/.git
  f 1 /r/.h
  d /r/ab
  f 1 /r/ab/sub
  f 1 /r/b
rules /r/.git/info/exclude
  [!a]\a
  !k.o
  subsub?
rules /r/.gitignore
  ?sub
  sub
$ seek -H . /r
  /r/.gitignore
  /r/.h
  /r/ab
  /r/b

# tree 51
tree
  d /r
  d /r/.git
  f 1 /r/.h
  d /r/k.o
  f 1 /r/k.o/.h
  d /r/k.o/ab
  f 1 /r/k.o/ab/.h
rules /r/.gitignore
  k.o
rules /r/k.o/.gitignore
  !\a[ab]sub
  **//***.o
  b
$ seek -H . /r
  /r/.gitignore
  /r/.h

# tree 52
tree
  d /r
  d /r/.git
  f 1 /r/.h
  d /r/c.o
  f 1 /r/c.o/sub
rules /r/.gitignore
  **/?*.o
$ seek -H . /r
  /r/.gitignore
  /r/.h

# tree 53
tree
  d /r
  d /r/.git
  f 1 /r/ab
  d /r/k.o
  d /r/k.o/a
  d /r/k.o/a/sub
  f 1 /r/k.o/a/sub/k.o
  f 1 /r/k.o/b
  f 1 /r/k.o/c.o
rules /r/.gitignore
  ?sub[ab]/
  **/c.?
rules /r/k.o/a/.gitignore
  !/
  abk.o*.o
rules /r/k.o/a/sub/.gitignore
  [!a]
  *.oa
$ seek -H . /r
  /r/.gitignore
  /r/ab
  /r/k.o
  /r/k.o/a
  /r/k.o/a/.gitignore
  /r/k.o/a/sub
  /r/k.o/a/sub/.gitignore
  /r/k.o/a/sub/k.o
  /r/k.o/b

# tree 54
tree
  d /r
  d /r/.git
  f 1 /r/ab
  f 1 /r/sub
rules /r/.gitignore
  !b
  *.o.h
  /[ab][ab]
$ seek -H . /r
  /r/.gitignore
  /r/sub

# tree 55
tree
  d /r
  d /r/.git
  f 1 /r/.h
  d /r/a
  f 1 /r/a/a
  f 1 /r/a/k.o
rules /r/.git/info/exclude
  /**/b
  [!a]/
  [!a]/c.?/
rules /r/.gitignore
  [ab]/
  ?[!a]sub
rules /r/a/.gitignore
  !*.o??/
$ seek -H . /r
  /r/.gitignore
  /r/.h

# tree 56
tree
  d /r
  d /r/.git
  f 1 /r/ab
  d /r/k.o
  f 1 /r/k.o/b
rules /r/.gitignore
  [!a]
rules /r/k.o/.gitignore
  !/**abc.?/
$ seek -H . /r
  /r/.gitignore
  /r/ab
  /r/k.o
  /r/k.o/.gitignore

# tree 57
tree
  d /r
  d /r/.git
  f 1 /r/.h
  f 1 /r/a
  d /r/k.o
  f 1 /r/k.o/.h
  d /r/k.o/b
  d /r/k.o/b/ab
  f 1 /r/k.o/b/ab/a
  f 1 /r/k.o/b/ab/b
  f 1 /r/k.o/b/sub
  f 1 /r/k.o/sub
rules /r/.git/info/exclude
  !aba
  !*
  **/
rules /r/.gitignore
  [ab]k.o
$ seek -H . /r
  /r/.gitignore
  /r/.h
  /r/a

# tree 58
tree
  d /r
  d /r/.git
  f 1 /r/.h
  f 1 /r/c.o
  d /r/sub
  f 1 /r/sub/sub
rules /r/.gitignore
  ?sub[!a]
  /sub
rules /r/sub/.gitignore
  *//**
  ?*.o
$ seek -H . /r
  /r/.gitignore
  /r/.h
  /r/c.o

# tree 59
tree
  d /r
  d /r/.git
  d /r/b
  f 1 /r/b/.h
rules /r/.git/info/exclude
  /**
  !*.osub*
rules /r/.gitignore
  **/k.o[!a]
rules /r/b/.gitignore
  subb
  \a[!a]/**
  ?/**.h
$ seek -H . /r

# tree 60
tree
  d /r
  d /r/.git
  f 1 /r/ab
rules /r/.gitignore
  ![ab]a[ab]
  *
  [ab].h
$ seek -H . /r

# tree 61
tree
  d /r
  d /r/.git
  f 1 /r/a
  d /r/ab
  d /r/ab/sub
  d /r/ab/sub/ab
  f 1 /r/ab/sub/ab/a
  f 1 /r/ab/sub/ab/ab
  d /r/ab/sub/k.o
  f 1 /r/ab/sub/k.o/b
rules /r/.gitignore
  a
rules /r/ab/sub/k.o/.gitignore
  !*.o*/
  \a//
  */**\a
$ seek -H . /r
  /r/.gitignore
  /r/ab
  /r/ab/sub
  /r/ab/sub/ab
  /r/ab/sub/ab/ab
  /r/ab/sub/k.o
  /r/ab/sub/k.o/.gitignore
  /r/ab/sub/k.o/b

# tree 62
tree
  d /r
  d /r/.git
  f 1 /r/.h
  d /r/ab
  f 1 /r/ab/b
  f 1 /r/b
rules /r/.git/info/exclude
  !*.o[ab]
  /****/**/
  **//
rules /r/.gitignore
  /****/**//
  sub/**
$ seek -H . /r
  /r/.gitignore
  /r/.h
  /r/b

# tree 63
tree
  d /r
  d /r/.git
  f 1 /r/a
  d /r/b
  f 1 /r/b/.h
  d /r/sub
  f 1 /r/sub/.h
  f 1 /r/sub/a
rules /r/.git/info/exclude
  a
  /
  *
rules /r/.gitignore
  !c.?[ab]
  [!a]a
  b/
$ seek -H . /r

# tree 64
tree
  d /r
  d /r/.git
  d /r/sub
  f 1 /r/sub/.h
  d /r/sub/c.o
  d /r/sub/c.o/a
  f 1 /r/sub/c.o/a/c.o
rules /r/.gitignore
  k.o[!a]*
  !c.?c.?b/
  k.ob[!a]
rules /r/sub/c.o/.gitignore
  a*
  *.o.h[!a]
  **/b
rules /r/sub/c.o/a/.gitignore
  ![ab]ab?
  !ab
  !ab*.o.h/
$ seek -H . /r
  /r/.gitignore
  /r/sub
  /r/sub/.h
  /r/sub/c.o
  /r/sub/c.o/.gitignore

# tree 65
tree
  d /r
  d /r/.git
  d /r/a
  f 1 /r/a/sub
  d /r/c.o
  f 1 /r/c.o/k.o
rules /r/.gitignore
  c.?*\a
  \a
  !**/k.o
$ seek -H . /r
  /r/.gitignore
  /r/c.o
  /r/c.o/k.o

# tree 66
tree
  d /r
  d /r/.git
  f 1 /r/.h
  d /r/c.o
  d /r/c.o/k.o
  d /r/c.o/k.o/a
  f 1 /r/c.o/k.o/a/sub
  f 1 /r/k.o
rules /r/.git/info/exclude
  /**/
  !**/a
rules /r/.gitignore
  !b[!a]*
  b/\a/
rules /r/c.o/k.o/.gitignore
  *?ab/
  !/\a*.o
$ seek -H . /r
  /r/.gitignore
  /r/.h
  /r/k.o

# tree 67
tree
  d /r
  d /r/.git
  d /r/k.o
  f 1 /r/k.o/a
  f 1 /r/k.o/b
  d /r/k.o/k.o
  f 1 /r/k.o/k.o/ab
  f 1 /r/k.o/k.o/sub
  f 1 /r/sub
rules /r/.git/info/exclude
  /
  //
  **//**sub
rules /r/k.o/.gitignore
  !.h*
  ab
  **/
$ seek -H . /r
  /r/k.o
  /r/k.o/.gitignore
  /r/k.o/a
  /r/k.o/b
  /r/sub

# tree 68
tree
  d /r
  d /r/.git
  d /r/ab
  f 1 /r/ab/b
rules /r/.gitignore
  .h.h
  k.o
  ab
$ seek -H . /r
  /r/.gitignore

# tree 69
tree
  d /r
  d /r/.git
  d /r/c.o
  f 1 /r/c.o/b
  f 1 /r/sub
rules /r/.git/info/exclude
  *.oa*.o
  !\a**/ab
  ?*.o/
rules /r/.gitignore
  !/***//
  /**abab
  ?/
$ seek -H . /r
  /r/.gitignore
  /r/sub

# tree 70
tree
  d /r
  d /r/.git
  d /r/b
  d /r/b/sub
  d /r/b/sub/a
  f 1 /r/b/sub/a/ab
  f 1 /r/b/sub/c.o
rules /r/.gitignore
  b*a
rules /r/b/.gitignore
  k.o/**a/
  !/**/a
rules /r/b/sub/.gitignore
  /**/
  **/
  k.o
rules /r/b/sub/a/.gitignore
  *
$ seek -H . /r
  /r/.gitignore
  /r/b
  /r/b/.gitignore
  /r/b/sub
  /r/b/sub/.gitignore
  /r/b/sub/c.o

# tree 71
tree
  d /r
  d /r/.git
  f 1 /r/a
  f 1 /r/k.o
rules /r/.git/info/exclude
  ?ab
  ?
  a?*
$ seek -H . /r
  /r/k.o

# tree 72
tree
  d /r
  d /r/.git
  f 1 /r/.h
  d /r/c.o
  f 1 /r/c.o/.h
  f 1 /r/c.o/b
  d /r/c.o/k.o
  f 1 /r/c.o/k.o/.h
rules /r/.git/info/exclude
  !?c.?
  *.o
rules /r/.gitignore
  *
  [!a]*.ok.o
  /asub
rules /r/c.o/.gitignore
  k.o/
  /c.??
$ seek -H . /r

# tree 73
tree
  d /r
  d /r/.git
  f 1 /r/a
rules /r/.git/info/exclude
  b
  !*.o/**[!a]
  *.o/****/
rules /r/.gitignore
  /**
  *[ab]*
  **/[!a]/
$ seek -H . /r

# tree 74
tree
  d /r
  d /r/.git
  f 1 /r/ab
rules /r/.git/info/exclude
  a*?
  *\a/
rules /r/.gitignore
  ?b\a/
  ![!a][!a][!a]
$ seek -H . /r
  /r/.gitignore

# tree 75
tree
  d /r
  d /r/.git
  d /r/a
  f 1 /r/a/.h
  f 1 /r/a/sub
  f 1 /r/ab
  f 1 /r/k.o
rules /r/.gitignore
  ab/**
  ![!a]a
  c.?/
rules /r/a/.gitignore
  /**
$ seek -H . /r
  /r/.gitignore
  /r/a
  /r/ab
  /r/k.o

# tree 76
tree
  d /r
  d /r/.git
  f 1 /r/b
  f 1 /r/sub
rules /r/.gitignore
  *
  ?ak.o
$ seek -H . /r

# tree 77
tree
  d /r
  d /r/.git
  f 1 /r/b
  d /r/c.o
  f 1 /r/c.o/k.o
rules /r/.gitignore
  **/.h
  [!a]
$ seek -H . /r
  /r/.gitignore
  /r/c.o
  /r/c.o/k.o

# tree 78
tree
  d /r
  d /r/.git
  d /r/a
  d /r/a/k.o
  d /r/a/k.o/ab
  f 1 /r/a/k.o/ab/c.o
  f 1 /r/ab
  f 1 /r/sub
rules /r/.gitignore
  \a/
  .h[ab]?/
  ?
rules /r/a/.gitignore
  /**
  c.?/
  .h*
rules /r/a/k.o/ab/.gitignore
  !ba/
  [!a]/
$ seek -H . /r
  /r/.gitignore
  /r/ab
  /r/sub

# tree 79
tree
  d /r
  d /r/.git
  f 1 /r/.h
rules /r/.gitignore
  ??
  *c.?
$ seek -H . /r
  /r/.gitignore

# tree 80
tree
  d /r
  d /r/.git
  f 1 /r/.h
  d /r/a
  f 1 /r/a/.h
  f 1 /r/a/k.o
  f 1 /r/b
rules /r/.git/info/exclude
  k.o
  c.?k.o?
rules /r/.gitignore
  sub/
  !ab?
  \a
rules /r/a/.gitignore
  !**/ab
  c.?
  c.?/c.?/
$ seek -H . /r
  /r/.gitignore
  /r/.h
  /r/b

# tree 81
tree
  d /r
  d /r/.git
  f 1 /r/ab
rules /r/.git/info/exclude
  \ab
  ?
rules /r/.gitignore
  *\a*
  [!a]
  b/**
$ seek -H . /r
  /r/.gitignore

# tree 82
tree
  d /r
  d /r/.git
  d /r/ab
  f 1 /r/ab/.h
  d /r/ab/ab
  d /r/ab/ab/ab
  f 1 /r/ab/ab/ab/a
  f 1 /r/ab/ab/ab/c.o
  f 1 /r/ab/ab/ab/k.o
  f 1 /r/ab/ab/sub
rules /r/.gitignore
  /.hk.o/
  !.h[ab]
  !/**
rules /r/ab/.gitignore
  \ak.o?
  !/
  k.o\a
rules /r/ab/ab/ab/.gitignore
  k.o//
  /**
$ seek -H . /r
  /r/.gitignore
  /r/ab
  /r/ab/.gitignore
  /r/ab/.h
  /r/ab/ab
  /r/ab/ab/ab
  /r/ab/ab/sub

# tree 83
tree
  d /r
  d /r/.git
  d /r/k.o
  f 1 /r/k.o/ab
rules /r/.git/info/exclude
  **ab
rules /r/.gitignore
  c.?.h**/
rules /r/k.o/.gitignore
  *sub/
  *.o//
  \a[ab]
$ seek -H . /r
  /r/.gitignore
  /r/k.o
  /r/k.o/.gitignore

# tree 84
tree
  d /r
  d /r/.git
  d /r/a
  f 1 /r/a/b
  f 1 /r/a/sub
  d /r/ab
  f 1 /r/ab/.h
  f 1 /r/ab/b
  f 1 /r/ab/c.o
  f 1 /r/c.o
rules /r/.gitignore
  /sub
  */
  [!a]
rules /r/a/.gitignore
  \a
  b??
  ?
rules /r/ab/.gitignore
  b*.ob
  /b
$ seek -H . /r
  /r/.gitignore
  /r/c.o

# tree 85
tree
  d /r
  d /r/.git
  d /r/ab
  f 1 /r/ab/b
  d /r/ab/k.o
  d /r/ab/k.o/k.o
  f 1 /r/ab/k.o/k.o/a
  f 1 /r/ab/k.o/sub
  f 1 /r/ab/sub
  d /r/b
  f 1 /r/b/.h
rules /r/.gitignore
  .h
  !c.?ab/
rules /r/b/.gitignore
  !a\a[ab]/
  ab
  ab
$ seek -H . /r
  /r/.gitignore
  /r/ab
  /r/ab/b
  /r/ab/k.o
  /r/ab/k.o/k.o
  /r/ab/k.o/k.o/a
  /r/ab/k.o/sub
  /r/ab/sub
  /r/b
  /r/b/.gitignore

# tree 86
tree
  d /r
  d /r/.git
  d /r/c.o
  d /r/c.o/a
  f 1 /r/c.o/a/sub
  f 1 /r/c.o/c.o
  f 1 /r/k.o
rules /r/.git/info/exclude
  *.osub
rules /r/.gitignore
  bk.o?/
  /**c.?/
rules /r/c.o/.gitignore
  ab?[ab]
rules /r/c.o/a/.gitignore
  ab
  bk.o
$ seek -H . /r
  /r/.gitignore
  /r/k.o

# tree 87
tree
  d /r
  d /r/.git
  d /r/ab
  f 1 /r/ab/c.o
  f 1 /r/ab/sub
  d /r/c.o
  f 1 /r/c.o/a
  f 1 /r/sub
rules /r/.gitignore
  !aa
  *
  *k.o
rules /r/ab/.gitignore
  !b*.o\a
rules /r/c.o/.gitignore
  [!a]?
$ seek -H . /r

# tree 88
tree
  d /r
  d /r/.git
  d /r/ab
  f 1 /r/ab/ab
  f 1 /r/ab/c.o
  f 1 /r/ab/sub
rules /r/.git/info/exclude
  k.oa
  ab
  a.h
rules /r/.gitignore
  **/
  \a
$ seek -H . /r
  /r/.gitignore

# tree 89
tree
  d /r
  d /r/.git
  f 1 /r/ab
  d /r/sub
  d /r/sub/a
  d /r/sub/a/ab
  f 1 /r/sub/a/ab/a
  f 1 /r/sub/a/ab/b
  f 1 /r/sub/a/ab/k.o
  f 1 /r/sub/a/k.o
rules /r/.gitignore
  !.h
  a/
rules /r/sub/a/ab/.gitignore
  a[!a]
  !**//
  [!a]
$ seek -H . /r
  /r/.gitignore
  /r/ab
  /r/sub

# tree 90
tree
  d /r
  d /r/.git
  f 1 /r/.h
  d /r/b
  f 1 /r/b/ab
  d /r/b/sub
  f 1 /r/b/sub/.h
  d /r/b/sub/c.o
  f 1 /r/b/sub/c.o/k.o
  f 1 /r/b/sub/c.o/sub
rules /r/.git/info/exclude
  subsubb
  !?k.o/
  ab
rules /r/.gitignore
  b/a
rules /r/b/sub/c.o/.gitignore
  !k.o**/
  /**b
  ab*.oa
$ seek -H . /r
  /r/.gitignore
  /r/.h
  /r/b
  /r/b/sub
  /r/b/sub/.h
  /r/b/sub/c.o
  /r/b/sub/c.o/.gitignore
  /r/b/sub/c.o/k.o

# tree 91
tree
  d /r
  d /r/.git
  d /r/b
  d /r/b/a
  f 1 /r/b/a/a
  f 1 /r/b/ab
rules /r/.git/info/exclude
  ab
  ?/
  *[!a]
rules /r/.gitignore
  [!a]*/
  *.o
$ seek -H . /r

# tree 92
tree
  d /r
  d /r/.git
  d /r/ab
  f 1 /r/ab/.h
  d /r/ab/a
  f 1 /r/ab/a/b
  f 1 /r/ab/a/c.o
  f 1 /r/ab/a/k.o
  d /r/b
  f 1 /r/b/c.o
  f 1 /r/k.o
rules /r/.gitignore
  *.oaa
  [!a]
rules /r/ab/a/.gitignore
  !*.hsub/
  [ab]b
rules /r/b/.gitignore
  b.hsub
$ seek -H . /r
  /r/.gitignore
  /r/ab
  /r/ab/.h
  /r/ab/a
  /r/ab/a/.gitignore
  /r/ab/a/c.o
  /r/ab/a/k.o
  /r/k.o

# tree 93
tree
  d /r
  d /r/.git
  d /r/sub
  f 1 /r/sub/sub
rules /r/.git/info/exclude
  ababb
  /****/
rules /r/.gitignore
  [ab]\a
rules /r/sub/.gitignore
  !.hk.o
  !a/
$ seek -H . /r
  /r/.gitignore

# tree 94
tree
  d /r
  d /r/.git
  f 1 /r/b
  d /r/sub
  d /r/sub/ab
  f 1 /r/sub/ab/.h
  d /r/sub/ab/ab
  f 1 /r/sub/ab/ab/c.o
rules /r/.git/info/exclude
  !k.ob?/
  ab/sub
  a
rules /r/.gitignore
  !b.h/
  [ab]?a
rules /r/sub/.gitignore
  a/**
  [ab]/**//
  [!a]*?
rules /r/sub/ab/ab/.gitignore
  **//
  */
  **/k.o
$ seek -H . /r
  /r/.gitignore
  /r/b
  /r/sub
  /r/sub/ab
  /r/sub/ab/ab

# tree 95
tree
  d /r
  d /r/.git
  d /r/a
  f 1 /r/a/.h
  d /r/a/a
  d /r/a/a/ab
  f 1 /r/a/a/ab/b
  f 1 /r/a/a/ab/sub
  d /r/c.o
  f 1 /r/c.o/.h
  f 1 /r/k.o
rules /r/.gitignore
  *.o[!a].h
rules /r/a/a/.gitignore
  /**?[!a]
  ?.h\a
  k.o
rules /r/c.o/.gitignore
  .hb
  ab[!a]/**
$ seek -H . /r
  /r/.gitignore
  /r/a
  /r/a/.h
  /r/a/a
  /r/c.o
  /r/c.o/.gitignore
  /r/c.o/.h
  /r/k.o

# tree 96
tree
  d /r
  d /r/.git
  f 1 /r/ab
  d /r/k.o
  f 1 /r/k.o/.h
  f 1 /r/k.o/k.o
  f 1 /r/k.o/sub
rules /r/.gitignore
  *
  ab*
$ seek -H . /r

# tree 97
tree
  d /r
  d /r/.git
  d /r/a
  d /r/a/k.o
  f 1 /r/a/k.o/b
  f 1 /r/a/k.o/sub
  f 1 /r/c.o
rules /r/.git/info/exclude
  *.o\a**/
  k.o/sub
rules /r/.gitignore
  *
  c.?k.o[!a]
  ab\a?
rules /r/a/k.o/.gitignore
  !ab[ab]
$ seek -H . /r

# tree 98
tree
  d /r
  d /r/.git
  d /r/c.o
  d /r/c.o/a
  f 1 /r/c.o/a/.h
  d /r/c.o/a/k.o
  f 1 /r/c.o/a/k.o/.h
  f 1 /r/c.o/a/k.o/ab
  f 1 /r/c.o/a/k.o/sub
  f 1 /r/c.o/sub
  f 1 /r/k.o
rules /r/.gitignore
  suba/
  a[ab]b/
rules /r/c.o/a/.gitignore
  sub
  !bc.?*.o/
$ seek -H . /r
  /r/.gitignore
  /r/c.o
  /r/c.o/a
  /r/c.o/a/.gitignore
  /r/c.o/a/.h
  /r/c.o/a/k.o
  /r/c.o/a/k.o/.h
  /r/c.o/a/k.o/ab
  /r/c.o/sub
  /r/k.o

# tree 99
tree
  d /r
  d /r/.git
  f 1 /r/ab
  d /r/b
  f 1 /r/b/ab
  d /r/b/b
  f 1 /r/b/b/.h
rules /r/.gitignore
  [ab][!a]
  ?abk.o/
$ seek -H . /r
  /r/.gitignore
  /r/b
  /r/b/b
  /r/b/b/.h
