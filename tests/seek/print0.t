-- Zero bytes behind paths. Without a root paths begin with `./`, so that no name is taken for options by what reads them.

# no name is an option
tree
  f 1 /t/-rf
  d /t/d
  f 1 /t/d/a
$ seek -0 --base-directory=/t .
  ./-rf\x00
  ./d\x00
  ./d/a\x00
$ seek --print0 --base-directory=/t a$
  ./d/a\x00
$ seek -0 --strip-cwd-prefix --base-directory=/t .
  -rf\x00
  d\x00
  d/a\x00
$ seek --strip-cwd-prefix --base-directory=/t .
  -rf
  d
  d/a
$ seek --base-directory=/t .
  -rf
  d
  d/a

# roots are written as they were named
$ seek -0 . /t
  /t/-rf\x00
  /t/d\x00
  /t/d/a\x00
$ seek -0 --base-directory=/t . d
  d/a\x00
$ seek -0 -a a$ /t
  /t/d/a\x00
