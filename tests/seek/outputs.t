-- Outputs.

# control characters on a terminal
tree
  d /t
  d /t/\x1b[31m
  f 1 /t/\x1b[31m/a\xc2\x9bb
  f 1 /t/\x7fé\x09
tty$ seek . /t
  /t/?[31m
  /t/?[31m/a?b
  /t/?é?
tty$ seek -0 é /t
  /t/?é?\x00
tty$ seek -a . t
  /t/?[31m
  /t/?[31m/a?b
  /t/?é?

# control characters elsewhere
$ seek . /t
  /t/\x1b[31m
  /t/\x1b[31m/a\xc2\x9bb
  /t/\x7fé\x09

# a long output is written whole
tree
  f 1 /r/<<a file of a long name *4>>{0000..1499}
$ seek . /r
  /r/<<a file of a long name *4>>{0000..1499}

# an output that can't be written
tree
  f 1 /r/a
full$ seek . /r
! seek: cannot write: No space left on device (os error 28)
= 1
full$ seek --help
! seek: cannot write: No space left on device (os error 28)
= 1

# a pipe that nobody reads
tree
  f 1 /r/a
closed$ seek . /r
= 1
closed$ seek --help
= 1
