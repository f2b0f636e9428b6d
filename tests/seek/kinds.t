-- Types, by what the listing says and by modes.

# types by the mode
tree
  p /t/pipe
  s /t/socket
  f 1 /t/file
  f 1 /t/run
  f 1 /t/by-group
  f 1 /t/by-others
  d /t/dir
  l file	/t/link
  m 744 /t/run
  m 654 /t/by-group
  m 645 /t/by-others
$ seek -t p . /t
  /t/pipe
$ seek --type=pipe . /t
  /t/pipe
$ seek -t s . /t
  /t/socket
$ seek --type=socket . /t
  /t/socket
$ seek -t f . /t
  /t/by-group
  /t/by-others
  /t/file
  /t/run
$ seek -t x . /t
  /t/by-group
  /t/by-others
  /t/run
$ seek --type=executable . /t
  /t/by-group
  /t/by-others
  /t/run
$ seek -t o . /t
  /t/pipe
  /t/socket
$ seek --type=other . /t
  /t/pipe
  /t/socket
$ seek -t b . /t
$ seek -t c . /t
$ seek -t s -t p -t d . /t
  /t/dir
  /t/pipe
  /t/socket

# devices
tree
  b 7:250 /t/block
  c 1:3 /t/char
  p /t/pipe
$ seek -t b . /t
  /t/block
$ seek --type=block-device . /t
  /t/block
$ seek -t c . /t
  /t/char
$ seek --type=char-device . /t
  /t/char
$ seek -t o . /t
  /t/block
  /t/char
  /t/pipe
$ seek -t f . /t

# executable files and directories
tree
  d /k
  d /k/d
  f 0 /k/may
  t 1714521600 /k/may
  f 0 /k/later
  t 1714521600.000000001 /k/later
  f 0 /k/old
  t 1672531200 /k/old
  f 0 /k/new
  f 0 /k/run
  m 755 /k/run
  l old	/k/l
$ seek -t x . /k --sort
  /k/run
$ seek -tx --type=dir . /k --sort
  /k/d
  /k/run

# what has no type of those that are named
tree
  d /t
  f 1 /t/a.txt
  f 1 /t/B.TXT
  f 1 /t/.hidden
  d /t/sub
  f 1 /t/sub/c.rs
  f 1 /t/sub/notes.tar.gz
  d /t/sub/deep
  f 1 /t/sub/deep/a.rs
  l a.txt	/t/link
  l sub	/t/down
$ seek -tx -tp . /t

# what is neither file nor directory nor link
$ seek -t o -d1 ^null$ /dev
  /dev/null

# a character device
$ seek -t c -d1 ^null$ /dev
  /dev/null
