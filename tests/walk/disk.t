-- Walks over a disk alone: large folders, and roots from where the program is called.

# links to a directory, to a file in it and to nothing, followed and not
disk
  d /r/a
  f 1 /r/a/x
  l a	/r/to_a
  l a/x	/r/to_x
  l none	/r/to_none
$ walk /r
  0 d /r
  1 d /r/a
  2 f /r/a/x
  1 L /r/to_a
  1 L /r/to_none
  1 L /r/to_x
$ walk --follow /r
  0 d /r
  1 d /r/a
  2 f /r/a/x
  1 D /r/to_a
  2 f /r/to_a/x
  1 F /r/to_x
  ! 1 /r/to_none NotFound
= 1

# they are roots, as are a file and what is not there
$ walk /r/to_a
  0 L /r/to_a
  1 f /r/to_a/x
$ walk --follow /r/to_a
  0 D /r/to_a
  1 f /r/to_a/x
$ walk /r/to_none
  ! 0 /r/to_none NotFound
= 1
$ walk /r/a/x
  0 f /r/a/x
$ walk /r/none
  ! 0 /r/none NotFound
= 1

# a device is something else
$ walk /dev/null
  0 o /dev/null

# a link to the root is a loop, however the root is written
disk
  d /r/a
  l /r	/r/a/l
$ walk --follow --max 6 /r
  0 d /r
  1 d /r/a
  ! 2 /r/a/l loop /r
= 1
$ walk --follow --max 6 .
in /r
  0 d .
  1 d ./a
  ! 2 ./a/l loop .
= 1

# two links from each of two directories to the other
disk
  d /r/a
  l ../b	/r/a/l
  l ../b	/r/a/m
  d /r/b
  l ../a	/r/b/l
  l ../a	/r/b/m
$ walk --follow --max 6 /r
  0 d /r
  1 d /r/a
  2 D /r/a/l
  ! 3 /r/a/l/l loop /r/a
  ! 3 /r/a/l/m loop /r/a
  2 D /r/a/m
  ! 3 /r/a/m/l loop /r/a
  ! 3 /r/a/m/m loop /r/a
  1 d /r/b
  2 D /r/b/l
  ! 3 /r/b/l/l loop /r/b
  ! 3 /r/b/l/m loop /r/b
  2 D /r/b/m
  ! 3 /r/b/m/l loop /r/b
  ! 3 /r/b/m/m loop /r/b
= 1
any order

# roots from where the program is called
disk
  d /r/s
$ walk --max 1 .
  0 d .
  1 d ./r
$ walk --max 1 ..
in /r
  0 d ..
  1 d ../r
$ walk --max 1 ../..
in /r/s
  0 d ../..
  1 d ../../r

-- All names together are longer than one reading of a directory.
# thousands of files in one directory
disk
  f 0 /d/{10000..14999} of the files of one wide directory
$ walk /d
  0 d /d
  1 f /d/{10000..14999} of the files of one wide directory

# a thousand directories in one another
disk
  d /r<</d*{1..1000}>>
$ walk /r
  0 d /r
  {1..1000} d /r<</d*{1..1000}>>
