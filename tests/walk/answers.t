-- The line of each sort of answer that a disk gives.

# what is neither a file nor a directory
disk
  d /odd
  l nowhere	/odd/link
  s /odd/socket
  p /odd/pipe
  d /odd/denied
  x /odd/denied
nobody
$ walk /odd
  0 d /odd
  1 d /odd/denied ! PermissionDenied
  1 L /odd/link
  1 o /odd/pipe
  1 o /odd/socket
$ walk --usage /odd
  files 0 dirs 2 links 1 others 2 errors 1 bytes 0

# links to such
disk
  d /special
  l ../p	/special/pipe
  l ../s	/special/socket
  p /p
  s /s
$ walk --follow /special
  0 d /special
  1 O /special/pipe
  1 O /special/socket
$ walk --usage --follow /special
  files 0 dirs 1 links 0 others 2 errors 0 bytes 0

# directories without permissions
disk
  d /t/a
  f 1 /t/a/x
  d /t/closed
  f 1 /t/closed/x
  d /t/z
  f 1 /t/z/x
  m 0 /t/closed
nobody
$ walk /t
  0 d /t
  1 d /t/a
  2 f /t/a/x
  1 d /t/closed ! PermissionDenied
  1 d /t/z
  2 f /t/z/x
$ walk /t/closed
  0 d /t/closed ! PermissionDenied
$ walk --usage /t/closed
  files 0 dirs 1 links 0 others 0 errors 1 bytes 0
$ walk /t/closed/x
  ! 0 /t/closed/x PermissionDenied
= 1

# a directory whose names may be read and in which nothing may be looked at
disk
  d /t/closed
  f 1 /t/closed/x
  f 1 /t/closed/y
  m 444 /t/closed
nobody
$ walk /t
  0 d /t
  1 d /t/closed
  ! 2 /t/closed/x PermissionDenied
  ! 2 /t/closed/y PermissionDenied
= 1
any order
$ walk --usage /t
  files 0 dirs 2 links 0 others 0 errors 2 bytes 0
= 1

# names that are no UTF-8
disk
  f 1 /t/a
  f 1 /t/b\xe9
  d /t/d
  f 1 /t/d/c\xc3
  f 1 /t/d/y
  f 1 /t/z
  d /t/\xff
  f 1 /t/\xff/x
$ walk /t
  0 d /t
  1 f /t/a
  1 d /t/d
  2 f /t/d/y
  ! 2 - Other
  1 f /t/z
  ! 1 - Other
  ! 1 - Other
= 1

# links to a closed directory, to a closed file and to what lies in a closed directory
disk
  d /t
  d /c
  d /c/d
  f 1 /f
  l ../c	/t/c
  l ../c/d	/t/d
  l ../f	/t/f
  m 0 /c
  m 0 /f
nobody
$ walk --follow /t
  0 d /t
  1 D /t/c ! PermissionDenied
  1 F /t/f
  ! 1 /t/d PermissionDenied
= 1
