-- Totals.

# entries count by type and files by length
tree
  d /t
  f 1 /t/c.txt
  f 2 /t/a.txt
  d /t/group 2
  f 3 /t/group 2/.hidden_file.txt
  f 4 /t/group 2/e.txt
  d /t/group 1
  f 5 /t/group 1/d.txt
  f 6 /t/b.txt
$ walk --usage /t
  files 5 dirs 3 links 0 others 0 errors 0 bytes 18
$ walk --hidden --usage /t
  files 6 dirs 3 links 0 others 0 errors 0 bytes 21
$ walk --usage --min 2 /t
  files 2 dirs 0 links 0 others 0 errors 0 bytes 9

input
  d /r
  f 18446744073709551615 /r/a
  f 18446744073709551615 /r/b
$ walk --tree --usage /r
  files 2 dirs 1 links 0 others 0 errors 0 bytes 36893488147419103230

# errors count and only those that are yielded give the status
tree
  d /t
  f 1 /t/c.txt
  f 2 /t/a.txt
  d /t/group 2
  f 3 /t/group 2/.hidden_file.txt
  f 4 /t/group 2/e.txt
  d /t/group 1
  f 5 /t/group 1/d.txt
  f 6 /t/b.txt
  x /t/group 2
nobody
$ walk --usage /t
  files 4 dirs 3 links 0 others 0 errors 1 bytes 14

tree
  d /t
  f 1 /t/c.txt
  f 2 /t/a.txt
  d /t/group 2
  f 3 /t/group 2/.hidden_file.txt
  f 4 /t/group 2/e.txt
  d /t/group 1
  f 5 /t/group 1/d.txt
  f 6 /t/b.txt
$ walk --usage /none
  files 0 dirs 0 links 0 others 0 errors 1 bytes 0
= 1

tree
  d /r
  d /r/a
  d /r/a/b
  d /r/a/b/c
  l /r/a	/r/a/b/c/a-link
$ walk --usage --follow /r
  files 0 dirs 4 links 0 others 0 errors 1 bytes 0
= 1

# links count as what they are followed to
$ walk --usage /r
  files 0 dirs 4 links 1 others 0 errors 0 bytes 0

tree
  d /r
  f 7 /r/f
  l f	/r/l
$ walk --usage /r
  files 1 dirs 1 links 1 others 0 errors 0 bytes 7
$ walk --usage --follow /r
  files 2 dirs 1 links 0 others 0 errors 0 bytes 14
