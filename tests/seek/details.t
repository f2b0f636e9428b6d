-- Details of entries, in columns, as `ls -ln` writes them but for times.

# modes of files
tree
  f 0 /m/{1..7}
  o 0:0 /m/{1..7}
  t 0 /m/{1..7}
  m 644 /m/1
  m 0 /m/2
  m 777 /m/3
  m 4755 /m/4
  m 4644 /m/5
  m 2755 /m/6
  m 2744 /m/7
$ seek -l ^1$ /m
  -rw-r--r--   1     0     0          0 1970-01-01 00:00:00 /m/1
$ seek -l ^2$ /m
  ----------   1     0     0          0 1970-01-01 00:00:00 /m/2
$ seek -l ^3$ /m
  -rwxrwxrwx   1     0     0          0 1970-01-01 00:00:00 /m/3
$ seek -l ^4$ /m
  -rwsr-xr-x   1     0     0          0 1970-01-01 00:00:00 /m/4
$ seek -l ^5$ /m
  -rwSr--r--   1     0     0          0 1970-01-01 00:00:00 /m/5
$ seek -l ^6$ /m
  -rwxr-sr-x   1     0     0          0 1970-01-01 00:00:00 /m/6
$ seek -l ^7$ /m
  -rwxr-Sr--   1     0     0          0 1970-01-01 00:00:00 /m/7

# modes of directories
tree
  d /m/{1..3}
  o 0:0 /m/{1..3}
  t 0 /m/{1..3}
  m 1777 /m/1
  m 1776 /m/2
  m 750 /m/3
$ seek -l ^1$ /m
  drwxrwxrwt{names /m/1:4}     0     0{size /m/1:11} 1970-01-01 00:00:00 /m/1
$ seek -l ^2$ /m
  drwxrwxrwT{names /m/2:4}     0     0{size /m/2:11} 1970-01-01 00:00:00 /m/2
$ seek -l ^3$ /m
  drwxr-x---{names /m/3:4}     0     0{size /m/3:11} 1970-01-01 00:00:00 /m/3

# modes of what is neither
tree
  l to	/m/l
  p /m/p
  s /m/s
  b 7:250 /m/b
  c 1:3 /m/c
  o 0:0 /m/l
  o 0:0 /m/p
  o 0:0 /m/s
  o 0:0 /m/b
  o 0:0 /m/c
  t 0 /m/l
  t 0 /m/p
  t 0 /m/s
  t 0 /m/b
  t 0 /m/c
  m 644 /m/p
  m 755 /m/s
  m 660 /m/b
  m 666 /m/c
$ seek -l ^l$ /m
  lrwxrwxrwx   1     0     0          2 1970-01-01 00:00:00 /m/l
$ seek -l ^p$ /m
  prw-r--r--   1     0     0          0 1970-01-01 00:00:00 /m/p
$ seek -l ^s$ /m
  srwxr-xr-x   1     0     0          0 1970-01-01 00:00:00 /m/s
$ seek -l ^b$ /m
  brw-rw----   1     0     0          0 1970-01-01 00:00:00 /m/b
$ seek -l ^c$ /m
  crw-rw-rw-   1     0     0          0 1970-01-01 00:00:00 /m/c

# times
tree
  f 0 /m/{01..12}
  o 0:0 /m/{01..12}
  t 0 /m/01
  t -1 /m/02
  t 86399 /m/03
  t 86400 /m/04
  t 951782400 /m/05
  t 951868799 /m/06
  t 951868800 /m/07
  t 1709164800 /m/08
  t 1735689599 /m/09
  t 4107542399 /m/10
  t 4107542400 /m/11
  t -2147483648 /m/12
$ seek -l ^01$ /m
  -rw-r--r--   1     0     0          0 1970-01-01 00:00:00 /m/01
$ seek -l ^02$ /m
  -rw-r--r--   1     0     0          0 1969-12-31 23:59:59 /m/02
$ seek -l ^03$ /m
  -rw-r--r--   1     0     0          0 1970-01-01 23:59:59 /m/03
$ seek -l ^04$ /m
  -rw-r--r--   1     0     0          0 1970-01-02 00:00:00 /m/04
$ seek -l ^05$ /m
  -rw-r--r--   1     0     0          0 2000-02-29 00:00:00 /m/05
$ seek -l ^06$ /m
  -rw-r--r--   1     0     0          0 2000-02-29 23:59:59 /m/06
$ seek -l ^07$ /m
  -rw-r--r--   1     0     0          0 2000-03-01 00:00:00 /m/07
$ seek -l ^08$ /m
  -rw-r--r--   1     0     0          0 2024-02-29 00:00:00 /m/08
$ seek -l ^09$ /m
  -rw-r--r--   1     0     0          0 2024-12-31 23:59:59 /m/09
$ seek -l ^10$ /m
  -rw-r--r--   1     0     0          0 2100-02-28 23:59:59 /m/10
$ seek -l ^11$ /m
  -rw-r--r--   1     0     0          0 2100-03-01 00:00:00 /m/11
$ seek -l ^12$ /m
  -rw-r--r--   1     0     0          0 1901-12-13 20:45:52 /m/12

# long numbers take more room
tree
  f 12345678901 /m/a
  o 165536:4294967294 /m/a
  t 0 /m/a
  h /m/a	/n/{0001..1233}
$ seek -l ^a$ /m
  -rw-r--r-- 1234 165536 4294967294 12345678901 1970-01-01 00:00:00 /m/a

# details of a directory, and with another separator
tree
  d /t/sub
  f 5 /t/sub/c.rs
  o 1000:100 /t/sub
  o 1000:100 /t/sub/c.rs
  t 951782400 /t/sub
  t 951782400 /t/sub/c.rs
$ seek -l ^sub /t
  drwxr-xr-x{names /t/sub:4}  1000   100{size /t/sub:11} 2000-02-29 00:00:00 /t/sub
$ seek --list-details . t
  drwxr-xr-x{names /t/sub:4}  1000   100{size /t/sub:11} 2000-02-29 00:00:00 t/sub
  -rw-r--r--   1  1000   100          5 2000-02-29 00:00:00 t/sub/c.rs
$ seek --path-separator=# -l ^c t
  -rw-r--r--   1  1000   100          5 2000-02-29 00:00:00 t#sub#c.rs
