-- The lines of a tree.

# answers come in order
tree
  d /r
  f 3 /r/b
  d /r/s
  f 1 /r/s/x
  f 2 /r/a
$ walk /r
  0 d /r
  1 f /r/b
  1 d /r/s
  2 f /r/s/x
  1 f /r/a

tree
  d /t
  f 1 /t/c.txt
  f 2 /t/a.txt
  d /t/group 2
  f 3 /t/group 2/.hidden_file.txt
  f 4 /t/group 2/e.txt
  d /t/group 1
  f 5 /t/group 1/d.txt
  f 6 /t/b.txt
$ walk /t
  0 d /t
  1 f /t/c.txt
  1 f /t/a.txt
  1 d /t/group 2
  2 f /t/group 2/e.txt
  1 d /t/group 1
  2 f /t/group 1/d.txt
  1 f /t/b.txt
$ walk /none
  ! 0 /none NotFound
= 1
$ walk ''
  ! 0  NotFound
= 1
$ walk /t/a.txt
  0 f /t/a.txt

tree
  d /e
$ walk /e
  0 d /e

input
$ walk --tree /
  0 d /

-- The last line may have no line feed.
input
  d /r
  f 18446744073709551615 /r/last\c
$ walk --tree /r
  0 d /r
  1 f /r/last

-- Empty lines do nothing.
input
  \x0a\x0ad /r\x0a
  f 00000000000000000007 /r/a b\x0a
$ walk --tree /r
  0 d /r
  1 f /r/a b

# roots without a name and what is right below them
tree
  d /r
$ walk --max 1 .
  0 d .
  1 d ./r

input
  d /r
$ walk --tree --max 1 ..
  0 d ..
  1 d ../r
$ walk --tree --max 1 ../..
  0 d ../..
  1 d ../../r
$ walk --tree --max 1 /
  0 d /
  1 d /r

# entries come by name where that is asked
tree
  d /t
  f 1 /t/c.txt
  f 2 /t/a.txt
  d /t/group 2
  f 3 /t/group 2/.hidden_file.txt
  f 4 /t/group 2/e.txt
  d /t/group 1
  f 5 /t/group 1/d.txt
  f 6 /t/b.txt
$ walk --sort /t
  0 d /t
  1 f /t/a.txt
  1 f /t/b.txt
  1 f /t/c.txt
  1 d /t/group 1
  2 f /t/group 1/d.txt
  1 d /t/group 2
  2 f /t/group 2/e.txt
$ walk --sort --hidden /t
  0 d /t
  1 f /t/a.txt
  1 f /t/b.txt
  1 f /t/c.txt
  1 d /t/group 1
  2 f /t/group 1/d.txt
  1 d /t/group 2
  2 f /t/group 2/.hidden_file.txt
  2 f /t/group 2/e.txt
$ walk --sort --max 0 /t
  0 d /t

# a denied directory is answered with its error
tree
  d /t
  f 1 /t/c.txt
  f 2 /t/a.txt
  d /t/group 2
  f 3 /t/group 2/.hidden_file.txt
  f 4 /t/group 2/e.txt
  d /t/group 1
  f 5 /t/group 1/d.txt
  f 6 /t/b.txt
  x /t/group 2
nobody
$ walk --sort /t
  0 d /t
  1 f /t/a.txt
  1 f /t/b.txt
  1 f /t/c.txt
  1 d /t/group 1
  2 f /t/group 1/d.txt
  1 d /t/group 2 ! PermissionDenied
$ walk --sort --max 1 /t
  0 d /t
  1 f /t/a.txt
  1 f /t/b.txt
  1 f /t/c.txt
  1 d /t/group 1
  1 d /t/group 2
$ walk --sort --min 2 /t
  2 f /t/group 1/d.txt

tree
  d /r
  x /r
  f 1 /r/a
  x /r
nobody
$ walk /r
  0 d /r ! PermissionDenied

tree
  d /r
  x /r
  f 1 /r/a
nobody
$ walk /r/a
  0 f /r/a

input
  d /r
  d /x y
  x /x y\c
$ walk --tree /
  0 d /
  1 d /r
  1 d /x y ! PermissionDenied

# more directories than a batch come in order
tree
  d /r
  d /r/{000..499}
  f 1 /r/{000..499}/x
$ walk /r
  0 d /r
  1 d /r/{000..499}\x0a2 f /r/{000..499}/x

# a long input is read whole
input
  d /r
  f {0000..1199} /r/<<one of many names *6>>{0000..1199}
$ walk --tree /r
  0 d /r
  1 f /r/<<one of many names *6>>{0000..1199}

# a tree of many pieces of input and output comes whole and in order
input
  d /r
  d /r/directory number {0..2999}\x0af 1 /r/directory number {0..2999}/x
$ walk --tree /r
  0 d /r
  1 d /r/directory number {0..2999}\x0a2 f /r/directory number {0..2999}/x
