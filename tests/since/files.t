# a file that isn't there
tree
  d /keep
  f 1 /r/a
$ since /keep/none /r
! since: /keep/none: No such file or directory (os error 2)
= 2

# no snapshot
rules /keep/text
  a text
$ since /keep/text /r
! since: /keep/text: not a snapshot
= 2
rules /keep/other
  jwalk-snapshot 2\x20
$ since /keep/other /r
! since: /keep/other: a snapshot of another version
= 2
$ since --save /keep/text
! since: /keep/text: not a snapshot
= 2

# a root that isn't there
$ since -j1 --save /keep/s /none
! since: /none: No such file or directory (os error 2)
= 2
$ since /keep/s /r
! since: /keep/s: No such file or directory (os error 2)
= 2

# a root that is no directory
$ since -j1 --save /keep/s /r/a
! since: /r/a: not a directory
! since: /keep/s: left as it is, since not all could be read
= 2

# the file and its temporary names are left out of the tree that they lie in
tree
  f 1 /r/a
$ since -j1 --save /r/s /r
$ since /r/s
then
  f 0 /r/s.new-0
  f 0 /r/s.new
$ since /r/s
  + s.new
= 1

# another place with the same tree: file numbers don't count
tree
  d /keep
  f 1 /r/d/a
  f 1 /t/d/a
  t 100 /r/d/a
  t 100 /t/d/a
$ since -j1 --save /keep/s /r
$ since /keep/s /t
then
  f 2 /t/d/a
  t 100 /t/d/a
$ since -l /keep/s /t
  ~ d/a\x09length
= 1

# a directory that can't be read: nothing is told of what is below it
tree
  d /keep
  f 1 /r/closed/in
  f 1 /r/open/in
  m 777 /keep
nobody
$ since -j1 --save /keep/s /r
then
  m 0 /r/closed
  - /r/open/in
$ since /keep/s
  - open/in
! since: /r/closed: Permission denied (os error 13)
= 2
-- what is saved has the names that it had before
$ since -j1 --save /keep/s
  - open/in
! since: /r/closed: Permission denied (os error 13)
= 2
$ since /keep/s
! since: /r/closed: Permission denied (os error 13)
= 2
then
  m 755 /r/closed
  f 1 /r/closed/new
$ since /keep/s
  + closed/new
= 1

# a first snapshot has no names of a directory that can't be read
tree
  d /keep
  f 1 /r/closed/d/in
  f 1 /r/open
  m 777 /keep
  m 0 /r/closed
nobody
$ since -j1 --save /keep/s /r
! since: /r/closed: Permission denied (os error 13)
= 2
$ since /keep/s
! since: /r/closed: Permission denied (os error 13)
= 2
then
  m 755 /r/closed
$ since /keep/s
  + closed/d
  + closed/d/in
= 1

# directories below one that can't be read keep their names too
tree
  d /keep
  f 1 /r/a/b/c
  f 1 /r/a/b-c
  f 1 /r/a/b/d/e
  f 1 /r/a-b
  m 777 /keep
nobody
$ since -j1 --save /keep/s /r
then
  m 0 /r/a
  f 1 /r/new
$ since -j1 --save /keep/s
  + new
! since: /r/a: Permission denied (os error 13)
= 2
then
  m 755 /r/a
  - /r/a/b/d/e
$ since /keep/s
  - a/b/d/e
= 1
-- by names and types too: a directory that wasn't read has no stamp
$ since --quick /keep/s
  - a/b/d/e
= 1

# another place with such a directory keeps the types of what it had below it
tree
  d /keep
  f 1 /r/d/a
  f 1 /t/d/a
  f 1 /t/b
  m 777 /keep
  m 0 /t/d
nobody
$ since -j1 --save /keep/s /r
$ since -j1 --save /keep/s /t
  + b
! since: /t/d: Permission denied (os error 13)
= 2
then
  m 755 /t/d
  f 5 /t/d/a
$ since /keep/s
then
  - /t/d/a
$ since /keep/s
  - d/a
= 1

# a root that can't be read: the file is left as it is
tree
  d /keep
  f 1 /r/a
  m 777 /keep
nobody
$ since -j1 --save /keep/s /r
then
  m 0 /r
$ since -j1 --save /keep/s
! since: /r: Permission denied (os error 13)
! since: /keep/s: left as it is, since not all could be read
= 2
then
  m 755 /r
$ since /keep/s

# names that aren't UTF-8 are errors, and all others are compared and saved
tree
  d /keep
  f 1 /r/a
  f 1 /r/d/b
  f 1 /r/d/bad\xff
  d /r/\xe9
$ since -j1 --save /keep/s /r
! since: invalid filename in /r/d: bad\x5cxff
! since: invalid filename in /r: \x5cxe9
= 2
then
  f 1 /r/d/more
  - /r/a
$ since /keep/s
  - a
  + d/more
! since: invalid filename in /r/d: bad\x5cxff
! since: invalid filename in /r: \x5cxe9
= 2
then
  - /r/d/more
-- a directory with such a name has no stamp
$ since --quick /keep/s
  - a
! since: invalid filename in /r/d: bad\x5cxff
! since: invalid filename in /r: \x5cxe9
= 2
