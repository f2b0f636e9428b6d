-- Files of an owner, as `fd --owner` finds them.

# files of an owner
tree
  f 1 /o/0-7
  f 1 /o/0-1000
  f 1 /o/0-4294967294
  f 1 /o/7-1000
  f 1 /o/1000-0
  f 1 /o/1000-7
  f 1 /o/1000-8
  f 1 /o/1001-7
  o 0:7 /o/0-7
  o 0:1000 /o/0-1000
  o 0:4294967294 /o/0-4294967294
  o 7:1000 /o/7-1000
  o 1000:0 /o/1000-0
  o 1000:7 /o/1000-7
  o 1000:8 /o/1000-8
  o 1001:7 /o/1001-7
$ seek --owner=1000 ^1000-7$ /o
  /o/1000-7
$ seek --owner=1000 ^1001-7$ /o
$ seek --owner=1000: ^1000-7$ /o
  /o/1000-7
$ seek --owner=:7 ^7-1000$ /o
$ seek --owner=1000:7 ^1000-7$ /o
  /o/1000-7
$ seek --owner=1000:7 ^1000-8$ /o
$ seek --owner=!0 ^1000-0$ /o
  /o/1000-0
$ seek --owner=!0 ^0-1000$ /o
$ seek --owner=!0:!0 ^1000-7$ /o
  /o/1000-7
$ seek --owner=!0:!0 ^1000-0$ /o
$ seek --owner=:!0 ^0-7$ /o
  /o/0-7
$ seek --owner=0000:4294967294 ^0-4294967294$ /o
  /o/0-4294967294
-- All of them.
$ seek -o !0 . /o
  /o/1000-0
  /o/1000-7
  /o/1000-8
  /o/1001-7
  /o/7-1000
$ seek -o :7 . /o
  /o/0-7
  /o/1000-7
  /o/1001-7

-- Numbers with a plus, any owner, and the last of several.
$ seek -o +1000:!+7 . /o
  /o/1000-0
  /o/1000-8
$ seek -o '' ^1 /o
  /o/1000-0
  /o/1000-7
  /o/1000-8
  /o/1001-7
$ seek --owner=: ^1 /o
  /o/1000-0
  /o/1000-7
  /o/1000-8
  /o/1001-7
$ seek -o 0 --owner=1001 . /o
  /o/1001-7
$ seek -o 0 -o : ^7 /o
  /o/7-1000

# owners by name
$ seek -o root ^0-7$ /o
  /o/0-7
$ seek -o root: ^0-7$ /o
  /o/0-7
$ seek -o root ^7-1000$ /o
$ seek -o :root . /o
  /o/1000-0
$ seek -o 1000:root . /o
  /o/1000-0
$ seek -o root:7 -tf . /o
  /o/0-7
$ seek -o !root:!root . /o
  /o/1000-7
  /o/1000-8
  /o/1001-7
  /o/7-1000

# other texts are no owner
tree
$ seek --owner=!
!~ '!' is no owner
= 2
$ seek --owner=!:
!~ '!:' is no owner
= 2
$ seek --owner=::
!~ '::' is no owner
= 2
$ seek --owner=1:2:3
!~ '1:2:3' is no owner
= 2
$ seek --owner=none-of-that-name
!~ 'none-of-that-name' is no owner
= 2
$ seek --owner=root:none-of-that-name
!~ 'root:none-of-that-name' is no owner
= 2
-- Nothing is searched: the root that isn't there is no error.
$ seek -o none-of-that-name . /none
! seek: 'none-of-that-name' is no owner: write numbers, or names in /etc/passwd and /etc/group, as in 1000, root:adm or :100, with a ! in front for any but that
= 2
$ seek --owner=+
!~ '+' is no owner
= 2
$ seek --owner=++5
!~ '++5' is no owner
= 2
$ seek --owner=-1
!~ '-1' is no owner
= 2
$ seek '--owner= 1'
!~ ' 1' is no owner
= 2
$ seek '--owner=1 '
!~ '1 ' is no owner
= 2
$ seek --owner=!!1
!~ '!!1' is no owner
= 2
$ seek --owner=0x1
!~ '0x1' is no owner
= 2
$ seek --owner=4294967296
!~ '4294967296' is no owner
= 2
