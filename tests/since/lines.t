# the first snapshot is made, without a line
tree
  d /keep
  d /r/b
  d /r/c
  f 3 /r/a
  f 5 /r/b/c
  f 0 /r/b/.hidden
  l a	/r/link
  t 100 /r/a
  t 100 /r/b/c
  t 100 /r/b/.hidden
$ since -j1 --save /keep/s /r

# nothing changed
$ since /keep/s
$ since /keep/s /r
$ since -l -0 /keep/s

# added, removed, and changed in length and time
then
  f 1 /r/b/new
  f 0 /r/z
  - /r/a
  f 9 /r/b/c
  t 200 /r/b/c
$ since /keep/s
  - a
  ~ b/c
  + b/new
  + z
= 1

# what changed is behind a path with -l
$ since -l /keep/s
  - a
  ~ b/c\x09length\x09time
  + b/new
  + z
= 1

# -0 ends each line with a zero byte
$ since -0 /keep/s
  - a\x00~ b/c\x00+ b/new\x00+ z\x00
= 1

# -q writes no line
$ since -q /keep/s
= 1

# the snapshot stays as it was without --save
$ since -q /keep/s /r
= 1

# --save writes the lines, and then there are none
$ since -j1 --save /keep/s
  - a
  ~ b/c
  + b/new
  + z
= 1
$ since /keep/s

# a time alone
then
  t 300 /r/b/c
$ since -l /keep/s
  ~ b/c\x09time
= 1

# a file that became a directory, and a link that became a file
then
  t 200 /r/b/c
  - /r/z
  f 0 /r/z/in
  - /r/link
  f 1 /r/link
$ since /keep/s
  ~ link
  ~ z
  + z/in
= 1

# a directory that is gone, with what was in it, at the end too
$ since -j1 --save -q /keep/s
= 1
then
  - /r/z
  - /r/b
$ since /keep/s
  - b
  - b/.hidden
  - b/c
  - b/new
  - z
  - z/in
= 1

# paths by components: a directory's contents before a name that goes on with a dot
tree
  d /keep
  d /r/a
  d /r/a.b
$ since -j1 --save /keep/s /r
then
  f 0 /r/a/x
  f 0 /r/a.b/y
  f 0 /r/a-
$ since /keep/s
  + a/x
  + a-
  + a.b/y
= 1

# names with a dash in front get `./` with -0
tree
  d /keep
  d /r
$ since -j1 --save /keep/s /r
then
  f 0 /r/-rf
$ since /keep/s
  + -rf
= 1
$ since -0 /keep/s
  + ./-rf\x00
= 1
