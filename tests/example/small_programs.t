-- The small programs of `crates/examples`: `example NAME FOLDER`.

# paths by name, of which some are hidden
tree
  d photos
  d photos/2025
  f 4 photos/2025/.nobackup
  f 4 photos/2025/mountain.jpg
  d photos/2026
  f 4 photos/2026/.draft.jpg
  f 4 photos/2026/sea, north.jpg
  f 4 photos/2026/sea.jpg
  f 4 photos/index.txt
$ example batch_walk photos
  photos
  photos/2025
  photos/2025/mountain.jpg
  photos/2026
  photos/2026/sea, north.jpg
  photos/2026/sea.jpg
  photos/index.txt
$ example crew_walk photos
  photos
  photos/2025
  photos/2025/mountain.jpg
  photos/2026
  photos/2026/sea, north.jpg
  photos/2026/sea.jpg
  photos/index.txt

# files and bytes
$ example totals photos
  6 files, 24 bytes, 0 errors

# files by their ending
$ example finder photos n.jpg
  photos/2025/mountain.jpg

# directories that are not marked
$ example unmarked photos
  photos
  photos/2025
  photos/2026
  photos/2026/.draft.jpg
  photos/2026/sea, north.jpg
  photos/2026/sea.jpg
  photos/index.txt

# what would be removed, each directory behind what is in it
$ example remove_tree photos
  photos/2025/.nobackup
  photos/2025/mountain.jpg
  photos/2025
  photos/2026/.draft.jpg
  photos/2026/sea, north.jpg
  photos/2026/sea.jpg
  photos/2026
  photos/index.txt
  photos

# a tree with branches
$ example branches photos
  photos
  ├── 2025
  │   └── mountain.jpg
  ├── 2026
  │   ├── sea, north.jpg
  │   └── sea.jpg
  └── index.txt

# what is on one disk, and in no directory of one name
$ example one_disk photos 2026
  photos
  photos/2025
  photos/2025/.nobackup
  photos/2025/mountain.jpg
  photos/2026
  photos/index.txt
any order

# lines of CSV
$ example to_csv photos
  bytes,path
  4,photos/2025/mountain.jpg
  4,"photos/2026/sea, north.jpg"
  4,photos/2026/sea.jpg
  4,photos/index.txt

# the lines of an archive
input
  photos/
  photos/index.txt
  photos/2026/
  photos/2026/sea.jpg
$ example archive photos
  photos
  photos/2026
  photos/2026/sea.jpg
  photos/index.txt

# what errors are
$ example all_errors
  closed: IO error for operation on /photos/closed: permission denied
  a link back to a directory above it: File system loop found: /photos/again points to an ancestor /photos
  not there: IO error for operation on /photos/broken: entity not found
  not there: IO error for operation on /drawings: entity not found

# totals of the disk
tree
  f 6 t/index.txt
  f 9 t/2025/mountain.jpg
  f 4 t/2026/sea.jpg
$ example usage_walk t
  files 3 dirs 3 links 0 others 0 errors 0 bytes 19

# what ignore files leave
tree
  f 0 t/notes.txt
  f 0 t/docs/build.log
  f 0 t/docs/guide.txt
  f 0 t/docs/kept.log
  f 0 t/target/out.txt
rules t/.ignore
  # what a build makes
  target/
  *.log
  !kept.log
$ example ignore_walk t
  t
  t/docs
  t/docs/guide.txt
  t/docs/kept.log
  t/notes.txt

# the newest files
tree
  f 0 t/a
  f 0 t/s/b
  f 0 t/s/c
  t 20 t/a
  t 30 t/s/b
  t 10 t/s/c
$ example newest t
  30 t/s/b
  20 t/a
  10 t/s/c

# no such program
$ example none t
!~ usage: example NAME FOLDER, with one of these names:
= 1

# the newest first in each directory, and by name what is of one age
disk
  d r
  f 1 r/a
  f 1 r/b
  d r/c
  f 1 r/c/x
  f 1 r/c/y
  f 1 r/d
  t 100 r/a
  t 300 r/b
  t 200 r/c
  t 5 r/c/x
  t 6 r/c/y
  t 200 r/d
$ example newest_first r
  r
  r/b
  r/c
  r/c/y
  r/c/x
  r/d
  r/a

# it is removed
tree
  f 1 q/r/s/a
  f 1 q/r/.b
$ example remove_tree q/r --really
$ example batch_walk q
  q

# rules, a filter and a sort
disk
  d p
  f 1 p/main.c
  f 1 p/a.c
  f 1 p/notes.txt
  d p/lib
  f 1 p/lib/long_name.c
  f 1 p/lib/b.c
  d p/gen
  f 1 p/gen/out.c
rules p/.ignore
  gen/
$ example sources p .c
  p/a.c
  p/lib/b.c
  p/lib/long_name.c
  p/main.c

# what differs between two folders
tree
  d old
  f 1 old/a.txt
  f 2 old/b.txt
  f 3 old/lib/c.txt
  f 4 old/lib-2
  f 5 old/x
  d new
  f 1 new/a.txt
  f 9 new/b.txt
  f 3 new/lib/.d
  f 4 new/lib-2
  d new/x
$ example changed old new
  ~ b.txt
  + lib/.d
  - lib/c.txt
  ~ x
$ example changed old old

# the names in a snapshot
tree
  f 1 p/a
  f 1 p/b/c
  d p/d
$ since -j1 --save s p
$ example snapshot s
  a
  b
  d
  b/c
$ example snapshot p/a
!~ not a snapshot
= 1
