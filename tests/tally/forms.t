-- Tables. The sizes of files are such that those of their folders, which the disk decides, make no difference.

# a table has what is in the root largest first
tree
  d /t
  f 1028576 /t/c.txt
  f 2077152 /t/a.txt
  d /t/group 2
  f 3125728 /t/group 2/.hidden_file.txt
  f 4174304 /t/group 2/e.txt
  d /t/group 1
  f 5222880 /t/group 1/d.txt
  f 6271456 /t/b.txt
$ tally --apparent /t
   7.0 MiB  group 2
   5.0 MiB  group 1
    21 MiB  /t
$ tally --apparent -a -n 3 /t
   7.0 MiB  group 2
   6.0 MiB  b.txt
   5.0 MiB  group 1
   3.0 MiB  (2 more)
    21 MiB  /t
$ tally --apparent -a -d 2 '/t/group 2'
   4.0 MiB  e.txt
   3.0 MiB  .hidden_file.txt
   7.0 MiB  /t/group 2
$ tally --apparent -s /t
    21 MiB  /t

# no row with a bar is wider than the screen
tree
  d /t
  f 5222880 /t/a
  f 3125728 /t/b
  f 2077152 /t/c
-- The longest row is the one of what is beyond the largest entry, in a directory of a single level.
tty$ COLUMNS=40 tally --apparent -a -n 1 t
   5.0 MiB  ##########..........  a
   5.0 MiB  #########...........  (2 more)
    10 MiB  ####################  t

# a root is named as it was given
$ tally --apparent -s /t/
    10 MiB  /t/
$ tally --json -s --apparent /t/.
~ "name":"/t/."
