-- The sum of all roots, and sizes that aren't written. `du` writes the same lines for the same words.

# the sum comes last
tree
  d /r
  d /r/a
  f 10000 /r/a/x
  f 20 /r/a/y
  d /r/b
  f 30000 /r/b/z
  d /s
  f 7 /s/w
$ tally --plain -b --apparent -c /r
  10020+{folders /r/a}	/r/a
  30000+{folders /r/b}	/r/b
  40020+{folders /r}	/r
  40020+{folders /r}	total
$ tally --plain -b --apparent -sc /r /s
  40020+{folders /r}	/r
  7+{folders /s}	/s
  40027+{folders /r}+{folders /s}	total
$ tally --plain -s --total -b --apparent /r /r/a /none
  40020+{folders /r}	/r
  40020+{folders /r}	total
! tally: /r/a: left out, below an earlier root
! tally: /none: No such file or directory (os error 2)
= 1
$ tally -0 -c -s -b --apparent /s
  7+{folders /s}	/s\x00
  7+{folders /s}	total\x00
$ tally --json -c /r
! tally: the options --json and --total exclude each other
= 2

# what is smaller than a size is left out, and still counts
$ tally --plain -a -b --apparent -t 10000 /r
  10000	/r/a/x
  10020+{folders /r/a}	/r/a
  30000	/r/b/z
  30000+{folders /r/b}	/r/b
  40020+{folders /r}	/r
$ tally --plain -a -b --apparent -t 30KB /r
  30000	/r/b/z
  30000+{folders /r/b}	/r/b
  40020+{folders /r}	/r
$ tally --plain -a -b --apparent --threshold=29k /r
  30000	/r/b/z
  30000+{folders /r/b}	/r/b
  40020+{folders /r}	/r
$ tally --plain -c -s -b --apparent -t 1M /r /s
  40027+{folders /r}+{folders /s}	total
$ tally --plain -s -b --apparent -t 20K /r /s
  40020+{folders /r}	/r
$ tally --plain -a -b --apparent -t 0 /s
  7	/s/w
  7+{folders /s}	/s

# and with a minus what is larger
$ tally --plain -a -b --apparent -t=-20 /r
  20	/r/a/y
$ tally --plain -a -b --apparent -t-10000 /r
  10000	/r/a/x
  20	/r/a/y
$ tally --plain -a -b --apparent --threshold=-19 /r
$ tally --plain -c -a -b --apparent --threshold=-19 /r /s
  7	/s/w
  40027+{folders /r}+{folders /s}	total

# bad sizes
$ tally -t=-0 /r
! tally: '-0' is no size: write a number and a unit, as in 10K, with a - in front for at most that
= 2
$ tally -t 1x /r
! tally: '1x' is no size: write a number and a unit, as in 10K, with a - in front for at most that
= 2
$ tally --threshold=16E /r
! tally: '16E' is no size: write a number and a unit, as in 10K, with a - in front for at most that
= 2

# in tables
tree
  d /t
  f 1028576 /t/c
  f 2077152 /t/a
  d /t/g
  f 3125728 /t/g/x
  f 5222880 /t/g/y
  d /u
  f 10465760 /u/d
$ tally --apparent -a -t 1500K /t
   8.0 MiB  g
   2.0 MiB  a
    11 MiB  /t
$ tally --apparent -a -t 1500K -n 1 /t
   8.0 MiB  g
   2.0 MiB  (1 more)
    11 MiB  /t
$ tally --apparent -s -c /t /u
    11 MiB  /t
    10 MiB  /u
    21 MiB  total
-- What is left out of a table takes along what is in it.
$ tally --apparent -a -d 2 -c --threshold=-10500K /t /u
    10 MiB  d
    10 MiB  /u
    21 MiB  total
