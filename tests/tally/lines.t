-- Lines of a size and a path.

# a directory comes behind what is below it
tree
  d /t
  f 1 /t/c.txt
  f 2 /t/a.txt
  d /t/group 2
  f 3 /t/group 2/.hidden_file.txt
  f 4 /t/group 2/e.txt
  d /t/group 1
  f 5 /t/group 1/d.txt
  f 6 /t/b.txt
$ tally --plain -b --apparent /t
  5+{folders /t/group 1}	/t/group 1
  7+{folders /t/group 2}	/t/group 2
  21+{folders /t}	/t
$ tally --plain -b --apparent --sort /t
  5+{folders /t/group 1}	/t/group 1
  7+{folders /t/group 2}	/t/group 2
  21+{folders /t}	/t
$ tally --plain -b --apparent --exclude-hidden /t
  5+{folders /t/group 1}	/t/group 1
  4+{folders /t/group 2}	/t/group 2
  18+{folders /t}	/t
$ tally -0 -b --apparent /t
  5+{folders /t/group 1}	/t/group 1\x00
  7+{folders /t/group 2}	/t/group 2\x00
  21+{folders /t}	/t\x00

# files are lines too if all is asked for
$ tally --plain -a -b --apparent /t
  2	/t/a.txt
  6	/t/b.txt
  1	/t/c.txt
  5	/t/group 1/d.txt
  5+{folders /t/group 1}	/t/group 1
  3	/t/group 2/.hidden_file.txt
  4	/t/group 2/e.txt
  7+{folders /t/group 2}	/t/group 2
  21+{folders /t}	/t
$ tally --plain -a -d 1 -b --apparent /t
  2	/t/a.txt
  6	/t/b.txt
  1	/t/c.txt
  5+{folders /t/group 1}	/t/group 1
  7+{folders /t/group 2}	/t/group 2
  21+{folders /t}	/t

# a total alone
$ tally --plain -s -b --apparent /t
  21+{folders /t}	/t
$ tally --plain -s -b --apparent /t /t/b.txt
  21+{folders /t}	/t
! tally: /t/b.txt: left out, below an earlier root
$ tally --plain -s --apparent /t/b.txt
  1	/t/b.txt

# bad words
$ tally -s -a /t
! tally: the options --summarize and --all exclude each other
= 2

# errors are reported and the status is 1
tree
  d /r
  f 1 /r/a
  d /r/s
  f 2 /r/s/b
  x /r/s
  f 3 /r/c
nobody
$ tally --plain -b --apparent /r
  {folders /r/s}	/r/s
  4+{folders /r}	/r
! tally: /r/s: Permission denied (os error 13)
= 1
$ tally --plain -b --apparent /none /r/a
  1	/r/a
! tally: /none: No such file or directory (os error 2)
= 1

# links are counted as links unless they are followed
tree
  d /r
  d /r/d
  f 7 /r/d/f
  l d/f	/r/k
  l d	/r/l
$ tally --plain -a -b --apparent /r
  7	/r/d/f
  7+{folders /r/d}	/r/d
  3	/r/k
  1	/r/l
  11+{folders /r}	/r
-- A root that is a link counts as the directory that it leads to.
$ tally --plain -b --apparent /r/l
  7+{folders /r/d}	/r/l

# no dots behind options that take nothing
$ tally --help
~   -s, --summarize   \x20

# a root is written as it was named, and what is below it behind that
tree
  f 3 /t/group 2/c.txt
  f 4 /t/group 2/e.txt
  f 5 /t/group 1/d.txt
$ tally --plain -b --apparent '/t/group 1/'
  5+{folders /t/group 1}	/t/group 1/
$ tally --plain -a -b --apparent '/t/group 1/'
  5	/t/group 1/d.txt
  5+{folders /t/group 1}	/t/group 1/
$ tally --plain -a -b --apparent '/t/group 1/.'
  5	/t/group 1/./d.txt
  5+{folders /t/group 1}	/t/group 1/.
$ tally --plain -s -b --apparent '/t/group 1/../group 2//'
  7+{folders /t/group 2}	/t/group 1/../group 2//

# units of sizes
tree
  f 1048577 /t/a
$ tally --plain --apparent /t/a
  1025	/t/a
$ tally --plain --apparent -k /t/a
  1025	/t/a
$ tally --plain --apparent -m /t/a
  2	/t/a
$ tally --plain --apparent -b /t/a
  1048577	/t/a
$ tally --plain --apparent -sh /t/a
  1.1 MiB	/t/a
$ tally --plain --apparent --si /t/a
  1.1 MB	/t/a
$ tally --plain --apparent --human-readable /t/a
  1.1 MiB	/t/a
$ tally --plain --apparent --kibibytes /t/a
  1025	/t/a
$ tally --plain --apparent --mebibytes /t/a
  2	/t/a
$ tally --apparent -h /t/a
   1.1 MiB  /t/a
$ tally --apparent -m /t/a
         2  /t/a
$ tally --json --apparent -h /t/a
~ 1048577

# two units exclude each other
$ tally -hb /t/a
! tally: the options --human-readable and --bytes exclude each other
= 2
$ tally -h --si /t/a
! tally: the options --human-readable and --si exclude each other
= 2
$ tally --si -m /t/a
! tally: the options --si and --mebibytes exclude each other
= 2
$ tally -kb /t/a
! tally: the options --kibibytes and --bytes exclude each other
= 2
$ tally -mk /t/a
! tally: the options --kibibytes and --mebibytes exclude each other
= 2
$ tally -mb /t/a
! tally: the options --mebibytes and --bytes exclude each other
= 2
