# no file
tree
  f 1 /r/a
$ since
!~ since: 
= 2
$ since /r/s /r /r
!~ since: unknown option
= 2
$ since --none /r/s
! since: unknown option '--none' (see since --help)
= 2
$ since -j x /r/s
!~ since: 
= 2

# rows are of a file as it is
$ since --rows --save /r/s
! since: the options --rows and --save exclude each other
= 2
$ since --rows -d 1 /r/s
! since: the options --rows and --max-depth exclude each other
= 2
$ since --rows -E a --ignore /r/s
! since: the options --rows and --exclude exclude each other
= 2
$ since --ignore --rows /r/s
! since: the options --rows and --ignore exclude each other
= 2
$ since --rows --json /r/s
! since: the options --rows and --json exclude each other
= 2
$ since --rows /r/s
! since: /r/s: No such file or directory (os error 2)
= 2

# quick comparisons go by no rules
$ since --quick -E a /r/s
! since: the options --quick and --exclude exclude each other
= 2
$ since --quick --ignore /r/s
! since: the options --quick and --ignore exclude each other
= 2

# a JSON object ends with a line feed
$ since --json -0 /r/s
! since: the options --json and --print0 exclude each other
= 2

# the root has depth 0, so 1 is the least
$ since -d 0 /r/s
!~ since: 
= 2

# help and the version
$ since --help
~ Usage: since
$ since --version
~ since 
