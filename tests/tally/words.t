-- Words that are refused.

# words that aren't known
tree
  f 1 /t/a
$ tally --color /t
! tally: unknown option '--color' (see tally --help)
= 2
$ tally -sz /t
! tally: unknown option '-z' (see tally --help)
= 2
$ tally -d one /t
! tally: invalid value 'one' for '--max-depth <N>': invalid digit found in string (see tally --help)
= 2

# help, in lines of at most 80 characters, or as COLUMNS says
$ tally --help
~ Usage: tally [OPTIONS] [ROOT]...
$ tally --help
~   -d, --max-depth <N>        Write what lies up to N levels below a root\x0a                             [default: 1, and any for lines and JSON]\x0a
$ COLUMNS=50 tally --help
~   -d, --max-depth <N>        Write what lies up to\x0a                             N levels below a root\x0a                             [default: 1, and any\x0a

# version
$ tally --version
~ tally\x20
$ tally -V
~ (rattle-kit-

# threads
$ tally --plain -b --apparent -j0 /t
  1+{folders /t}	/t
