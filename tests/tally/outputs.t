-- Outputs.

# an output that can't be written
tree
  f 1 /r/a
full$ tally /r
! tally: cannot write: No space left on device (os error 28)
= 1
full$ tally --plain /r
! tally: cannot write: No space left on device (os error 28)
= 1
full$ tally --json /r
! tally: cannot write: No space left on device (os error 28)
= 1
full$ tally --help
! tally: cannot write: No space left on device (os error 28)
= 1

# a pipe that nobody reads
tree
  f 1 /r/a
closed$ tally --plain /r
= 1
closed$ tally --help
= 1
