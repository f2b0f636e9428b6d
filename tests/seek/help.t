-- The text of help.

# no dots behind options that take nothing
tree
  d /t
  f 1 /t/a.txt
  f 1 /t/B.TXT
  f 1 /t/.hidden
  d /t/sub
  f 1 /t/sub/c.rs
  f 1 /t/sub/notes.tar.gz
  d /t/sub/deep
  f 1 /t/sub/deep/a.rs
  l a.txt	/t/link
  l sub	/t/down
$ seek -h
~   -H, --hidden    \x20
$ seek -h
~   -1              \x20
$ seek -h
~   [ROOT]...  Where to look

# lines of at most 80 characters
$ seek -h
~   -S, --size <SIZE>               The size of a file: +N and a unit for at\x0a                                  least, -N for at most, N for exactly that\x0a

# lines as wide as COLUMNS says
$ seek -h
~   -H, --hidden                    Hidden names come too
$ COLUMNS=50 seek -h
~                                   takes the whole
