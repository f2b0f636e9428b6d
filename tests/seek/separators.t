-- `--path-separator`.

# a separator
tree
  d /t
  f 1 /t/a.txt
  f 1 /t/B.TXT
  f 1 /t/.hidden
  d /t/sub
  f 1 /t/sub/c.rs
  f 1 /t/sub/notes.tar.gz
  d /t/sub/deep
  f 1 /t/sub/deep/a.rs
  l a.txt	/t/link
  l sub	/t/down
$ seek --path-separator # ^sub t
  t#sub
$ seek --path-separator=:: ^c t
  t::sub::c.rs
$ seek --path-separator '' ^c t
  tsubc.rs
$ seek --path-separator=// ^c t/sub/
  t//sub//c.rs

# a separator of other lines
$ seek --path-separator=# -a0 ^c t
~ #t#sub#c.rs\x00
$ seek --path-separator=# -p sub/c t
  t#sub#c.rs
$ seek --path-separator=# --color=always ^c t
  \x1b[34mt#sub#\x1b[0m\x1b[31mc.rs\x1b[0m
