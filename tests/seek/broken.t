-- Links that lead nowhere, in colors.

# links by where they lead
tree
  d /b
  f 1 /b/a
  l a	/b/good
  l nowhere	/b/bad
  d /b/d
  l ../nowhere	/b/d/worse
$ seek --color=always good|bad|worse /b
  \x1b[34m/b/\x1b[0m\x1b[35mbad\x1b[0m
  \x1b[34m/b/d/\x1b[0m\x1b[35mworse\x1b[0m
  \x1b[34m/b/\x1b[0m\x1b[01;36mgood\x1b[0m

# as they are seen from a folder
$ seek --color=always --base-directory=/b bad|worse
  \x1b[35mbad\x1b[0m
  \x1b[34md/\x1b[0m\x1b[35mworse\x1b[0m

# in lines of another form
$ seek --color=always --path-separator=# bad b
  \x1b[34mb#\x1b[0m\x1b[35mbad\x1b[0m

# followed links
$ seek -L --color=always bad /b
  \x1b[34m/b/\x1b[0m\x1b[35mbad\x1b[0m

# links behind what is no directory lead nowhere, too
tree
  d /b
  f 1 /b/a
  l a/x	/b/behind
  l behind	/b/twice
$ seek -L . /b
  /b/a
  /b/behind
  /b/twice
$ seek -L -tl . /b
  /b/behind
  /b/twice
$ seek -L -tl -S+0b . /b
$ seek -tl . /b
  /b/behind
  /b/twice
$ seek -L --color=always ^behind$ /b
  \x1b[34m/b/\x1b[0m\x1b[35mbehind\x1b[0m

# no colors
tree
  d /b
  l nowhere	/b/bad
$ seek bad /b
  /b/bad
