-- Colors, as `ls --color=always` and `fd --color=always` print them.

# the colors of ls
tree
  d /c
  l none	/c/bad
  d /c/d
  d /c/d.txt
  l a.txt	/c/l
  p /c/p
  s /c/s
  f 1 /c/B.TXT
  f 1 /c/README
  f 1 /c/a.txt
  f 1 /c/a.txt.gz
  f 1 /c/plain
  f 1 /c/run
  f 1 /c/run.txt
  f 1 /c/txt
  f 1 /c/x.tar.gz
  f 1 /c/é.txt
  m 755 /c/run
  m 755 /c/run.txt
$ LS_COLORS='' seek --color=always --base-directory=/c ^d$
  \x1b[01;34md\x1b[0m
$ LS_COLORS='' seek --color=always --base-directory=/c ^l$
  \x1b[01;36ml\x1b[0m
$ LS_COLORS='' seek --color=always --base-directory=/c ^run\.txt$
  \x1b[01;32mrun.txt\x1b[0m
$ LS_COLORS='' seek --color=always --base-directory=/c ^a\.txt$
  a.txt
$ LS_COLORS='' seek --color=always --base-directory=/c ^p$
  \x1b[40;33mp\x1b[0m
$ LS_COLORS=di=33 seek --color=always --base-directory=/c ^d$
  \x1b[33md\x1b[0m
$ LS_COLORS=di=33 seek --color=always --base-directory=/c ^l$
  \x1b[01;36ml\x1b[0m
$ LS_COLORS=di=33:di=35 seek --color=always --base-directory=/c ^d$
  \x1b[35md\x1b[0m
$ LS_COLORS=di=33:di= seek --color=always --base-directory=/c ^d$
  d
$ LS_COLORS=di=33:di=0 seek --color=always --base-directory=/c ^d$
  d
$ LS_COLORS=di=33:di=00 seek --color=always --base-directory=/c ^d$
  d
$ LS_COLORS=di=000 seek --color=always --base-directory=/c ^d$
  \x1b[000md\x1b[0m
$ LS_COLORS=or=0:ln=33 seek --color=always --base-directory=/c ^bad$
  \x1b[33mbad\x1b[0m
$ LS_COLORS=or=31:ln=33 seek --color=always --base-directory=/c ^bad$
  \x1b[31mbad\x1b[0m
$ LS_COLORS=*.txt=35 seek --color=always --base-directory=/c ^a\.txt$
  \x1b[35ma.txt\x1b[0m
$ LS_COLORS=*.txt=35 seek --color=always --base-directory=/c ^B\.TXT$
  \x1b[35mB.TXT\x1b[0m
$ LS_COLORS=*.TXT=35 seek --color=always --base-directory=/c ^a\.txt$
  \x1b[35ma.txt\x1b[0m
$ LS_COLORS=*.txt=35 seek --color=always --base-directory=/c ^a\.txt\.gz$
  a.txt.gz
$ LS_COLORS=*.txt=35 seek --color=always --base-directory=/c ^txt$
  txt
$ LS_COLORS=*.txt=35 seek --color=always --base-directory=/c ^é\.txt$
  \x1b[35mé.txt\x1b[0m
$ LS_COLORS=*.txt=35 seek --color=always --base-directory=/c ^run\.txt$
  \x1b[01;32mrun.txt\x1b[0m
$ LS_COLORS=*.txt=35 seek --color=always --base-directory=/c ^d\.txt$
  \x1b[01;34md.txt\x1b[0m
$ LS_COLORS=*README=35 seek --color=always --base-directory=/c ^README$
  \x1b[35mREADME\x1b[0m
$ LS_COLORS=*.txt=0:fi=36 seek --color=always --base-directory=/c ^a\.txt$
  a.txt
$ LS_COLORS=*.txt=0:fi=36 seek --color=always --base-directory=/c ^plain$
  \x1b[36mplain\x1b[0m
$ LS_COLORS=ex=0:*.txt=35:fi=36 seek --color=always --base-directory=/c ^run$
  \x1b[36mrun\x1b[0m
$ LS_COLORS=ex=0:*.txt=35:fi=36 seek --color=always --base-directory=/c ^run\.txt$
  \x1b[35mrun.txt\x1b[0m
$ LS_COLORS=*.gz=31:*.tar.gz=32 seek --color=always --base-directory=/c ^x\.tar\.gz$
  \x1b[32mx.tar.gz\x1b[0m
$ LS_COLORS=*.tar.gz=32:*.gz=31 seek --color=always --base-directory=/c ^x\.tar\.gz$
  \x1b[31mx.tar.gz\x1b[0m
$ LS_COLORS=no=34 seek --color=always --base-directory=/c ^plain$
  \x1b[34mplain\x1b[0m
$ LS_COLORS=no=34:fi=0 seek --color=always --base-directory=/c ^plain$
  plain
$ LS_COLORS=di seek --color=always --base-directory=/c ^d$
  \x1b[01;34md\x1b[0m
$ LS_COLORS=::: seek --color=always --base-directory=/c ^d$
  \x1b[01;34md\x1b[0m
$ LS_COLORS=di=33= seek --color=always --base-directory=/c ^d$
  \x1b[01;34md\x1b[0m
$ LS_COLORS='di=33 ' seek --color=always --base-directory=/c ^d$
  \x1b[01;34md\x1b[0m
$ LS_COLORS=di=\x1b[31 seek --color=always --base-directory=/c ^d$
  \x1b[01;34md\x1b[0m
$ LS_COLORS=ln=target seek --color=always --base-directory=/c ^l$
  \x1b[01;36ml\x1b[0m
$ LS_COLORS=di=33:x:ln=31 seek --color=always --base-directory=/c ^l$
  \x1b[31ml\x1b[0m
$ LS_COLORS==33:*.txt=35 seek --color=always --base-directory=/c ^a\.txt$
  \x1b[35ma.txt\x1b[0m
$ LS_COLORS=so=31 seek --color=always --base-directory=/c ^s$
  \x1b[31ms\x1b[0m

# the colors of devices
tree
  b 7:250 /c/b
  c 1:3 /c/c
$ LS_COLORS=bd=31:cd=32 seek --color=always --base-directory=/c ^b$
  \x1b[31mb\x1b[0m
$ LS_COLORS=bd=31:cd=32 seek --color=always --base-directory=/c ^c$
  \x1b[32mc\x1b[0m

# folders and names
tree
  f 1 /c/f
  f 1 /c/a/b/f
  f 1 /c/a/g
  l g	/c/a/l
  d /c/d
  f 1 /c/a.c
$ LS_COLORS='' seek --color=always --base-directory=/c -d1 ^f$
  f
$ LS_COLORS='' seek --color=always --base-directory=/c ^f$ a
  \x1b[01;34ma/b/\x1b[0mf
$ LS_COLORS='' seek --color=always --base-directory=/c ^f$ a/b/
  \x1b[01;34ma/b/\x1b[0mf
$ LS_COLORS='' seek --color=always -d1 ^usr$ /
  \x1b[01;34m/\x1b[0m\x1b[01;34musr\x1b[0m
$ LS_COLORS=di=0 seek --color=always --base-directory=/c ^g$
  a/g
$ LS_COLORS='' seek --color=always --base-directory=/c ^l$
  \x1b[01;34ma/\x1b[0m\x1b[01;36ml\x1b[0m
$ LS_COLORS='' seek --color=always --base-directory=/c ^d$
  \x1b[01;34md\x1b[0m
$ LS_COLORS=*.c=31 seek --color=always --base-directory=/c ^a\.c$
  \x1b[31ma.c\x1b[0m

# the colors of links
-- Links that are followed and left have the color that `fd -L` prints.
tree
  d /t
  f 1 /t/a
  l a	/t/good
  l .	/t/here
  l nowhere	/t/bad
  l loop	/t/loop
$ LS_COLORS=or=31 seek --color=always --base-directory=/t ^bad$
  \x1b[31mbad\x1b[0m
$ LS_COLORS=or=31 seek --color=always --base-directory=/t ^loop$
  \x1b[31mloop\x1b[0m
$ LS_COLORS=or=31 seek --color=always --base-directory=/t ^good$
  \x1b[01;36mgood\x1b[0m
$ LS_COLORS=or=31:ln=35 seek --color=always --base-directory=/t ^bad$
  \x1b[31mbad\x1b[0m
$ LS_COLORS=or=31:ln=35 seek --color=always --base-directory=/t ^here$
  \x1b[35mhere\x1b[0m
$ LS_COLORS=or=31:ln=0 seek --color=always --base-directory=/t ^good$
  good
$ LS_COLORS=or=0 seek --color=always --base-directory=/t ^bad$
  \x1b[01;36mbad\x1b[0m
$ LS_COLORS=or=0:ln=35 seek --color=always --base-directory=/t ^bad$
  \x1b[35mbad\x1b[0m
$ LS_COLORS=or=31:ln=31 seek --color=always --base-directory=/t ^bad$
  \x1b[31mbad\x1b[0m
$ LS_COLORS=or=31 seek --color=always --base-directory=/t ^a$
  a

tree
  l nowhere	/t/bad
$ LS_COLORS=or=31 seek -L --color=always --base-directory=/t ^bad$
  \x1b[31mbad\x1b[0m
