-- Colors that the mode of an entry tells, as `ls --color=always` prints them.

# setuid, setgid, sticky, and other-writable
tree
  f 1 /c/both
  f 1 /c/plain
  f 1 /c/run
  f 1 /c/sg
  f 1 /c/su
  d /c/n
  d /c/o
  d /c/s
  d /c/t
  m 6755 /c/both
  m 644 /c/plain
  m 755 /c/run
  m 2644 /c/sg
  m 4755 /c/su
  m 755 /c/n
  m 777 /c/o
  m 1755 /c/s
  m 1777 /c/t
$ LS_COLORS='' seek --color=always --base-directory=/c .
  \x1b[37;41mboth\x1b[0m
  \x1b[01;34mn\x1b[0m
  \x1b[34;42mo\x1b[0m
  plain
  \x1b[01;32mrun\x1b[0m
  \x1b[37;44ms\x1b[0m
  \x1b[30;43msg\x1b[0m
  \x1b[37;41msu\x1b[0m
  \x1b[30;42mt\x1b[0m
$ LS_COLORS=su=0:sg=35 seek --color=always --base-directory=/c -t f .
  \x1b[35mboth\x1b[0m
  plain
  \x1b[01;32mrun\x1b[0m
  \x1b[35msg\x1b[0m
  \x1b[01;32msu\x1b[0m
$ LS_COLORS=su=:sg=00 seek --color=always --base-directory=/c -t f .
  \x1b[01;32mboth\x1b[0m
  plain
  \x1b[01;32mrun\x1b[0m
  sg
  \x1b[01;32msu\x1b[0m
$ LS_COLORS=tw=0 seek --color=always --base-directory=/c -t d .
  \x1b[01;34mn\x1b[0m
  \x1b[34;42mo\x1b[0m
  \x1b[37;44ms\x1b[0m
  \x1b[34;42mt\x1b[0m
$ LS_COLORS=tw=0:ow= seek --color=always --base-directory=/c -t d .
  \x1b[01;34mn\x1b[0m
  \x1b[01;34mo\x1b[0m
  \x1b[37;44ms\x1b[0m
  \x1b[37;44mt\x1b[0m
