-- Braces in globs and in lines of `-E`.

# a glob takes what one of its texts takes
tree
  d /t
  f 1 /t/a.txt
  f 1 /t/B.TXT
  f 1 /t/.hidden
  d /t/sub
  f 1 /t/sub/c.rs
  f 1 /t/sub/notes.tar.gz
  d /t/sub/deep
  f 1 /t/sub/deep/a.rs
  l a.txt	/t/link
  l sub	/t/down
$ seek -g *.{rs,txt} /t
  /t/B.TXT
  /t/a.txt
  /t/sub/c.rs
  /t/sub/deep/a.rs
$ seek -g {a,B}.{txt,TXT} /t
  /t/B.TXT
  /t/a.txt
$ seek -g {link,{c,notes}.{rs,tar.*}} /t
  /t/link
  /t/sub/c.rs
  /t/sub/notes.tar.gz
$ seek -p -g /t/{sub/*.rs,**/a.*} /t
  /t/a.txt
  /t/sub/c.rs
  /t/sub/deep/a.rs

# alternatives that are empty or alone
$ seek -g {a}.txt /t
  /t/a.txt
$ seek -g a{}.txt /t
  /t/a.txt
$ seek -g a{,.txt} /t
  /t/a.txt
$ seek -g {link,} /t
  /t/link
$ seek -g {} /t

# a malformed alternative is refused
$ seek -g {a,b\ /t
! seek: bad pattern '{a,b\': no glob
= 2
$ seek -g {a,[b} /t
! seek: bad pattern '{a,[b}': no glob
= 2

# lines of exclude
$ seek -E *.{rs,txt,TXT} . /t
  /t/down
  /t/link
  /t/sub
  /t/sub/deep
  /t/sub/notes.tar.gz
$ seek -E *.{rs,txt} -E !{c,x}.rs rs$ /t
  /t/sub/c.rs
$ seek -E {/a,b,deep/}* a /t
  /t/sub/deep/a.rs
  /t/sub/notes.tar.gz
$ seek -I -E /{sub,link} . /t
  /t/B.TXT
  /t/a.txt
  /t/down

# more than 1024 texts are refused
$ seek -g {a,b}{a,b}{a,b}{a,b}{a,b}{a,b}{a,b}{a,b}{a,b}{a,b} /t
$ seek -g {{a,b}{a,b}{a,b}{a,b}{a,b}{a,b}{a,b}{a,b}{a,b}{a,b},a} /t
! seek: bad pattern '{{a,b}{a,b}{a,b}{a,b}{a,b}{a,b}{a,b}{a,b}{a,b}{a,b},a}': short for more than 1024 others
= 2
$ seek -g --and {{a,b}{a,b}{a,b}{a,b}{a,b}{a,b}{a,b}{a,b}{a,b}{a,b},a} * /t
! seek: bad pattern '{{a,b}{a,b}{a,b}{a,b}{a,b}{a,b}{a,b}{a,b}{a,b}{a,b},a}': short for more than 1024 others
= 2
$ seek -E {a,b}{a,b}{a,b}{a,b}{a,b}{a,b}{a,b}{a,b}{a,b}{a,b} txt /t
  /t/B.TXT
  /t/a.txt
$ seek -E a -E {{a,b}{a,b}{a,b}{a,b}{a,b}{a,b}{a,b}{a,b}{a,b}{a,b},a} txt /t
! seek: bad pattern '{{a,b}{a,b}{a,b}{a,b}{a,b}{a,b}{a,b}{a,b}{a,b}{a,b},a}': short for more than 1024 others
= 2
$ seek -F {{a,b}{a,b}{a,b}{a,b}{a,b}{a,b}{a,b}{a,b}{a,b}{a,b},a} /t

# long and deep texts
$ seek -g <<{a,b}*20000>> /t
! seek: bad pattern '<<{a,b}*20000>>': short for more than 1024 others
= 2
$ seek -g <<{*50000>> /t
$ seek -g <<{x*20000>><<y}*20000>> /t
$ seek -E <<{x,*2000>><<}*2000>> . /t
! seek: bad pattern '<<{x,*2000>><<}*2000>>': short for more than 1024 others
= 2

# braces and commas that are themselves
tree
  d /r
  f 1 /r/{a,b}
  f 1 /r/{a,b
  f 1 /r/a
  f 1 /r/b}
  f 1 /r/{
  f 1 /r/a,c
$ seek -g \{a,b\} /r
  /r/{a,b}
$ seek -g \{a,b} /r
  /r/{a,b}
$ seek -g {a\,c,x} /r
  /r/a,c
$ seek -g {a,b /r
  /r/{a,b
$ seek -g {a,b}} /r
  /r/b}
$ seek -g a,c /r
  /r/a,c
$ seek -g { /r
  /r/{
$ seek -g [{] /r
  /r/{
$ seek -g {[{],[]{]a*[}]} /r
  /r/{
  /r/{a,b}
$ seek -g {[[:alpha:]{}],x} /r
  /r/a
  /r/{

# braces and commas that are themselves in lines of exclude
$ seek -E \{* -E {a,b}* . /r
$ seek -E {a,b -E a* b /r
  /r/b}
  /r/{a,b}
