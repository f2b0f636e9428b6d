-- Patterns.

# a dot and an empty pattern list all
tree
  d /t
  f 1 /t/a.txt
  f 1 /t/B.TXT
  f 1 /t/.hidden
  d /t/sub
  f 1 /t/sub/c.rs
  f 1 /t/sub/notes.tar.gz
  d /t/sub/deep
  f 1 /t/sub/deep/a.rs
  l a.txt	/t/link
  l sub	/t/down
$ seek . /t
  /t/B.TXT
  /t/a.txt
  /t/down
  /t/link
  /t/sub
  /t/sub/c.rs
  /t/sub/deep
  /t/sub/deep/a.rs
  /t/sub/notes.tar.gz
$ seek '' /t
  /t/B.TXT
  /t/a.txt
  /t/down
  /t/link
  /t/sub
  /t/sub/c.rs
  /t/sub/deep
  /t/sub/deep/a.rs
  /t/sub/notes.tar.gz

# a pattern is found anywhere in a name
$ seek ee /t
  /t/sub/deep
$ seek ^a /t
  /t/a.txt
  /t/sub/deep/a.rs
$ seek rs$ /t
  /t/sub/c.rs
  /t/sub/deep/a.rs
$ seek t/a -p /t
  /t/a.txt

# case counts if the pattern has an upper case letter
$ seek txt /t
  /t/B.TXT
  /t/a.txt
$ seek TXT /t
  /t/B.TXT
$ seek ^\w\.\W*t\Sx /t
$ seek ^\Sb*.t /t
  /t/B.TXT
  /t/a.txt
  /t/sub/notes.tar.gz

# an upper case letter by an escape or a class, and letters of other escapes and of groups
tree
  d /c
  f 1 /c/AB
  f 1 /c/aB
  f 1 /c/ab
$ seek \x5cx41b /c
$ seek \x5cx41B /c
  /c/AB
$ seek \x5cx{41} /c
  /c/AB
$ seek \u0041 /c
  /c/AB
$ seek \U00000041 /c
  /c/AB
$ seek \x5cx61b /c
  /c/AB
  /c/aB
  /c/ab
$ seek ^[[:upper:]] /c
  /c/AB
$ seek ^[[:lower:]]b /c
  /c/AB
  /c/aB
  /c/ab
$ seek ^\p{Lu} /c
  /c/AB
$ seek \Aab|^\Sb /c
  /c/AB
  /c/aB
  /c/ab
$ seek \AaB /c
  /c/aB
$ seek (?P<Name>a)b /c
  /c/AB
  /c/aB
  /c/ab
$ seek (?U)ab /c
  /c/AB
  /c/aB
  /c/ab
$ seek a(?:B) /c
  /c/aB
$ seek -g \A* /c
  /c/AB
$ seek -g [[:upper:]]* /c
  /c/AB
$ seek -g [[:lower:]]b /c
  /c/AB
  /c/aB
  /c/ab
$ seek -F \A /c

# case counts for all patterns if it does for one
$ seek a --and B /c
  /c/aB
$ seek a --and b /c
  /c/AB
  /c/aB
  /c/ab
$ seek --and=\x5cx42 a /c
  /c/aB
$ seek -F b --and A /c
$ seek -g a* --and *B /c
  /c/aB
$ seek -i a --and B /c
  /c/AB
  /c/aB
  /c/ab
$ seek -s a --and b /c
  /c/ab

# ignore case
tree
  d /t
  f 1 /t/a.txt
  f 1 /t/B.TXT
  f 1 /t/.hidden
  d /t/sub
  f 1 /t/sub/c.rs
  f 1 /t/sub/notes.tar.gz
  d /t/sub/deep
  f 1 /t/sub/deep/a.rs
  l a.txt	/t/link
  l sub	/t/down
$ seek -i TXT /t
  /t/B.TXT
  /t/a.txt
$ seek --ignore-case TXT /t
  /t/B.TXT
  /t/a.txt

# case sensitive
$ seek -s txt /t
  /t/a.txt
$ seek --case-sensitive txt /t
  /t/a.txt

# the last of two words counts
$ seek -i -s txt /t
  /t/a.txt
$ seek -is txt /t
  /t/a.txt
$ seek -isi TXT /t
  /t/B.TXT
  /t/a.txt
$ seek -g -F .t /t
  /t/B.TXT
  /t/a.txt
  /t/sub/notes.tar.gz
$ seek -F *.txt /t -g
  /t/B.TXT
  /t/a.txt
$ seek -g --regex ^a /t
  /t/a.txt
  /t/sub/deep/a.rs
$ seek -F --regex a. /t
  /t/a.txt
  /t/sub/deep/a.rs
  /t/sub/notes.tar.gz
$ seek --regex -F a. /t
  /t/a.txt
  /t/sub/deep/a.rs

# a pattern for hidden names without hidden
$ seek ^\.h /t
! seek: the pattern '^\.h' finds hidden names alone: add -H to have these
$ seek -g .h* /t
! seek: the pattern '.h*' finds hidden names alone: add -H to have these
$ seek -H ^\.h /t
  /t/.hidden
$ seek -p ^\.h /t
$ seek .hid /t
! seek: names with a dot in front are left out: add -H to have these
$ seek -F .hid /t
! seek: names with a dot in front are left out: add -H to have these
$ seek -H .hid /t
  /t/.hidden
$ seek .rs /t
  /t/sub/c.rs
  /t/sub/deep/a.rs
$ seek .*none /t
$ seek none /t
$ seek -p .hid /t

# glob
$ seek -g *.txt /t
  /t/B.TXT
  /t/a.txt
$ seek -g *.TXT /t
  /t/B.TXT
$ seek --glob ?.rs /t
  /t/sub/c.rs
  /t/sub/deep/a.rs
$ seek -g [ac].rs /t
  /t/sub/c.rs
  /t/sub/deep/a.rs
$ seek -g sub /t
  /t/sub

# fixed strings
$ seek -F .rs /t
  /t/sub/c.rs
  /t/sub/deep/a.rs
$ seek -F -tf . /t
  /t/B.TXT
  /t/a.txt
  /t/sub/c.rs
  /t/sub/deep/a.rs
  /t/sub/notes.tar.gz
$ seek -F A. /t
$ seek -F -i A. /t
  /t/a.txt
  /t/sub/deep/a.rs
$ seek --fixed-strings b.t /t
  /t/B.TXT
$ seek -F ^a /t
$ seek -F -p sub/c /t
  /t/sub/c.rs

# more patterns
$ seek rs --and ^c /t
  /t/sub/c.rs
$ seek -i t --and TX /t
  /t/B.TXT
  /t/a.txt
$ seek -g *.rs --and a* /t
  /t/sub/deep/a.rs
$ seek --and=e --and=p . /t
  /t/sub/deep
$ seek -F . --and=^ /t
$ seek a --and ( /t
!~ '('
= 2

# full path
$ seek -p sub/.*rs$ /t
  /t/sub/c.rs
  /t/sub/deep/a.rs
$ seek --full-path ^/t/a /t
  /t/a.txt
$ seek --full-path ^/t/a t
  t/a.txt
$ seek -p -g /t/**/*.rs /t
  /t/sub/c.rs
  /t/sub/deep/a.rs
