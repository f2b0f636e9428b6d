-- Words that ask for no search.

# bad words are named
tree
  d /t
  f 1 /t/a.txt
  f 1 /t/B.TXT
  f 1 /t/.hidden
  d /t/sub
  f 1 /t/sub/c.rs
  f 1 /t/sub/notes.tar.gz
  d /t/sub/deep
  f 1 /t/sub/deep/a.rs
  l a.txt	/t/link
  l sub	/t/down
$ seek --hiden
! seek: unknown option '--hiden' (see seek --help)
= 2
$ seek -qz
! seek: unknown option '-z' (see seek --help)
= 2
$ seek -k
! seek: unknown option '-k' (see seek --help)
= 2
$ seek --quiet=yes
!~ seek: unexpected value 'yes' for '--quiet
= 2
$ seek -x
!~ `seek -0 .. | xargs -0 COMMAND`
= 2
$ seek a --exec-batch rm
!~ xargs -0 COMMAND
= 2
$ seek --color red
!~ 'red' doesn't say
= 2
$ seek -o none-of-that-name
!~ 'none-of-that-name' is no owner
= 2
$ seek --owner=::
!~ '::' is no owner
= 2
$ seek *.md /t
!~ try -g
= 2
$ seek -t q . /t
!~ 'q'
= 2
$ seek -d one . /t
!~ 'one'
= 2
$ seek -d -1 . /t
!~ --max-depth
= 2
$ seek --max-depth
!~ --max-depth
= 2
$ seek --min-depth 18446744073709551616 .
!~ 18446744073709551616
= 2
$ seek --exact-depth=1 --max-depth=2
!~ --max-depth
= 2
$ seek --sort=name
!~ name
= 2
$ seek a( /t
!~ 'a('
= 2
$ seek -g [a /t
!~ '[a'
= 2
$ seek -g a\ /t
!~ 'a\'
= 2

# a pattern with a slash
$ seek /usr
!~ `seek . /usr`
= 2
$ seek -g a/* /t
!~ 'a/*'
= 2

# help
$ seek --help
~ Usage: seek [OPTIONS] [PATTERN] [ROOT]...
$ seek -h a
~ --exact-depth <N>

# version
$ seek --version
~ (rattle-kit-
$ seek -V
~ seek\x20
