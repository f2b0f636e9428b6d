-- Times, as `fd` and `find -newer` find by them.

# times
tree
  d /k
  d /k/d
  f 0 /k/may
  t 1714521600 /k/may
  f 0 /k/later
  t 1714521600.000000001 /k/later
  f 0 /k/old
  t 1672531200 /k/old
  f 0 /k/new
  f 0 /k/run
  m 755 /k/run
  l old	/k/l
$ seek --changed-within 2024-05-01 . /k --sort
  /k/d
  /k/l
  /k/later
  /k/new
  /k/run
$ seek --newer 2024-05-01T02:00:00+02:00 . /k --sort
  /k/d
  /k/l
  /k/later
  /k/new
  /k/run
$ seek '--newer=2024-05-01 00:00:00' . /k --sort
  /k/d
  /k/l
  /k/later
  /k/new
  /k/run
$ seek --newer @1714521600 . /k --sort
  /k/d
  /k/l
  /k/later
  /k/new
  /k/run
$ seek --changed-before 2024-05-01 . /k --sort
  /k/old
$ seek --changed-within 2h30m . /k --sort
  /k/d
  /k/l
  /k/new
  /k/run
$ seek --changed-before 1day . /k --sort
  /k/later
  /k/may
  /k/old
$ seek '--changed-before=2 weeks' --newer=2023-01-01 . /k --sort
  /k/later
  /k/may
$ seek --changed-before 100years . /k --sort
$ seek -L --changed-before=2024-01-01 . /k --sort
  /k/l
  /k/old

# other words for them
$ seek --changed-after 2024-05-01 . /k --sort
  /k/d
  /k/l
  /k/later
  /k/new
  /k/run
$ seek --older 2024-05-01 . /k --sort
  /k/old
$ seek --older=2024-05-01 --changed-before=1971-01-01 . /k --sort
$ seek --newer 1971-01-01 --changed-within x --changed-after 2024-05-01 ^m|^o|^n /k
  /k/new

# numbers without zeros in front
$ seek --newer 2024-5-1 . /k --sort
  /k/d
  /k/l
  /k/later
  /k/new
  /k/run
$ seek --older '2023-1-1 0:0:1' . /k --sort
  /k/old
$ seek --older '2023-1-1 0:0:0' . /k --sort
$ seek --older '2022-12-31 23:59:60' . /k --sort
$ seek --older '2022-12-31 23:60:0' . /k
!~ is no time
= 2
$ seek --older 2023-2-29 . /k
!~ is no time
= 2
$ seek --older '2024-2-29 24:0:0' . /k
!~ is no time
= 2
$ seek --older 2024-13-1 . /k
!~ is no time
= 2
$ seek --older 20240-1-1 . /k
!~ is no time
= 2
$ seek --older 2024-001-1 . /k
!~ is no time
= 2
$ seek --older 2024-1 . /k
!~ is no time
= 2
$ seek --older 0-1-1 . /k

# lengths, which are added up
$ seek --older 1d1d . /k --sort
  /k/later
  /k/may
  /k/old
$ seek --older '2h 30min' ^m /k
  /k/may
$ seek --older '1 d  2 hours 3m4s 5ms6us7ns' ^m /k
  /k/may
$ seek --older ' 1M ' ^m /k
  /k/may
$ seek --older 1hr1hrs1hour1hours1minute1minutes1mins1sec1secs1second1seconds ^m /k
  /k/may
$ seek --older 1millis1msec1usec1nanos1nsec1days1week1weeks1w1month1months ^m /k
  /k/may
$ seek --older 1000years . /k
$ seek --newer 1000years1year1y ^m /k
  /k/may
$ seek --older 1m ^new /k
$ seek --older 1D . /k
!~ '1D' is no time
= 2
$ seek --older 1d, . /k
!~ '1d,' is no time
= 2
$ seek --older 1.5h . /k
!~ '1.5h' is no time
= 2
$ seek --older 5 . /k
!~ '5' is no time
= 2
$ seek --older 0 . /k
!~ '0' is no time
= 2
$ seek --older '' . /k
!~ '' is no time
= 2
$ seek --older 18446744073709551616s . /k
!~ is no time
= 2
$ seek --older 18446744073709551615years . /k
!~ is no time
= 2
$ seek --newer <<1s*100>> ^new /k
  /k/new

# newer than a file
$ seek --sort --newer-than-file /k/may . /k
  /k/d
  /k/l
  /k/later
  /k/new
  /k/run
$ seek --sort --newer-than-file /k/later . /k
  /k/d
  /k/l
  /k/new
  /k/run
$ seek --sort --newer-than-file /k/old . /k
  /k/d
  /k/l
  /k/later
  /k/may
  /k/new
  /k/run

# a time that all are older than
$ seek --changed-before 2100-01-01 . /k --sort
  /k/d
  /k/l
  /k/later
  /k/may
  /k/new
  /k/old
  /k/run

# a file that is missing
$ seek --newer-than-file /none . /k
! seek: /none: No such file or directory (os error 2)
= 1

# what is no time
$ seek --newer 20x . /t
! seek: '20x' is no time: write how long ago it is, as in 2h or 3days, or a date, as in 2024-05-01 or '2024-05-01 10:00:00'
= 2
$ seek --changed-before 20x . /t
! seek: '20x' is no time: write how long ago it is, as in 2h or 3days, or a date, as in 2024-05-01 or '2024-05-01 10:00:00'
= 2
