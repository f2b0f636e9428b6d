# an object for each difference
tree
  d /keep
  f 3 /r/a
  f 5 /r/b/c
  f 1 /r/gone
$ since -j1 --save /keep/s /r
$ since --json /keep/s
then
  - /r/gone
  f 9 /r/b/c
  f 1 /r/b/new
  t 200 /r/b/c
$ since --json /keep/s
  {"kind":"changed","path":"b/c"}
  {"kind":"added","path":"b/new"}
  {"kind":"removed","path":"gone"}
= 1
$ since --json -q /keep/s
= 1

# with -l what differs is there too
$ since --json -l /keep/s
  {"differs":["length","time"],"kind":"changed","path":"b/c"}
  {"kind":"added","path":"b/new"}
  {"kind":"removed","path":"gone"}
= 1
$ since --json --long --quick /keep/s
  {"kind":"added","path":"b/new"}
  {"kind":"removed","path":"gone"}
= 1
then
  - /r/a
  f 0 /r/a/in
$ since --json --save -j1 /keep/s
  {"kind":"changed","path":"a"}
  {"kind":"added","path":"a/in"}
  {"kind":"changed","path":"b/c"}
  {"kind":"added","path":"b/new"}
  {"kind":"removed","path":"gone"}
= 1
$ since --json /keep/s

# names with quotes, control characters and others
tree
  d /keep
  d /r
$ since -j1 --save /keep/s /r
then
  f 0 /r/"q"
  f 0 /r/-x
  f 0 /r/\x5cback
  f 0 /r/ä
  f 0 /r/tab\x09
$ since --json /keep/s
  {"kind":"added","path":"\"q\""}
  {"kind":"added","path":"-x"}
  {"kind":"added","path":"\\back"}
  {"kind":"added","path":"tab\t"}
  {"kind":"added","path":"ä"}
= 1
