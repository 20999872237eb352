# Plans: what the tables of a configuration keep and take, by its lines alone. No file is opened or made.
planned=$'table t
  bytes a row 12
  rows a page 8
  pages always kept 7
  rows kept of full pages 56
  index pages wanted 0
  index blocks wanted 0
  bytes kept of full blob pages 0
  bytes of memory 164
  reads of a mount without void pages 22
  reads of a mount at most 48
device
  blocks 3
  blocks wanted 3
  bytes of memory 1188
'
image flushed
flashts plan <<< "$configuration"
leaves "a plan" 0 "$planned" ''
printf '\n# a logger\r\n%s\n\nmount\nput t 1 x\n' "$configuration" > script
flashts plan < script
leaves "a plan of the lines before the first command" 0 "$planned" ''
flashts plan 3600 <<< 'device 256 16
table env 4 i16,u8,u16 468 5 3 64 -200 13 1 60
table trace 4 u8 13 0 13 0 0 1 1 60'
ends "a plan of two tables with an interval" 0 $'table env
  bytes a row 19
  rows a page 12
  pages always kept 7471
  rows kept of full pages 89652
  days kept of full pages 3735.5
  index pages wanted 259
  index blocks wanted 18
  bytes kept of full blob pages 7440
  bytes of memory 24000
  reads of a mount without void pages 8139
  reads of a mount at most 30464
table trace
  bytes a row 15
  rows a page 15
  pages always kept 191
  rows kept of full pages 2865
  days kept of full pages 119.3
  index pages wanted 0
  index blocks wanted 0
  bytes kept of full blob pages 45840
  bytes of memory 1344
  reads of a mount without void pages 298
  reads of a mount at most 1664
device
  blocks 502
  blocks wanted 515
  bytes of memory 30464
' ''
flashts plan <<< 'device 128 4
table s 8 i32 40 3 0 8 0 10 1 0 index2'
ends "a plan of full index entries" 0 $'table s
  bytes a row 12
  rows a page 8
  pages always kept 155
  rows kept of full pages 1240
  index pages wanted 27
  index blocks wanted 8
  bytes kept of full blob pages 0
  bytes of memory 844
  reads of a mount without void pages 188
  reads of a mount at most 688
device
  blocks 43
  blocks wanted 48
  bytes of memory 1868
' ''
flashts plan <<< "$configuration rlc 3"
ends "a plan of a log" 0 $'table t
  bytes a row 12
  rows a page 8
  pages always kept 7
  rows kept of full pages 56
  index pages wanted 0
  index blocks wanted 0
  bytes kept of full blob pages 0
  bytes of memory 304
  reads of a mount without void pages 35
  reads of a mount at most 96
device
  blocks 6
  blocks wanted 6
  bytes of memory 1328
' ''
flashts plan <<< 'device 128 4
table t 8 i32 2 0 0 8 0 10 1 0'
ends "a plan of a line that is refused" 6 '' $'flashts: configuration line 2 is refused\nflashts: DATA is 2 and has to be 3 to 16384 blocks\n'
printf '%s\n%s\n' "$configuration" "$configuration" > script
flashts plan < script
ends "a plan of two configurations" 6 '' $'flashts: configuration line 3 is refused\nflashts: there is a device line before it\n'
flashts plan <<< 'device 128 4'
ends "a plan without tables" 6 '' $'flashts: the configuration is incomplete\nflashts: a script begins with a device line and one to four table lines\n'
printf '%s\ntabel u 8 i32 3 0 0 8 0 10 1 0\n' "$configuration" > script
flashts plan < script
ends "a plan of a line that is no command" 2 '' $'flashts: line 3 is not a command\nflashts: there is no command tabel\n'
{ printf '%s\n' "$configuration"; yes '# much' | head -c 65536; } > script
flashts plan < script
ends "a plan of a text that is too long" 8 '' $'flashts: the text is longer than 65536 bytes: the first lines of a script are enough\n'
call plan <<< "$configuration" > /dev/full 2> err
status=$?
: > out
leaves "a plan over a full standard output" 4 '' $'flashts: the replies cannot be written\n'
rm -rf bare && mkdir bare
(cd bare && ../flashts plan <<< "$configuration" > /dev/null)
tell "a plan makes no file" "$(ls bare)"
closed_ends 'plan' "$configuration" input "$planned"
