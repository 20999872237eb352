# What the jobs write, and how they end.
image empty
flashts import image t <<< 'key,c1
1,-25
2
2,x
1,4
"2",-5'
ends "an import" 0 $'line 3 fields 2\nline 4 number 2\nline 5 refused key 1\nimported 2 refused 3\n' $'flashts: the table holds 2 rows\n'
flashts export image t 0 9
ends "the export of what was imported" 0 $'key,c1\n1,-25\n2,-5\n' ''
flashts export image t 2 2
ends "the export of one key" 0 $'key,c1\n2,-5\n' ''
flashts export image t 3 9
ends "the export of keys that aren't there" 0 $'key,c1\n' ''
flashts check image
ends "a check of a sound image" 0 $'sound t rows 2 pages 1 voids 0\n' ''
image torn
flashts check image
leaves "a check of an image with a torn page" 0 $'sound t rows 1 pages 1 voids 0\n' ''
flashts export image t 0 9
ends "an export repairs a torn page" 0 $'key,c1\n1,0\n' ''
flashts check image
ends "a check of the repaired image" 0 $'sound t rows 1 pages 2 voids 1\n' ''

# all of an image, and of a table
cp image before
flashts check image all
leaves "a check of all tables" 0 $'sound t rows 1 pages 2 voids 1\n' ''
flashts export image t
leaves "an export of all records" 0 $'key,c1\n1,0\n' ''
flashts salvage image t
leaves "a salvage of a sound image" 0 $'key,c1\n1,0\n' $'flashts: pages passed over: missing 0, torn 0, void 1, misplaced 0, unformed 0\n'
flashts map image
leaves "a map of it" 0 $'t data first 0 last 0 rows 1 waiting 0\n>#v.. .... ....\neach letter a page: . blank  # committed  v void  x torn  ! breaks a rule; > before the head\n' ''
flashts map image svg
tell "a picture of it" "$([ $status = 0 ] && [ "$(head -c 5 out)" = '<svg ' ] && [ "$(tail -n 1 out)" = '</svg>' ] || echo "status $status")"
flashts salvage image u
leaves "a salvage of no such table" 14 '' "$status14"

# damaged images: a byte of the first data page is another one (docs/CHECK.md)
image flushed
byte 1024 05
cp image before
flashts check image
leaves "a check of an image whose first page has another number" 16 $'fault t data 0 3\n' "$status16"
flashts check image all
leaves "a check of all its tables" 16 $'fault t data 0 3 number\n' "$status16"
flashts export image t 0 9
ends "an export of it" 13 '' "$status13"
flashts import image t <<< $'key,c1\n2,0'
ends "an import into it" 13 '' "$status13"
flashts salvage image t
leaves "a salvage of it" 0 $'key,c1\n' $'flashts: pages passed over: missing 0, torn 0, void 0, misplaced 1, unformed 0\n'
flashts map image
leaves "a map of it" 0 $'t data first 5 last 5 rows 1 waiting 0\n>!... .... ....\nfault: t data page 0 rule 3\neach letter a page: . blank  # committed  v void  x torn  ! breaks a rule; > before the head\n' ''
byte 2048 00
cp image before
flashts check image all
leaves "a check of all its tables, where a page that isn't kept is begun too" 16 $'fault t data 0 3 number\nfault t data 8 8 rest\n' "$status16"
image flushed
byte 1032 02
cp image before
flashts check image
leaves "a check of an image whose first page has another bitmap" 16 $'fault t data 0 4\n' "$status16"
image flushed
byte 1040 02
cp image before
flashts check image
leaves "a check of an image whose first record has another key" 0 $'sound t rows 1 pages 1 voids 0\n' ''

# a table with a log, whose pages are 12 to 23: a byte of one of them is another one
image logged
flashts check image all
leaves "a check of rows that only a log has" 0 $'sound t rows 0 pages 0 voids 0\n' ''
flashts map image
leaves "a map of them" 0 $'t data first none last none rows 0 waiting 0\n>.... .... ....\nt log first 0 last 1 waiting 0\n>##.. .... ....\neach letter a page: . blank  # committed  v void  x torn  ! breaks a rule; > before the head\n' ''
flashts salvage image t
leaves "a salvage leaves them out" 0 $'key,c1\n' $'flashts: pages passed over: missing 0, torn 0, void 0, misplaced 0, unformed 0\n'
byte 2560 05
cp image before
flashts check image all
leaves "a check of a log whose first page has another number" 16 $'fault t log 12 3 number\n' "$status16"
image logged
byte 2568 01
cp image before
flashts check image
leaves "a check of a log whose first page has a bitmap" 16 $'fault t log 12 4\n' "$status16"
image logged
byte 2704 02
byte 3584 00
cp image before
flashts check image
leaves "a check of a log with a page whose keys don't ascend" 16 $'fault t log 13 5\n' "$status16"
flashts check image all
leaves "a check of all, where a page behind it is begun too" 16 $'fault t log 13 5 keys\nfault t log 20 8 rest\n' "$status16"
flashts map image
leaves "a map of it" 0 $'t data first none last none rows 0 waiting 0\n>.... .... ....\nt log first 0 last 1 waiting 0\n>#!.. .... x...\nfault: t log page 13 rule 5\neach letter a page: . blank  # committed  v void  x torn  ! breaks a rule; > before the head\n' ''
image logged
flashts export image t
ends "an export has the rows that only a log has" 0 $'key,c1\n1,0\n2,0\n' ''
flashts map image
ends "a map of what is a page of the table now" 0 $'t data first 0 last 0 rows 2 waiting 0\n>#... .... ....\nt log first 0 last 1 waiting 0\n>##.. .... ....\neach letter a page: . blank  # committed  v void  x torn  ! breaks a rule; > before the head\n' ''
image flushed
byte 0 00
cp image before
for words in 'check image' 'export image t 0 9' 'import image t'; do
    # shellcheck disable=SC2086
    flashts $words <<< $'key,c1\n2,0'
    leaves "no image: $words" 11 '' "$status11"
done
image flushed
for words in 'export image u 0 9' 'import image u'; do
    # shellcheck disable=SC2086
    flashts $words <<< $'key,c1\n2,0'
    leaves "no such table: $words" 14 '' "$status14"
done
flashts import image t < .
leaves "an import whose input can't be read" 3 '' $'flashts: the script cannot be read\n'
flashts import image t <<< $'key,c2\n2,0'
leaves "an import whose first line names other fields" 15 '' "$(status15 1)"$'\n'
flashts import image t < /dev/null
leaves "an import of nothing" 15 '' "$(status15 1)"$'\n'
{ printf 'key,c1\n2,7\n'; head -c 4097 /dev/zero | tr '\0' 1; } > input
flashts import image t < input
ends "an import with a line that is too long" 15 '' "$(status15 3; taken 1 2)"$'\n'
flashts export image t 0 9
ends "the lines before it were put" 0 $'key,c1\n1,0\n2,7\n' ''
image flushed
{ printf 'key,c1\n2,7\n'; yes "$(seq -s ' ' 900)" | head -c 16777216; } > input
call import image t < input > out 2> err
status=$?
: > out
ends "an import that is too long" 8 '' $'flashts: the script is longer than 16777216 bytes\n'"$(taken 1 4806)"$'\n'
image flushed
(trap '' XFSZ; ulimit -f 1; call import image t <<< $'key,c1\n2,7' > out 2> err)
status=$?
leaves "an import into an image that fails" 12 '' "$status12$(taken 1 2)"$'\n'
image torn
(trap '' XFSZ; ulimit -f 1; call export image t 0 9 > out 2> err)
status=$?
leaves "an export whose repair fails" 12 '' "$status12"
