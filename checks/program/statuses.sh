# How runs end.
printf '%s\nmount\nput t 1 5\nflush t\nget t 1\n' "$configuration" > script
rm -f image
flashts run image < script
ends "a script that is read to its end, over a new image" 0 $'ok\nok\nok\nrow 1 5\n' $'flashts: a new image was made\n'
flashts run image <<< "$configuration"
ends "the same image again" 0 '' ''
two="$configuration
table u 8 i32 3 0 0 8 0 10 1 0"
flashts run two <<< "$two"$'\nmount\nput t 1 0\nput u 1 0\nput u 2 0'
ends "rows of two tables that no flush has written" 0 $'ok\nok\nok\nok\n' $'flashts: rows that no flush has written: t 1, u 2\nflashts: a new image was made\n'
flashts run two <<< "$two"$'\nmount\nput t 1 0\nput u 1 0\nflush t'
ends "rows of one of them" 0 $'ok\nok\nok\nok\n' $'flashts: rows that no flush has written: u 1\n'
flashts run two <<< "$two"$'\nmount\nput u 1 0\nflush u\nput u 2 0\noff'
ends "none after the end of the session" 0 $'ok\nok\nok\nok\nok\n' ''
rm two
flashts help
told=$(printf '%s' "$(cat err)$(grep -v '^flashts \|^    \|^FLASHTS_EXPLAIN=1$' out)")
[ $status = 0 ] || told="status $status"
for words in 'run [sync] IMAGE' 'shell [sync] IMAGE' 'plan [SECONDS]' 'check IMAGE [all]' 'map IMAGE [svg]' 'export IMAGE NAME [LOW HIGH]' 'import IMAGE NAME [gone]' 'salvage IMAGE NAME' 'ship IMAGE COPY NAME COUNT' 'help'; do
    grep -qxF "flashts $words" out || told="no $words"
done
grep -qxF 'FLASHTS_EXPLAIN=1' out || told="no variable"
tell "the help has each job, and the variable that asks for explanations" "$told"
call help > /dev/full 2> err
status=$?
: > out
ends "a help that can't be written" 4 '' $'flashts: the replies cannot be written\n'
for words in '' 'help me' 'run' 'run a b' 'check' 'export image t 0' 'export image t 0 -1' 'import image' 'erase image' 'import image T' 'plan often' 'plan 0' 'plan +10' 'plan 1000001' 'plan 10 20'; do
    cp image before
    # shellcheck disable=SC2086
    flashts $words < script
    told=$run_usage
    case $words in run*) ;; *) told=$usage ;; esac
    leaves "other words: '$words'" 1 '' "$told"
done
image flushed
printf '%s\nmount\nget t 1\ngte t 1\nget t 1\n' "$configuration" > script
flashts run image < script
leaves "a line that is no command" 2 $'ok\nrow 1 0\n' $'flashts: line 5 is not a command\nflashts: there is no command gte\n'
# reason LINE TEXT: the line is no command, and this is why
reason() {
    printf '%s\n%s' "$configuration" "$1" | call run image > out 2> err
    status=$?
    leaves "why no command: ${1:0:40}" 2 '' "flashts: line 3 is not a command"$'\n'"flashts: $2"$'\n'
}
form='the form is put NAME KEY VALUE.. [blob HEX]'
numbers='from 0 to 18446744073709551615'
reason 'put' "words are 1, and $form"
reason 'flush t u' 'words are 3, and the form is flush NAME'
reason 'put T 1 2' "word 2 is T and has to be a name: 1 to 8 of a-z and 0-9, beginning with a letter; $form"
reason 'put t 18446744073709551616 2' "word 3 is 18446744073709551616 and has to be a number $numbers; $form"
reason 'put t 1 +2' "word 4 is +2 and has to be a number from -9223372036854775808 to 9223372036854775807; $form"
reason 'put t 1 2 blob 0g' "word 6 is 0g and has to be - or an even number of hexadecimal digits; $form"
reason 'cut 1 soon' 'word 3 is soon and has to be one of before, after, half and noise; the form is cut N KIND [SEED]'
reason 'load t 0 1 1' 'word 3 is 0 and has to be a number from 1 to 1000000; the form is load NAME COUNT STEP SEED'
reason 'close 4' 'word 2 is 4 and has to be a cursor: 0, 1, 2 or 3; the form is close CURSOR'
reason 'select t 0 9 1 gte 2' 'word 6 is gte and has to be one of lt, le, eq, ne, ge and gt; the form is select NAME LOW HIGH COLUMN OP VALUE'
reason 'project t 0 9 1,x' 'word 5 is 1,x and has to be 1 to 8 numbers of columns, joined by commas; the form is project NAME LOW HIGH LIST'
lined='the form is table NAME KEY COLUMNS DATA INDEX VAR BITS BASE WIDTH ERROR BLOB [index2] [rlc LOG]'
reason 'table u x i32 3 3 0 8 0 10 1 0 index3' "word 13 is index3 and has to be index2 or rlc, or to be left out; $lined"
reason 'table u 8 i32 3 3 0 8 0 10 1 0 index2 index2' "word 14 is index2 and has to be rlc, or to be left out; $lined"
reason 'table u 8 i32 3 3 0 8 0 10 1 0 rlc' "words are 13, and $lined"
reason 'table u 8 i32 3 3 0 8 0 10 1 0 rlc x' "word 14 is x and has to be a number $numbers; $lined"
reason 'table u 8 i32 3 3 0 8 0 10 1 0 rlc 3 index2' "word 15 is index2 and has to be left out; $lined"
reason 'table u 8 i32 3 3 0 8 0 10 1 0 rlc rlc 3' "word 15 is 3 and has to be left out; $lined"
reason 'table u 8 i32 3 3 0 8 0 10 1 0 index2 rlc 3 3' "word 16 is 3 and has to be left out; $lined"
reason $'pu\e[1mt\xff' 'there is no command pu.[1mt.'
reason "$(head -c 40 /dev/zero | tr '\0' x)" 'there is no command xxxxxxxxxxxxxxxxxxxxxxxx..'
reason "$(head -c 5000 /dev/zero | tr '\0' x)" 'it has more than 4096 bytes'
printf '%s\nmount\ndevice 128 4\n' "$configuration" > script
flashts run image < script
leaves "a line of the configuration behind a command" 2 $'ok\n' $'flashts: line 4 is not a command\nflashts: device and table lines come before the first command\n'
{ printf '%s\n' "$configuration"; yes "# $(seq -s ' ' 900)" | head -n 500; printf 'scan t 0\nmount\n'; } > script
flashts run image < script
leaves "a line behind two million bytes" 2 '' $'flashts: line 503 is not a command\nflashts: words are 3, and the form is scan NAME LOW HIGH [VLOW VHIGH]\n'
flashts run image < .
leaves "a script that can't be read" 3 '' $'flashts: the script cannot be read\n'
printf '%s\nmount\nput t 2 0\n' "$configuration" > script
call run image < script > /dev/full 2> err
status=$?
: > out
leaves "replies that can't be written" 4 '' $'flashts: the replies cannot be written\n'
flashts run no/image < script
ends "an image that can't be made" 5 '' $'flashts: the image cannot be made or read\n'
rm -f new
(trap '' XFSZ; ulimit -f 1; call run new < script > out 2> err)
status=$?
ends "a new image for which there is no room" 5 '' $'flashts: the image cannot be made or read\n'
rm -f new
flashts run new <<< 'device 128 3
table t 8 i32 2 0 0 8 0 10 1 0'
ends "a line of a configuration that is refused" 6 '' $'flashts: configuration line 2 is refused\nflashts: DATA is 2 and has to be 3 to 16384 blocks\n'
[ -e new ] && status="the file stays"
tell "no file stays of an image that wasn't made" "${status#6}"
: > new
flashts run new <<< 'device 128 3
table t 8 i32 2 0 0 8 0 10 1 0'
[ -e new ] && status=
tell "an empty file that was there before stays" "$status"
rm -f new
# refused LINES TEXT: the last of the lines is refused, and this is why
refused() {
    printf '%s\n' "$1" | call run new > out 2> err
    status=$?
    ends "why refused: $2" 6 '' "flashts: configuration line $(printf '%s\n' "$1" | wc -l) is refused"$'\n'"flashts: $2"$'\n'
}
device='device 128 4'
refused 'device 100 4' 'PAGE is 100 and has to be 64 to 4096 and a multiple of 8'
refused 'device 128 257' 'BLOCK is 257 and has to be 2 to 256'
refused "$device
$device" 'there is a device line before it'
refused 'table t 8 i32 3 0 0 8 0 10 1 0' 'a device line has to come before it'
# table WORDS TEXT: the same of a table line with these words
table() {
    refused "$device
table t $1" "$2"
}
table '6 i32 3 0 0 8 0 10 1 0' 'KEY is 6 bytes and has to be 4 or 8'
table '8 i32,i128 3 0 0 8 0 10 1 0' 'a column is i128 and has to be one of u8 i8 u16 i16 u32 i32 i64'
table '8 u8,u8,u8,u8,u8,u8,u8,u8,u8 3 0 0 8 0 10 1 0' 'COLUMNS are 9 and have to be 1 to 8'
table '8 i32 2 0 0 8 0 10 1 0' 'DATA is 2 and has to be 3 to 16384 blocks'
table '8 i32 3 1 0 8 0 10 1 0' 'INDEX is 1 and has to be 0, or 3 to 16384 blocks'
table '8 i32 3 0 16385 8 0 10 1 9' 'VAR is 16385 and has to be 0, or 3 to 16384 blocks'
table '8 i32 3 0 0 7 0 10 1 0' 'BITS is 7 and has to be 0, 8, 16 or 64'
table '8 i32 3 3 0 0 0 10 1 0' 'an index ring of 3 blocks needs BITS of 8, 16 or 64'
table '8 i32 3 0 0 8 0 0 1 0' 'WIDTH is 0 and has to be 1 to 9223372036854775807'
table '8 i32 3 0 0 8 0 10 256 0' 'ERROR is 256 and has to be 0 to 255'
table '8 i32 3 0 0 8 0 10 1 60' 'longest blob 60 needs a ring of variable data of at least 3 blocks'
table '8 i32 3 0 0 8 0 10 1 0 index2' 'index2 needs an index ring: INDEX is 0 and has to be 3 to 16384 blocks, or index2 has to be left out'
table '8 i32 3 0 3 8 0 10 1 1501' 'longest blob is 1501, and 3 blocks of variable data keep blobs of 1 to 672 bytes'
table '8 i32 3 0 0 8 0 10 1 0 rlc 2' 'LOG is 2 and has to be 3 to 16384 blocks'
table '8 i32 3 3 0 8 0 10 1 0 index2 rlc 0' 'LOG is 0 and has to be 3 to 16384 blocks'
table '8 i32 3 0 3 8 0 10 1 60 rlc 3' 'rlc needs a table without variable data: VAR is 3 and has to be 0, or rlc and LOG have to be left out'
refused 'device 64 2
table t 8 i64,i64,i64,i64,i64 3 0 0 8 0 10 1 0' 'a row has 48 bytes, and a page of 64 has room for 40'
refused 'device 4096 256
table t 8 i32 60 0 0 8 0 10 1 0
table u 8 i32 5 0 0 8 0 10 1 0' 'all rings have 65 blocks of 256 pages of 4096 bytes; at most 65536 pages and 67108864 bytes fit'
refused 'device 4096 256
table t 8 i32 61 0 0 8 0 10 1 0 rlc 4' 'all rings have 65 blocks of 256 pages of 4096 bytes; at most 65536 pages and 67108864 bytes fit'
refused 'device 4096 256
table t 8 i32 57 0 0 8 0 10 1 0 rlc 3
table u 8 i32 3 0 0 8 0 10 1 0 rlc 3' 'all rings have 66 blocks of 256 pages of 4096 bytes; at most 65536 pages and 67108864 bytes fit'
refused "$device
table t 8 i32 3 0 0 8 0 10 1 0
table t 8 i32 3 0 0 8 0 10 1 0" 'a table before it has the same NAME'
flashts run new <<< 'device 128 4'
ends "a configuration without tables" 6 '' $'flashts: the configuration is incomplete\nflashts: a script begins with a device line and one to four table lines\n'
tell "nothing is written for a configuration that is refused" "$(cat new 2> /dev/null)"
flashts run image <<< 'device 128 4
table t 8 i32 4 0 0 8 0 10 1 0
mount'
leaves "an image of another configuration" 7 '' $'flashts: the image has another configuration\nflashts: line 2 of the configuration: DATA is 3 in the image and 4 in the script\n'
flashts run image <<< "$configuration
table u 8 i32 3 0 0 8 0 10 1 0"
leaves "an image of fewer tables" 7 '' $'flashts: the image has another configuration\nflashts: line 3 of the configuration: table is nothing in the image and table in the script\n'
indexed='table t 8 i32 3 3 0 8 0 10 1 0'
flashts run plain <<< "$device
$indexed"
flashts run full <<< "$device
$indexed index2"
flashts run plain <<< "$device
$indexed index2"
ends "an image of bitmaps alone" 7 '' $'flashts: the image has another configuration\nflashts: line 2 of the configuration: ENDING is nothing in the image and index2 in the script\n'
flashts run full <<< "$device
$indexed"
ends "an image of full index entries" 7 '' $'flashts: the image has another configuration\nflashts: line 2 of the configuration: ENDING is index2 in the image and nothing in the script\n'
# other ANSWER IMAGE WORDS: an image whose table line ends otherwise than with these words, and what is told of it
other() {
    flashts run "$2" <<< "$device
$indexed$3"
    ends "an image with another end of a table line: $1" 7 '' "flashts: the image has another configuration"$'\n'"flashts: line 2 of the configuration: ENDING is $1"$'\n'
}
flashts run log <<< "$device
$indexed rlc 3"
flashts run both <<< "$device
$indexed index2 rlc 3"
other 'nothing in the image and rlc in the script' plain ' rlc 3'
other 'rlc in the image and nothing in the script' log ''
other '3 in the image and 4 in the script' log ' rlc 4'
other 'rlc in the image and index2 in the script' log ' index2 rlc 3'
other 'rlc in the image and nothing in the script' both ' index2'
other '3 in the image and 14 in the script' both ' index2 rlc 14'
rm plain full log both
cp image whole
printf x >> image
cp image before
flashts run image <<< "$configuration"
leaves "an image that is longer" 7 '' "flashts: the image has another configuration"$'\n'"flashts: the image has $(wc -c < image) bytes, and the script's configuration makes $(wc -c < whole)"$'\n'
cp whole image
cp image before
{ printf '%s\nmount\n' "$configuration"; yes "# $(seq -s ' ' 900)" | head -c 16777216; } > script
flashts run image < script
leaves "a script that is too long" 8 $'ok\n' $'flashts: the script is longer than 16777216 bytes\n'

# The room that the program may have is made smaller until there is none for its tables.
printf 'device 64 256\ntable t 4 i32 250 0 0 8 0 10 1 0\n' > script
status=0
for kilobytes in $(seq 20000 -100 1000); do
    rm -f new
    { (ulimit -v "$kilobytes"; exec ./flashts run new < script > out 2> err); } 2> /dev/null
    status=$?
    [ $status = 0 ] || break
done
if [ $status = 9 ]; then
    ends "no memory" 9 '' $'flashts: no memory\n'
    tell "no image is made then" "$(head -c 100 new 2> /dev/null)"
else
    leave_out "no memory" "with little room the program doesn't even begin"
fi
