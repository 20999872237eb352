# Shells: lines that are answered one by one, over an image that tells its own configuration.
image flushed
flashts shell image <<< 'get t 1'
leaves "a shell that isn't mounted" 0 $'not mounted\n' ''
printf 'mount\r\n\n# nothing\necho ~1\ngte t 1\nget t x\nput t 2 1.5\ndevice 128 4\necho\nfirst\nlast 5\ndescribe t\necho a b\nget t 1' > lines.text
flashts shell image < lines.text
ends "lines that are no commands" 0 "ok
~1
? there is no command gte
? word 3 is x and has to be a number from 0 to 18446744073709551615; the form is get NAME KEY
? word 4 is 1.5 and has to be a number from -9223372036854775808 to 9223372036854775807; the form is put NAME KEY VALUE.. [blob HEX]
? device and table lines come before the first command
? the form is echo WORD
? the form is first NAME
? the form is last NAME
? the form is describe
? the form is echo WORD
row 1 0
" ''
flashts shell image <<< $'last t\nfirst t\nmount\nlast t\nfirst t\nput t 7 3\nlast t\nfirst t\nlast u\nfirst u'
ends "first and last keys" 0 $'not mounted\nnot mounted\nok\n1\n1\nok\n7\n1\nno table\nno table\n' $'flashts: pending rows flushed: 1\n'
flashts export image t
ends "and the row is there" 0 $'key,c1\n1,0\n7,3\n' ''
image empty
flashts shell image <<< $'mount\nlast t\nfirst t'
ends "keys of an empty table" 0 $'ok\nnone\nnone\n' ''
image flushed
flashts shell image <<< $'describe\nmount\ndescribe'
ends "what an image is and holds" 0 "$configuration
  rows a page 8
  rows always kept of full pages 56
end 1
ok
$configuration
  rows a page 8
  rows always kept of full pages 56
  rows kept 1
  rows pending 0
  pages kept 1
  pages void 0
  pages free 11
  last key 1
end 1
" ''
# of twelve blobs of 100 bytes those that begin on the first four of eleven pages are gone
rm -f new.img
{
    printf 'device 128 4\ntable b 4 u8 3 3 3 8 0 32 2 100\ntable l 4 u8 3 0 0 0 0 1 2 0 rlc 3\nmount\n'
    for key in 1 2 3 4 5 6 7 8 9 10 11 12; do printf 'put b %d 5 blob %0200d\n' $key 0; done
    printf 'put l 1 5\ndescribe\n'
} > lines.text
flashts shell new.img < lines.text
ends "what each ring keeps, and the oldest blob" 0 "$(printf 'ok\n%.0s' 1 2 3 4 5 6 7 8 9 10 11 12 13 14)
device 128 4
table b 4 u8 3 3 3 8 0 32 2 100
  rows a page 6
  rows always kept of full pages 42
  rows kept 12
  rows pending 6
  pages kept 1
  pages void 0
  pages free 11
  last key 12
  index pages kept 0
  index pages free 12
  blob pages kept 7
  blob pages free 5
  oldest blob 6
table l 4 u8 3 0 0 0 0 1 2 0 rlc 3
  rows a page 20
  rows always kept of full pages 140
  rows kept 1
  rows pending 1
  pages kept 0
  pages void 0
  pages free 12
  last key 1
  log pages kept 1
  log pages free 11
end 2
" $'flashts: pending rows flushed: 7\nflashts: a new image was made\n'

# a line that is too long is answered once, however long it is, and nothing of it is done
for length in 4095 4096 4097 4098 8193 8194 8195 100000; do
    image flushed
    { echo mount; head -c $((length - 4)) /dev/zero | tr '\0' x; echo ' off'; echo 'get t 1'; } > lines.text
    flashts shell image < lines.text
    reason='? it has more than 4096 bytes'
    [ $length -gt 4096 ] || reason='? there is no command xxxxxxxxxxxxxxxxxxxxxxxx..'
    ends "a line of $length bytes" 0 "ok
$reason
row 1 0
" ''
done

# more bytes than a run reads
image flushed
{ echo mount; yes "# $(printf %4000s)" | head -n 4300; echo 'get t 1'; } > lines.text
flashts shell image < lines.text
ends "17 MB of comments" 0 $'ok\nrow 1 0\n' ''

# what is pending at the end
image flushed
flashts shell image <<< $'mount\nput t 2 5\nput t 3 5'
ends "pending rows are flushed at the end" 0 $'ok\nok\nok\n' $'flashts: pending rows flushed: 2\n'
flashts check image
ends "and are there" 0 $'sound t rows 3 pages 2 voids 0\n' ''
image flushed
flashts shell image <<< $'mount\nput t 2 5\ncut 1 before'
ends "a flush at the end that is cut" 12 $'ok\nok\nok\n' $'flashts: the last flush failed\nflashts: of the pending rows, 1, some may be lost: scan tells which are there\n'
image flushed
flashts shell image <<< $'mount\nput t 2 5\noff'
ends "what off loses stays lost" 0 $'ok\nok\nok\n' ''

# a new image
rm -f new.img
flashts shell new.img <<< $'echo ~1\nmount\ndevice 100 4\ndevice 128 4\ntable t 8 i32 2 0 0 8 0 10 1 0\nlast t\ntable t 8 i32 3 0 0 8 0 10 1 0\nmount\nput t 1 0\nflush t'
ends "a new image of the lines that are taken" 0 '~1
? a device line and one to four table lines come first
? PAGE is 100 and has to be 64 to 4096 and a multiple of 8
? DATA is 2 and has to be 3 to 16384 blocks
? a device line and one to four table lines come first
ok
ok
ok
' $'flashts: a new image was made\n'
cmp -s new.img flushed
tell "it is that of a run" "$([ $? = 0 ] || echo 'it is another one')"
rm -f new.img
flashts shell new.img <<< $'device 128 4\ntable t 8 i32 3 0 0 8 0 10 1 0\necho x y\ntable u 8 i32 3 0 0 8 0 10 1 0'
ends "a line that hasn't its form ends no configuration" 0 $'? the form is echo WORD\n' $'flashts: a new image was made\n'
rm -f new.img
flashts shell new.img <<< 'device 128 4'
ends "an input without a whole configuration" 6 '' $'flashts: the configuration is incomplete\nflashts: a script begins with a device line and one to four table lines\n'
tell "and no file is left" "$(ls new.img 2> /dev/null)"
echo 'no image' > other.txt
flashts shell other.txt <<< 'mount'
ends "a file that is no image" 11 '' "$status11"
mkdir folder
flashts shell folder <<< $'mount\ndevice 128 4'
ends "a folder" 5 '' $'flashts: the image cannot be made or read\n'
rmdir folder
flashts shell sync image <<< $'mount\nput t 9 9\nflush t\nget t 9'
ends "a shell whose writes are synced" 0 $'ok\nok\nok\nrow 9 9\n' ''
flashts shell <<< 'mount'
tell "a shell without an image" "$([ $status = 1 ] || echo "status $status")"

# the flush at the end is synced too
image flushed
if strace -o calls -e trace=fdatasync,pwrite64 ./flashts shell sync image <<< $'mount\nput t 2 2' > out 2> err && grep -q '^fdatasync(' calls; then
    called=$(grep -o '^[a-z0-9]*(' calls | tr -d '\n')
    tell "a shell syncs a body before its mark, and that before it ends" "$([ "$called" = 'pwrite64(fdatasync(pwrite64(fdatasync(' ] || echo "$called")"
else
    leave_out "synced writes of a shell" "strace can't be used here"
fi

# somebody who types has a prompt, and only there
image flushed
python3 "$here/terminal.py" out ./flashts shell image <<< $'get t 1\nmount\nput t 2 2\nget t 2' > err
status=$?
ends "a shell on a terminal" 0 $'not mounted\nok\nok\nrow 2 2\n' $'> get t 1\n> mount\n> put t 2 2\n> get t 2\n> \nflashts: pending rows flushed: 1\n'

# a program that holds it open: each answer comes before the next line is wanted
image flushed
rm -f asked answered && mkfifo asked answered
./flashts shell image < asked > answered 2> err &
shell_number=$!
exec 7> asked 6< answered
why=
for line in mount 'get t 1' 'echo ~1' 'nothing' 'last t'; do
    echo "$line" >&7
    read -r -t 20 answer <&6 || why="no answer to $line"
    echo "$answer"
done > out
[ -n "$why" ] || printf 'ok\nrow 1 0\n~1\n? there is no command nothing\n1\n' | cmp -s - out || why=$(cat out)
tell "answers come one by one" "$why"
flashts check image
leaves "a shell has its image alone" 20 '' "$in_use"
exec 7>&- 6<&-
wait $shell_number
tell "and ends with its input" "$([ $? = 0 ] || echo 'its status is not 0')"
