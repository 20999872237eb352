# Ships from `image` to a copy: what they write and end with, and what becomes of both files.

# copy_is WHAT STATUS OUT ERR WANTED: the last call ended and wrote so, and left the file `copy` as the file WANTED, or none
copy_is() {
    local why
    why=$(differs "$2" "$3" "$4")
    if [ -n "$why" ]; then
        :
    elif [ -z "$5" ]; then
        ! [ -e copy ] || why="there is a copy"
    else
        cmp -s "$5" copy || why="the copy is another one"
    fi
    tell "$1" "$why"
}
made=$'flashts: a new image was made\n'
image flushed
rm -f copy
flashts ship image copy t 100
ends "a ship to a copy that is missing" 0 $'shipped 1\n' "$made"
flashts export copy t
ends "its record is there" 0 $'key,c1\n1,0\n' ''
cp copy shipped
flashts ship image copy t 1000000
copy_is "the same ship again" 0 $'shipped 0\n' '' shipped
: > copy
flashts ship image copy t 1
copy_is "a ship to an empty file" 0 $'shipped 1\n' "$made" shipped
cmp -s image before
tell "the image stays as it is" "$([ $? = 0 ] || echo 'it has changed')"

# words that are none
for words in 'ship image copy t' 'ship image copy t 0' 'ship image copy t 1000001' 'ship image copy t +1' 'ship image copy t 1 1' 'ship image copy T 1' 'ship -image copy t 1' 'ship image -copy t 1' 'ship sync image copy t 1'; do
    rm -f copy
    # shellcheck disable=SC2086
    flashts $words
    copy_is "other words: '$words'" 1 '' "$usage" ''
done

# refusals, which leave both files as they are
copy12="flashts: status 12"$'\n'"flashts: the copy can't be made, read or written: look at its name, for room and for its rights, and call again"$'\n'
source11="flashts: status 11"$'\n'"flashts: the first file is no image, is missing, or can't be opened: look at its name and its rights"$'\n'
copy11="flashts: status 11"$'\n'"flashts: the copy is neither empty nor an image of the same configuration: name another file, or remove it if its making failed"$'\n'
image flushed
rm -f copy
flashts ship image copy u 1
copy_is "a ship of no such table" 14 '' "$status14" ''
flashts ship nothing copy t 1
copy_is "a ship from no file" 11 '' "$source11" ''
flashts ship . copy t 1
copy_is "a ship from a folder" 11 '' "$source11" ''
head -c 2559 flushed > short
flashts ship short copy t 1
copy_is "a ship from a file that ends early" 11 '' "$source11" ''
for name in logged blobs; do
    [ $name = logged ] || make blobs $'device 128 4\ntable t 8 i32 3 0 3 8 0 10 1 9\nmount\nput t 1 0'
    flashts ship $name copy t 1
    copy_is "a ship of a table that isn't shipped: $name" 18 '' $'flashts: status 18\nflashts: a table with variable data or a log isn\'t shipped: export it and import it\n' ''
done
for other in large short script; do
    cp "$other" copy
    flashts ship image copy t 1
    copy_is "a ship to what is no copy: $other" 11 '' "$copy11" "$other"
done
rm -f copy
for name in folder/copy . image/copy /dev/null /dev/full pipe; do
    flashts ship image "$name" t 1
    leaves "a ship to $name" 12 '' "$copy12"
done

# a gap, and no page number left
image flushed
cp flushed copy
printf '%s\nmount\nput t 2 0' "$configuration" | call run copy > out 2> err
make gone "$configuration
mount
$(seq 5 9 | sed 's/.*/put t & 0/')
flush t"
flashts ship gone copy t 9
ends "a gap" 17 '' "flashts: status 17
flashts: the image has no record with the copy's last key 1, its first one is 5
flashts: records between were reclaimed, or the copy is of another image: keep it, and begin a new one
"
flashts ship gone fresh t 9
ends "a new copy beside it" 0 $'shipped 5\n' "$made"
rm -f fresh
# (the last block of the ring is full, and its last page has the number before 2^32 - 65,536)
cp empty copy
for place in 8 9 10 11; do
    number=$((4294901748 + place))
    page=$((1024 + place * 128))
    printf "$(printf '%08x' $number | sed 's/\(..\)\(..\)\(..\)\(..\)/\\x\4\\x\3\\x\2\\x\1/')\\x01\\x00\\x00\\x00\\x01\\x00\\x00\\x00\\x00\\x00\\x00\\x00\\x0$((place - 7))\\x00\\x00\\x00\\x00\\x00\\x00\\x00\\x00\\x00\\x00\\x00" |
        dd of=copy bs=1 seek=$page conv=notrunc 2> /dev/null
    printf '\x00\x00\x00\x00' | dd of=copy bs=1 seek=$((page + 120)) conv=notrunc 2> /dev/null
done
cp copy spent
make five "$configuration
mount
$(seq 4 8 | sed 's/.*/put t & 0/')
flush t"
flashts ship five copy t 9
copy_is "a copy without page numbers left" 19 '' $'flashts: status 19\nflashts: the copy\'s table has no page number left: keep this copy, and begin a new one\n' spent

# pages that no run leaves, on either side
image flushed
byte 1024 05
rm -f copy
flashts ship image copy t 1
ends "a ship from a damaged image" 13 '' "flashts: status 13"$'\n'"flashts: no run has left what the pages of table 0 of the image, counted from 0, have: flashts check IMAGE all tells which"$'\n'"$made"
cp image copy && image flushed && cp copy damaged
flashts ship image copy t 1
copy_is "a ship to a damaged copy" 13 '' "flashts: status 13"$'\n'"flashts: no run has left what the pages of table 0 of the copy, counted from 0, have: flashts check COPY all tells which"$'\n' damaged

# repairs on both sides
image torn
cp torn copy
flashts ship image copy t 9
ends "a ship between images with torn pages" 0 $'shipped 0\n' ''
for name in image copy; do
    flashts check $name
    ends "both are repaired: $name" 0 $'sound t rows 1 pages 2 voids 1\n' ''
done

# streams that are closed or full
for which in 0 1 2 12 012; do
    image flushed
    rm -f copy
    closed ship image copy t 9
    case $which in
        0) ends "a ship with $which closed" 0 $'shipped 1\n' "$made" ;;
        2) ends "a ship with $which closed" 0 $'shipped 1\n' '' ;;
        1) ends "a ship with $which closed" 4 '' $'flashts: the replies cannot be written\nflashts: what was shipped is in the copy: call again to ship what is left\n'"$made" ;;
        *) ends "a ship with $which closed" 4 '' '' ;;
    esac
    cmp -s shipped copy
    tell "and its record is there" "$([ $? = 0 ] || echo 'the copy is another one')"
done
rm -f copy
call ship image copy t 9 > /dev/full 2> err
status=$?
: > out
ends "a ship whose line can't be written" 4 '' $'flashts: the replies cannot be written\nflashts: what was shipped is in the copy: call again to ship what is left\n'"$made"

# files that may only be read, and a copy that grows too large
if [ "$(id -u)" = 0 ] && ! setpriv --reuid=65534 --regid=65534 --clear-groups test -r image 2> /dev/null; then
    leave_out "a ship from an image that may only be read" "no other user can be had"
else
    image flushed
    mkdir open && chmod 777 open
    as_reader ship image open/copy t 9
    cp open/copy copy 2> /dev/null
    copy_is "a ship from an image that may only be read" 0 $'shipped 1\n' "$made" shipped
    chmod 644 image
    image torn
    rm -f open/copy
    as_reader ship image open/copy t 9
    ends "a ship that has to repair an image that may only be read" 12 '' "flashts: status 12"$'\n'"flashts: the image can't be read or repaired: look for room and for its rights, and call again"$'\n'"$made"
    chmod 644 image
    rm -rf open copy
    image flushed
    as_reader ship image copy t 9
    copy_is "a ship into a folder that may only be read" 12 '' "$copy12" ''
    chmod 644 image
    cp empty copy
    chmod 444 copy
    as_reader ship image copy t 9
    copy_is "a ship to a copy that may only be read" 12 '' "$copy12" empty
    chmod 644 image
    rm -f copy
fi
image flushed
rm -f copy
(ulimit -f 1; trap '' XFSZ; flashts ship image copy t 9; echo $status > ended)
status=$(cat ended)
ends "a copy that grows too large" 12 '' "$copy12"
flashts ship image copy t 9
ends "a copy that is half made" 11 '' "$copy11"
rm -f copy

# files that another program has, and the same file twice
cp empty copy
for name in image copy; do
    rm -f replies
    ./flashts run $name < lines > replies 2> /dev/null &
    holder=$!
    exec 8> lines
    printf '%s\nmount\n' "$configuration" >&8
    await $holder test -s replies
    flashts ship image copy t 9
    copy_is "another program uses the $name of a ship" 20 '' "flashts: another program uses the $name"$'\nflashts: it is left as it is; call again if that one has ended\n' empty
    exec 8>&-
    wait $holder
done
ln image hard
ln -s image soft
for name in image ./image hard soft; do
    flashts ship image $name t 9
    leaves "the same file twice: $name" 20 '' $'flashts: the copy is the image itself\nflashts: it is left as it is; name another file for the copy\n'
done
rm -f hard soft copy
