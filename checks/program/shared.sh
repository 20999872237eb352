# Several programs over one image, and programs that are killed.
# await NUMBER COMMAND..: waits until the command holds, or the program with this number has ended
await() {
    local number=$1
    shift
    until "$@" || ! kill -0 "$number" 2> /dev/null; do sleep 0.01; done
}

# has_changed: whether `image` isn't as it was in `before`
has_changed() {
    ! cmp -s before image
}

# refused_as_used WHAT: each job leaves an image that is in use, and says so
refused_as_used() {
    for words in 'run image' 'check image' 'export image t 0 9' 'import image t'; do
        # shellcheck disable=SC2086
        flashts $words <<< $'key,c1\n2,0'
        leaves "$1: $words" 20 '' "$in_use"
    done
}
image flushed
mkfifo lines
./flashts run image < lines > replies 2> /dev/null &
holder=$!
exec 8> lines
printf '%s\nmount\n' "$configuration" >&8
await $holder test -s replies
refused_as_used "a run has the image"
kill -9 $holder
wait $holder 2> /dev/null
exec 8>&-
flashts check image
leaves "a run that is killed has it no more" 0 $'sound t rows 1 pages 1 voids 0\n' ''

rm -f replies
./flashts import image t < lines > replies 2> /dev/null &
holder=$!
exec 8> lines
printf 'key,c1\nx,7\n2,7\n' >&8
await $holder test -s replies
refused_as_used "an import has the image"
exec 8>&-
wait $holder
status=$?
cp replies out
: > err
ends "the import is done nevertheless" 0 $'line 2 number 1\nimported 1 refused 1\n' ''
flashts export image t 0 9
ends "and its record is there" 0 $'key,c1\n1,0\n2,7\n' ''

if command -v flock > /dev/null; then
    image flushed
    exec 8< image
    flock -s 8
    flashts check image
    leaves "a check beside others that read" 0 $'sound t rows 1 pages 1 voids 0\n' ''
    flashts export image t 0 9
    leaves "an export beside others that read" 20 '' "$in_use"
    exec 8<&-
else
    leave_out "checks beside others that read" "there is no flock"
fi

# Of eight imports at once each puts all of its lines or none, and the records of all that were done are there.
for number in 1 2 3 4 5 6 7 8; do
    { echo 'key,c1'; seq "${number}001" "${number}300" | sed 's/$/,1/'; } > "input$number"
done
image large
for number in 1 2 3 4 5 6 7 8; do
    { ./flashts import image t < "input$number" > "out$number" 2> /dev/null; echo $? > "status$number"; } &
done
wait
rows=0
why=
for number in 1 2 3 4 5 6 7 8; do
    case $(cat "status$number") in
        0) rows=$((rows + $(sed -n 's/^imported \([0-9]*\) .*/\1/p' "out$number"))) ;;
        20) [ -s "out$number" ] && why="an import that was refused wrote something" ;;
        *) why="an import ended with $(cat "status$number")" ;;
    esac
done
flashts check image
[ -n "$why" ] || grep -q "^sound t rows $rows " out || why="$rows records were imported, and the check says $(cat out)"
[ -n "$why" ] || [ $rows -gt 0 ] || why="no import was done"
tell "eight imports at once" "$why"

# An import that is killed, once it has written pages, leaves a sound image with a front of the input, and the same import
# again brings the rest.
{ echo 'key,c1'; seq 1 1000 | sed 's/$/,1/'; } > input
for seconds in 0 0.002 0.01 0.05; do
    image large
    ./flashts import image t < lines > out 2> /dev/null &
    killed=$!
    exec 8> lines
    head -n 600 input >&8
    await $killed has_changed
    sleep $seconds
    kill -9 $killed
    wait $killed 2> /dev/null
    exec 8>&-
    why=
    flashts check image
    [ $status = 0 ] || why="the check says $(cat out)"
    flashts export image t 0 9999
    cmp -s -n "$(wc -c < out)" out input || why="no front of the input is there"
    flashts import image t < input
    [ $status = 0 ] || why="the import again ended with $status"
    flashts export image t 0 9999
    cmp -s out input || why="not all records are there"
    tell "an import that is killed $seconds s after its first page, and again" "$why"
done
