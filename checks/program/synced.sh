# Runs whose writes are synced.
lines="$configuration"$'\nmount\nput t 2 2\nflush t\nget t 2\nmount\nget t 2'
rm -f new.img
flashts run sync new.img <<< "$configuration"$'\nmount\nput t 1 0\nflush t'
ends "a synced run over a new image" 0 $'ok\nok\nok\n' $'flashts: a new image was made\n'
cmp -s new.img flushed
tell "its image is that of a run" "$([ $? = 0 ] || echo 'it is another one')"
rm -f new.img
flashts run sync new.img <<< 'device 128 4'
ends "a synced run without a whole configuration" 6 '' $'flashts: the configuration is incomplete\nflashts: a script begins with a device line and one to four table lines\n'
tell "and no file is left" "$(ls new.img 2> /dev/null)"
cp flushed sync
flashts run sync <<< "$configuration"$'\nmount\nget t 1'
ends "an image with the name sync" 0 $'ok\nrow 1 0\n' ''
flashts run sync sync image <<< "$configuration"
ends "a word more behind sync" 1 '' "$run_usage"

# synced STRACE..: a synced run of the lines over `image`, whose calls stand in `calls`
synced() {
    strace -o calls "$@" ./flashts run sync image <<< "$lines" > out 2> err
    status=$?
}

# when a write counts as done
image flushed
if synced -e trace=fdatasync,pwrite64,write && grep -q '^fdatasync(' calls; then
    called=$(grep -o '^[a-z0-9]*(' calls | tr -d '\n')
    tell "a body is synced before its mark, and that before its ok" "$([ "$called" = 'pwrite64(fdatasync(pwrite64(fdatasync(write(' ] || echo "$called")"
    number=1
    for found in none 'row 2 2'; do
        image flushed
        synced -e trace=fdatasync -e inject=fdatasync:error=EIO:when=$number
        ends "sync $number fails" 0 $'ok\nok\ndevice fault\nnot mounted\nok\n'"$found"$'\n' ''
        number=$((number + 1))
    done
    rm -f image
    synced -e trace=fdatasync -e inject=fdatasync:error=EIO:when=1
    ends "a sync fails while the image is made" 5 '' $'flashts: the image cannot be made or read\n'
else
    leave_out "synced writes" "strace can't be used here"
fi
