# Images that are no files, or may only be read.

# refuses NAME: each job refuses the file of this name at once, for what it is
refuses() {
    for words in "run $1" "check $1" "export $1 t 0 9" "import $1 t"; do
        case $words in
            run*) printf '%s\nmount\n' "$configuration" > input ;;
            *) printf 'key,c1\n1,0\n' > input ;;
        esac
        # shellcheck disable=SC2086
        flashts $words < input
        case $words in
            run*) ends "$words" 5 '' $'flashts: the image cannot be made or read\n' ;;
            *) ends "$words" 11 '' "$status11" ;;
        esac
    done
}
mkfifo pipe
refuses pipe
ln -s pipe link
refuses link
refuses /dev/null
refuses /dev/zero
refuses .
refuses image/
for words in 'check new' 'export new t 0 9' 'import new t'; do
    rm -f new
    # shellcheck disable=SC2086
    flashts $words < /dev/null
    [ $status != 11 ] || ! [ -e new ] || status="11, but the file was made"
    ends "a missing file: $words" 11 '' "$status11"
done
ln -s new dangling
for words in 'check dangling' 'export dangling t 0 9' 'import dangling t'; do
    # shellcheck disable=SC2086
    flashts $words < /dev/null
    [ $status != 11 ] || ! [ -e new ] || status="11, but the file was made"
    ends "a link that leads nowhere: $words" 11 '' "$status11"
done

# as_reader WORDS..: calls the program as one who may not write `image`
as_reader() {
    chmod 444 image
    if [ "$(id -u)" = 0 ]; then
        setpriv --reuid=65534 --regid=65534 --clear-groups ./flashts "$@" > out 2> err
    else
        flashts "$@"
        return
    fi
    status=$?
}
image flushed
if [ "$(id -u)" = 0 ] && ! setpriv --reuid=65534 --regid=65534 --clear-groups test -r image 2> /dev/null; then
    leave_out "an image that may only be read" "no other user can be had"
else
    as_reader check image
    leaves "a check of an image that may only be read" 0 $'sound t rows 1 pages 1 voids 0\n' ''
    as_reader export image t 0 9
    leaves "an export of an image that may only be read" 0 $'key,c1\n1,0\n' ''
    as_reader import image t <<< $'key,c1\n2,0'
    leaves "an import into an image that may only be read" 11 '' "$status11"
    as_reader run image <<< "$configuration"
    leaves "a run over an image that may only be read" 5 '' $'flashts: the image cannot be made or read\n'
    chmod 644 image
    image torn
    as_reader export image t 0 9
    leaves "an export that has to repair an image that may only be read" 12 '' "$status12"
    chmod 644 image
fi
