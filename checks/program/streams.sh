# Standard streams that are closed or full. A job that needs one of them fails by its status, standard error is needed by none,
# and no byte of what is written to a closed stream goes into the image.

# closed WORDS..: calls the program with the streams closed that `which` names; stands for `flashts`
closed() {
    : > out
    : > err
    case $which in
        0) call "$@" > out 2> err <&- ;;
        1) call "$@" 2> err >&- ;;
        2) call "$@" > out 2>&- ;;
        01) call "$@" 2> err <&- >&- ;;
        02) call "$@" > out <&- 2>&- ;;
        12) call "$@" >&- 2>&- ;;
        012) call "$@" <&- >&- 2>&- ;;
    esac
    status=$?
}

# closed_ends WORDS INPUT NEEDS OUT: the call with each set of streams closed, which needs standard input or not
closed_ends() {
    local want text out
    for which in 0 1 2 01 02 12 012; do
        image flushed
        want=0 text='' out=$4
        case $which in *1*) want=4 text=$'flashts: the replies cannot be written\n' out= ;; esac
        case $which$3 in *0*input) want=3 text=$'flashts: the script cannot be read\n' out= ;; esac
        case $which in *2*) text= ;; esac
        # shellcheck disable=SC2086
        closed $1 <<< "$2"
        leaves "$1 with $which closed" $want "$out" "$text"
    done
}
closed_ends 'run image' "$configuration
mount
get t 1" input $'ok\nrow 1 0\n'
closed_ends 'check image' '' '' $'sound t rows 1 pages 1 voids 0\n'
closed_ends 'export image t 0 9' '' '' $'key,c1\n1,0\n'

# an import changes the image, but by its records alone
image flushed
flashts import image t <<< $'key,c1\n2,7'
cp image imported
for which in 1 2 12; do
    image flushed
    closed import image t <<< $'key,c1\n2,7'
    cp imported before
    case $which in
        1) leaves "import image t with $which closed" 4 '' $'flashts: the replies cannot be written\n'"$(taken 1 2)"$'\n' ;;
        2) leaves "import image t with $which closed" 0 $'imported 1 refused 0\n' '' ;;
        12) leaves "import image t with $which closed" 4 '' '' ;;
    esac
done
for which in 0 01 02 012; do
    image flushed
    closed import image t
    case $which in
        *2) leaves "import image t with $which closed" 3 '' '' ;;
        *) leaves "import image t with $which closed" 3 '' $'flashts: the script cannot be read\n' ;;
    esac
done
rm -f new
which=012
closed run new
tell "a run with all closed leaves a new image empty" "$(head -c 100 new 2> /dev/null)"

# full ones
image flushed
for words in 'run image' 'check image' 'export image t 0 9' 'import image t'; do
    case $words in
        run*) printf '%s\nmount\n' "$configuration" > input ;;
        *) printf 'key,c1\n1,0\n' > input ;;
    esac
    # shellcheck disable=SC2086
    call $words < input > /dev/full 2> err
    status=$?
    : > out
    told=$'flashts: the replies cannot be written\n'
    case $words in import*) told+="$(taken 0 2)"$'\n' ;; esac
    leaves "$words over a full standard output" 4 '' "$told"
done
call export image u 0 9 > out 2> /dev/full
status=$?
: > err
leaves "a full standard error changes no status" 14 '' ''
