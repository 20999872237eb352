# A row, and the call of the program that it looks at.
held=0
missed=0
left_out=0

# call WORDS..: calls the program, which has 100 seconds
call() {
    timeout 100 ./flashts "$@"
}

# flashts WORDS..: calls it over this standard input; what it wrote is in `out` and `err` then, its status in `status`
flashts() {
    call "$@" > out 2> err
    status=$?
}

# tell WHAT WHY: ends a row, which holds if WHY is empty
tell() {
    if [ -z "$2" ]; then
        held=$((held + 1))
        echo "holds: $1"
    else
        missed=$((missed + 1))
        echo "MISSED: $1: $2"
    fi
}

# leave_out WHAT WHY: a row that can't be tried here
leave_out() {
    left_out=$((left_out + 1))
    echo "left out: $1: $2"
}

# differs STATUS OUT ERR: what of the last call is otherwise; nothing if all is as wanted
differs() {
    if [ "$status" != "$1" ]; then
        echo "status $status and not $1, $(head -c 200 err)"
    elif ! printf '%s' "$2" | cmp -s - out; then
        echo "standard output has $(head -c 200 out)"
    elif ! printf '%s' "$3" | cmp -s - err; then
        echo "standard error has $(head -c 200 err)"
    fi
}

# ends WHAT STATUS OUT ERR: the last call ended and wrote so
ends() {
    tell "$1" "$(differs "$2" "$3" "$4")"
}

# leaves WHAT STATUS OUT ERR: it did, and `image` is as it was in `before`
leaves() {
    local why
    why=$(differs "$2" "$3" "$4")
    [ -n "$why" ] || cmp -s before image || why="the image has changed"
    tell "$1" "$why"
}
