#!/bin/sh
# memory.sh PROGRAM: what the program does where memory isn't given, and how much it takes. Each call that takes memory is
# refused in turn, over each script of examples/: the status is 9 then, no reply was written, and the image isn't made or is
# empty. Then it configures the largest tables and says how many bytes they took beside the image. It wants a C compiler, and is
# no part of the gate.
[ $# = 1 ] || { echo "usage: memory.sh PROGRAM"; exit 2; }
program=$1
here=$(cd "$(dirname "$0")" && pwd)
folder=$(mktemp -d) || exit 1
trap 'rm -rf "$folder"' EXIT
cc -O2 -shared -fPIC -o "$folder/refuse.so" "$here/refuse.c" -ldl || exit 1
status=0

# run NUMBER SCRIPT: the NUMBER-th call is refused; the status of the program, and in `told` the calls and the most bytes
run() {
    rm -f "$folder/image"
    REFUSE=$1 LD_PRELOAD="$folder/refuse.so" "$program" run "$folder/image" < "$2" > "$folder/replies" 2> "$folder/error" 9> "$folder/told"
}

for script in "$here"/../examples/*/*.script; do
    run 0 "$script" || { echo "$script: status $?"; status=1; }
    read -r calls _ < "$folder/told"
    number=1
    while [ $number -le "$calls" ]; do
        run $number "$script"
        [ $? = 9 ] && ! [ -s "$folder/replies" ] && ! [ -s "$folder/image" ] || { echo "$script: call $number of $calls"; status=1; }
        number=$((number + 1))
    done
done
[ $status = 0 ] && echo "where a call for memory is refused, nothing is written"

# 65,536 pages of 1,024 bytes: data pages take 2 bytes of memory each, index pages 8; variable data takes a page buffer a table
largest() {
    echo "device 1024 4"
    for name in a b c d; do echo "table $name 8 i64,i64,i64 $1 $2 $3 64 0 1 255 $4"; done
}
for rings in "4092 4 0 0" "3 4093 0 0" "3 4089 4 100"; do
    # shellcheck disable=SC2086
    largest $rings > "$folder/largest.script"
    echo mount >> "$folder/largest.script"
    run 0 "$folder/largest.script" || { echo "the largest configuration: status $?"; status=1; }
    read -r calls most < "$folder/told"
    echo "four tables of $rings (blocks for data, index and variable data, longest blob): $calls calls for memory, $most bytes at most"
done
exit $status
