#!/bin/sh
# checks/embed.sh PROGRAM: the library for C. It is built, its header and its exports are compared, and each example's script is run
# by a program in C: replies, image and status have to be those of `flashts run`. Then a logger in C loses power, and finds again
# what it flushed; and Python calls the library.
cd "$(dirname "$0")/.." || exit 1
program=$1
command -v cc > /dev/null || { echo "embed: there is no cc, so the library for C isn't tried"; exit 1; }
embed/build.sh || exit 1
folder=$(mktemp -d) || exit 1
trap 'rm -rf "$folder"' EXIT
status=0
fail() {
    echo "embed: $*"
    status=1
}

for name in run logger; do
    cc -std=c11 -O2 -Wall -Wextra -Werror -Iembed -o "$folder/$name" examples/embed/$name.c embed/out/libflashts.a || exit 1
done
cc -shared -o "$folder/libflashts.so" -Wl,--whole-archive embed/out/libflashts.a -Wl,--no-whole-archive || exit 1

nm -g --defined-only crates/fl_c/out/libfl_c.a | awk '$2 == "T" && $3 ~ /^flashts_/ { print $3 }' | sort > "$folder/exports"
grep -o '^uint32_t flashts_[a-z_]*' embed/flashts.h | cut -d ' ' -f 2 | sort | cmp - "$folder/exports" || fail "the header declares other calls than the library has"

count=0
for script in examples/*/*.script; do
    rm -f "$folder"/*.image
    $program run "$folder/program.image" < "$script" > "$folder/program.out" 2> /dev/null
    wanted=$?
    "$folder/run" "$folder/library.image" < "$script" > "$folder/library.out"
    found=$?
    [ $found = $wanted ] || fail "$script: status $found, and $wanted by the program"
    cmp "$folder/program.out" "$folder/library.out" || fail "$script: other replies"
    cmp "$folder/program.image" "$folder/library.image" || fail "$script: another image"
    count=$((count + 1))
done

"$folder/logger" > "$folder/shown" || fail "the logger ends with $?"
[ "$(grep -c '^row ' "$folder/shown")" = 96 ] || fail "the logger finds $(tail -n 1 "$folder/shown"), and 96 rows were flushed"

script=examples/tour/first.script
python3 examples/embed/run.py "$folder/libflashts.so" < $script | cmp - "${script%.script}.expect" || fail "Python has other replies"

[ $status = 0 ] && echo "the library for C answers as the program does over $count scripts, finds what was flushed, and can be called from Python"
exit $status
