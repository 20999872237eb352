#!/bin/sh
# Builds embed/out/libflashts.a: the archive of the crate fl_c, and what it takes of the toolchain (its heap over malloc, realloc
# and free), as one library. A program is then linked with it and with the C library alone.
#
# The archive is built over the libraries that the gate left in this checkout, where it did; else every crate is proved first.
here=$(cd "$(dirname "$0")/.." && pwd)
kit=$(dirname "$(dirname "$(readlink -f "$(command -v rt)")")")
log=$(mktemp) || exit 1
trap 'rm -f "$log"' EXIT

# over_gate: builds the archive over the libraries that `rt ci` left
over_gate() {
    set -- --crate-name fl_c src/lib.rt --crate-type staticlib --toolchain "$kit/toolchain" --links fl_c= --jobs 2 \
        --extern "std=$kit/rlibs/std.rlib" -L "dependency=$kit/rlibs" \
        --antt-project "$kit/rattle/logic/antt-project.json" --logic-built "$kit/logic_built"
    for name in $(sed -n 's/^fl_c staticlib: //p' "$here/crates.txt"); do
        set -- "$@" --extern "$name=$here/crates/$name/out/rlib/$name.rlib"
    done
    for library in "$here"/crates/*/out/rlib; do
        set -- "$@" -L "dependency=$library"
    done
    mkdir -p out && "$kit/bin/rattle" build "$@" -o out/libfl_c.a
}

cd "$here/crates/fl_c" || exit 1
if [ -d ../fl_session/out/rlib/fl_session.rlib ] && [ ! -f ../fl_session/out/rlib/stamp ]; then
    over_gate > "$log" 2>&1
else
    rt lib > "$log" 2>&1
fi || { cat "$log" >&2; exit 1; }

mkdir -p "$here/embed/out" && rm -f "$here/embed/out/libflashts.a" || exit 1
ar -M <<END
create $here/embed/out/libflashts.a
addlib $here/crates/fl_c/out/libfl_c.a
addlib $kit/c/liblibc_c.a
save
end
END
