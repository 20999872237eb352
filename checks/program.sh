#!/bin/bash
# program.sh PROGRAM: tries the built program from outside, where no proof looks: what it writes and ends with, what becomes of
# the image if its streams are closed or full, if others use it or it is killed, and what it does with files that are none. Each row is
# one line, and the last line counts them. It ends with 1 if a row doesn't hold. The rows stand in program/.
[ $# = 1 ] && [ -x "$1" ] || { echo "usage: program.sh PROGRAM"; exit 2; }
here=$(cd "$(dirname "$0")" && pwd)/program
folder=$(mktemp -d) || exit 1
trap 'rm -rf "$folder"' EXIT
# a copy, which another user may run too
chmod 755 "$folder" && cp "$1" "$folder/flashts" && chmod 755 "$folder/flashts" && cd "$folder" || exit 1

# rows look at explanations too; those of explained.sh are about what stands there without this
export FLASHTS_EXPLAIN=1

. "$here/rows.sh"
. "$here/images.sh"
. "$here/statuses.sh"
. "$here/jobs.sh"
. "$here/streams.sh"
. "$here/plan.sh"
. "$here/shell.sh"
. "$here/forged.sh"
. "$here/files.sh"
. "$here/shared.sh"
. "$here/synced.sh"
. "$here/ships.sh"
. "$here/explained.sh"

echo "program: $held rows hold, $missed don't, $left_out left out"
[ $missed = 0 ]
