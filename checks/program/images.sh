# The images that rows begin with, each made by a run: `flushed` has the record 1 with 0, `torn` has one page that a cut left torn,
# `logged` has the records 1 and 2 with 0 in the log of its table alone, `large` has room for some 30,000 records.
configuration='device 128 4
table t 8 i32 3 0 0 8 0 10 1 0'

# make NAME LINES: runs the lines over a new image of this name
make() {
    printf '%s\n' "$2" | call run "$1" > out 2> err || tell "the image $1 is made" "$(cat err)"
}

# image NAME: a copy of this image as `image` and as `before`
image() {
    cp "$1" image && cp "$1" before
}

# byte AT HEX: changes one byte of `image`
byte() {
    printf "\\x$2" | dd of=image bs=1 seek="$1" conv=notrunc 2> /dev/null
}

make empty "$configuration
mount"
make flushed "$configuration
mount
put t 1 0
flush t"
make torn "$configuration
mount
put t 1 0
flush t
put t 2 0
cut 1 half
flush t"
make logged "$configuration rlc 3
mount
put t 1 0
put t 2 0"
make large 'device 512 16
table t 8 i32 60 0 0 8 0 10 1 0
mount'

# what standard error has of the statuses that say their number
status11="flashts: status 11"$'\n'"flashts: the file is no image, is missing, or can't be opened: look at its name and its rights"$'\n'
status12="flashts: status 12"$'\n'"flashts: the image can't be read or written: look for room and for its rights, and call again"$'\n'
status13="flashts: status 13"$'\n'"flashts: no run has left what the pages of table 0, counted from 0, have: flashts check IMAGE all tells which"$'\n'
status14="flashts: status 14"$'\n'"flashts: no table has this name: flashts check IMAGE all tells the names"$'\n'
status16="flashts: status 16"$'\n'"flashts: a table isn't sound: each line that begins with fault says which, in which ring and page, and the rule (docs/CHECK.md)"$'\n'

# what it has of other words: of those that begin with `run` its two forms, of others all forms
run_usage=$'flashts: usage: flashts run IMAGE\n                flashts run sync IMAGE\n'
usage=$run_usage
for form in 'shell IMAGE' 'shell sync IMAGE' 'plan [SECONDS]' 'check IMAGE [all]' 'map IMAGE [svg]' 'export IMAGE NAME [LOW HIGH]' 'import IMAGE NAME [gone]' 'salvage IMAGE NAME' 'ship IMAGE COPY NAME COUNT' 'help'; do
    usage+="                flashts $form"$'\n'
done

# .. and of one that another program uses
in_use=$'flashts: another program uses the image\nflashts: it is left as it is; call again if that one has ended\n'

# status15 LINE: the same of 15
status15() {
    echo "flashts: status 15"
    echo "flashts: line $1 of the input has more than 4096 bytes, or is the first and not the one that an export begins with"
    [ "$1" != 1 ] || echo "flashts: the first line has to be key and c1 to c1, joined by commas"
}

# taken ROWS LINE: how far an import came that ended early
taken() {
    echo "flashts: $1 rows were put, and line $2 was the last one that was taken"
}
