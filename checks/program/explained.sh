# An end that failed has one line on standard error. Below it stands the explanation, where standard error is a terminal or the
# environment has FLASHTS_EXPLAIN with a text that isn't empty. What stands there beside status 0 is the same in each case.

# told_as VALUE WORDS..: the call over `input`, to `output`, where the variable has this value, or isn't there for `none`
told_as() {
    local value=$1
    shift
    cp "$begun" image
    rm -f new
    [ -z "$copied" ] || cp "$copied" new
    (
        if [ "$value" = none ]; then unset FLASHTS_EXPLAIN; else export FLASHTS_EXPLAIN="$value"; fi
        call "$@" < "$input" > "$output" 2> err
    )
    status=$?
}

# explained STATUS LINE EXPLANATION WORDS..: how the call ends, the one line that it has, and what stands below that if it is asked for
explained() {
    local wanted=$1 line="flashts: $2"$'\n' explanation=$3 value text why=
    shift 3
    for value in none '' 1 0 no; do
        told_as "$value" "$@"
        text=$line
        case $value in none | '') ;; *) text+=$explanation ;; esac
        [ $status = "$wanted" ] || why="status $status and not $wanted"
        printf '%s' "$text" | cmp -s - err || why="with '$value' standard error has $(head -c 300 err)"
    done
    tell "one line, and its explanation: status $wanted of '$*'" "$why"
}

# unexplained STATUS OUT ERR WORDS..: what the call writes is the same with the variable and without
unexplained() {
    local wanted=$1 out=$2 err=$3 value why=
    shift 3
    for value in none '' 1; do
        told_as "$value" "$@"
        [ -n "$why" ] || why=$(differs "$wanted" "$out" "$err")
    done
    tell "no explanation is needed: status $wanted of '$*'" "$why"
}
begun=flushed copied='' output=out
printf '%s\nmount\nput t 2 0\n' "$configuration" > script
printf '%s\nmount\ngte t 1\n' "$configuration" > wrong
printf 'key,c1\n2,7\n' > rows

input=script
explained 1 'usage: flashts run IMAGE' "${run_usage#*$'\n'}" run
explained 1 'usage: flashts run IMAGE' "${usage#*$'\n'}" check
explained 1 'usage: flashts run IMAGE' "${usage#*$'\n'}"
input=wrong
explained 2 'line 4 is not a command' $'flashts: there is no command gte\n' run image
explained 2 'line 4 is not a command' $'flashts: there is no command gte\n'"$made" run new
input=.
unexplained 3 '' $'flashts: the script cannot be read\n' run image
input=script output=/dev/full
: > out
unexplained 4 '' $'flashts: the replies cannot be written\n' run image
explained 4 'the replies cannot be written' "$made" run new
explained 4 'the replies cannot be written' $'flashts: what was shipped is in the copy: call again to ship what is left\n'"$made" ship image new t 1
input=rows
explained 4 'the replies cannot be written' "$(taken 1 2)"$'\n' import image t
input=script output=out
unexplained 5 '' $'flashts: the image cannot be made or read\n' run .
echo 'device 128 4' > lines.text
input=lines.text
incomplete=$'flashts: a script begins with a device line and one to four table lines\n'
explained 6 'the configuration is incomplete' "$incomplete" run new
explained 6 'the configuration is incomplete' "$incomplete" shell new
explained 6 'the configuration is incomplete' "$incomplete" plan
printf 'device 128 4\ntable t 8 i32 4 0 0 8 0 10 1 0\n' > lines.text
explained 7 'the image has another configuration' $'flashts: line 2 of the configuration: DATA is 3 in the image and 4 in the script\n' run image
printf 'device 128 4\ntable t 8 i32 2 0 0 8 0 10 1 0\n' > lines.text
explained 6 'configuration line 2 is refused' $'flashts: DATA is 2 and has to be 3 to 16384 blocks\n' run new
{ printf '%s\n' "$configuration"; yes '# much' | head -c 65536; } > lines.text
unexplained 8 '' $'flashts: the text is longer than 65536 bytes: the first lines of a script are enough\n' plan
printf 'mount\nput t 2 5\ncut 1 before\n' > lines.text
explained 12 'the last flush failed' $'flashts: of the pending rows, 1, some may be lost: scan tells which are there\n' shell image
input=rows
explained 11 'status 11' "${status11#*$'\n'}" check nothing
explained 11 'status 11' "${status11#*$'\n'}" shell rows
explained 12 'status 12' "${copy12#*$'\n'}" ship image /dev/null t 1
explained 13 'status 13' "${status13#*$'\n'}" export damaged t 0 9
explained 14 'status 14' "${status14#*$'\n'}" export image u 0 9
explained 14 'status 14' "${status14#*$'\n'}" salvage image u
explained 16 'status 16' "${status16#*$'\n'}" check damaged
copied=flushed
explained 17 'status 17' $'flashts: the image has no record with the copy\'s last key 1, its first one is 5
flashts: records between were reclaimed, or the copy is of another image: keep it, and begin a new one\n' ship gone new t 9
copied=spent
explained 19 'status 19' $'flashts: the copy\'s table has no page number left: keep this copy, and begin a new one\n' ship five new t 9
copied=
explained 18 'status 18' $'flashts: a table with variable data or a log isn\'t shipped: export it and import it\n' ship logged new t 1
explained 20 'the copy is the image itself' $'flashts: it is left as it is; name another file for the copy\n' ship image image t 1
input=script
text=$(status15 1)$'\n'
explained 15 'status 15' "${text#*$'\n'}" import image t

# beside status 0
unexplained 0 $'ok\nok\n' $'flashts: rows that no flush has written: t 1\nflashts: a new image was made\n' run new
printf 'mount\nput t 2 0\n' > lines.text
input=lines.text
unexplained 0 $'ok\nok\n' $'flashts: pending rows flushed: 1\n' shell image
input=rows
unexplained 0 $'imported 1 refused 0\n' $'flashts: the table holds 2 rows\n' import image t
unexplained 0 $'key,c1\n1,0\n' $'flashts: pages passed over: missing 0, torn 0, void 0, misplaced 0, unformed 0\n' salvage image t
unexplained 0 $'shipped 1\n' "$made" ship image new t 1

# on a terminal
image flushed
for words in 'export image u 0 9' 'check nothing' 'import'; do
    case $words in
        export*) wanted=14 text=$status14 ;;
        check*) wanted=11 text=$status11 ;;
        *) wanted=1 text=$usage ;;
    esac
    # shellcheck disable=SC2086
    env -u FLASHTS_EXPLAIN python3 "$here/terminal.py" out ./flashts $words < /dev/null > err
    status=$?
    ends "an explanation on a terminal: $words" $wanted '' "$text"
done
