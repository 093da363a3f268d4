#!/bin/sh
# Gives the built programs hut and seal what their stored runs do not hold: inputs about as long as the limit, bytes of every
# kind, an input or output that fails, and a line whose answer has to come before the input ends: sh tools/streams.sh
cd "$(dirname "$0")/../crates" || exit 1
made=$(mktemp -d) || exit 1
trap 'rm -rf "$made"' EXIT
wrong=0
say() { echo "$program: $1" >&2; wrong=1; }

many() { head -c "$2" /dev/zero | tr '\0' "$1"; }

# expect WHAT STATUS LINES NOTE: the program on the file `in` ends with this status, writes so many lines, and on standard error
# a note with this word, or nothing where there is no word.
expect() {
    "$program/out/$program" < "$made/in" > "$made/out" 2> "$made/err"
    status=$?
    [ "$status" -eq "$2" ] || say "$1: status $status"
    [ "$(wc -l < "$made/out")" -eq "$3" ] || say "$1: $(wc -l < "$made/out") lines"
    if [ -n "$4" ]; then
        grep -q "$4" "$made/err" || say "$1: no note"
    elif [ -s "$made/err" ]; then
        say "$1: a note"
    fi
}

for program in hut seal; do
    if [ ! -x "$program/out/$program" ] && ! (cd "$program" && rt run < /dev/null > /dev/null 2>&1); then
        say "not built"
        continue
    fi
    : > "$made/in"
    expect 'no bytes' 0 0 ''
    printf 'y55v 0lqx' > "$made/in"
    expect 'no newline at the end' 0 1 ''
    many x 65535 > "$made/in"
    expect 'one byte below the limit' 0 1 ''
    many x 65536 > "$made/in"
    expect 'as many bytes as the limit' 0 1 ''
    many x 65537 > "$made/in"
    expect 'one byte above the limit' 0 1 '65536 bytes were read; more follow'
    many '\n' 65536 > "$made/in"
    expect 'as many newlines as the limit' 0 65536 ''
    many '\n' 65537 > "$made/in"
    expect 'one newline above the limit' 0 65536 '65536 bytes were read; more follow'
    { many '\n' 65530; printf 'y55v 0lqx\n'; } > "$made/in"
    expect 'a line that the limit cuts' 0 65531 '65536 bytes were read; more follow'
    head -c 60000 "$program/out/$program" > "$made/in"
    expect 'bytes of every kind' 0 "$(LC_ALL=C grep -ac '' "$made/in")" ''

    "$program/out/$program" < . > "$made/out" 2> "$made/err"
    [ $? -eq 1 ] || say 'an input that cannot be read: another status'
    grep -q 'the input could not be read' "$made/err" || say 'an input that cannot be read: no word'
    printf 'y55v 0lqx\n' | "$program/out/$program" > /dev/full 2> "$made/err"
    [ $? -eq 1 ] || say 'an output that takes nothing: another status'
    grep -q 'the output could not be written' "$made/err" || say 'an output that takes nothing: no word'

    # The input stays open until the answer is there.
    mkfifo "$made/to" "$made/from"
    "$program/out/$program" < "$made/to" > "$made/from" &
    exec 3> "$made/to" 4< "$made/from"
    printf 'y55v 0lqx\n' >&3
    [ -n "$(timeout 10 head -n 1 <&4)" ] || say 'a line is not answered before the input ends'
    exec 3>&- 4<&-
    wait
    rm "$made/to" "$made/from"
done
[ "$wrong" -eq 0 ] && echo 'streams: all as it should be'
exit "$wrong"
