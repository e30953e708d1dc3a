#!/usr/bin/env bash
# Runs the built programs on good and bad calls, damaged dumps and input that never ends, and compares what they print and their status with what
# is expected here. Its last line is 'programs: N calls, M differ'; the exit status is 0 only if M is 0.
#
#   bash tests/programs.sh [FOLDER]    the programs are FOLDER/NAME/out/NAME; with no FOLDER crates/NAME/out/NAME, and one that is not there is
#                                      proved and built first
set -eu
cd "$(dirname "$0")/.."

folder=${1:-crates}
programs='racereport exhaustive'
for name in $programs; do
    [ $# -gt 0 ] || [ -x "crates/$name/out/$name" ] || (cd "crates/$name" && rt run -- --version >/dev/null)
done

work=$(mktemp -d)
trap 'rm -rf "$work"' EXIT
calls=0
differ=0

# Calls a program: an input, a status, what is printed, what standard error says, the program's name and its arguments.
expect() {
    local input=$1 status=$2 printed=$3 told=$4 name=$5 ended=0
    shift 5
    timeout 10 "$folder/$name/out/$name" "$@" <"$input" >"$work/printed" 2>"$work/told" || ended=$?
    calls=$((calls + 1))
    if [ "$ended" != "$status" ] || [ "$(cat "$work/printed")" != "$printed" ] || [ "$(cat "$work/told")" != "$told" ]; then
        differ=$((differ + 1))
        echo "$name $*: status $ended, where $status is expected; printed and told:"
        head -c 300 "$work/printed" "$work/told"
    fi
}

# Such a call that is refused: nothing is printed, and one line is told.
refused() {
    local input=$1 told=$2 name=$3
    shift 3
    expect "$input" 2 '' "$name: $told" "$name" "$@"
}

# the stored input
expect crates/racereport/stdin 0 "$(cat crates/racereport/stdout)" '' racereport

# what each takes, and its version; neither is an answer to an input
for name in $programs; do
    usage="$name < DUMP"
    [ $name = racereport ] || usage=$name
    help=$("$folder/$name/out/$name" --help </dev/null)
    case $help in "usage: $usage"*) ;; *) help="usage: $usage" ;; esac
    expect /dev/null 0 "$help" '' $name --help
    expect /dev/null 0 "$name 0.1.0
proved with rattle-kit-13f logic dac8208d650f15bf" '' $name --version
    refused /dev/null "it takes no argument 'dump.bin': usage: $usage" $name dump.bin
    refused /dev/null "it takes no argument '--help': usage: $usage" $name --help --version
    refused /dev/null "it takes no argument '': usage: $usage" $name ''
done

# what cannot be read or written
refused . 'Is a directory (os error 21)' racereport
if [ -w /dev/full ]; then
    ended=0
    "$folder/racereport/out/racereport" <examples/snapshot-40.bin >/dev/full 2>"$work/told" || ended=$?
    calls=$((calls + 1))
    if [ $ended != 2 ] || [ "$(cat "$work/told")" != 'racereport: No space left on device (os error 28)' ]; then
        differ=$((differ + 1))
        echo "racereport to a full device: status $ended"
    fi
fi

# refused dumps are answered; an empty one has no events
expect examples/damaged.bin 0 'refused 3 record 8' '' racereport
expect /dev/zero 0 'refused 2 record 0' '' racereport
expect <(yes) 0 'refused 2 record 0' '' racereport
expect /dev/null 0 'events 0
pairs 0' '' racereport

# a lock that its thread takes again and again: as deep as can be, once deeper, and then by another thread
printf '\3\0\5\0\7\0\0\0%.0s' $(seq 255) >"$work/deep"
{ cat "$work/deep" && printf '\3\0\5\0\7\0\0\0'; } >"$work/deeper"
{ cat "$work/deep" && printf '\3\1\5\0\7\0\0\0'; } >"$work/held"
expect "$work/deep" 0 'events 255
pairs 0' '' racereport
expect "$work/deeper" 0 'refused 13 record 255' '' racereport
expect "$work/held" 0 'refused 5 record 255' '' racereport

# writes of a thread before it spawns another, beside it, and when it has joined it
printf '\2\0\0\0\7\0\0\0\5\0\1\0\7\0\0\0\2\1\0\0\7\0\0\0\2\0\0\0\7\0\0\0\6\0\1\0\7\0\0\0\2\0\0\0\7\0\0\0' >"$work/spawned"
expect "$work/spawned" 0 'events 6
race 2 3 sites 7 7
pairs 1' '' racereport

# the checks in their order, where later ones would refuse too: no kind, no thread, no thread to be spawned, a thread that spawns itself, one that
# was spawned before, and one that was joined before, which would also spawn itself or go too deep
printf '\7\20\377\377\7\0\0\0' >"$work/kind"
printf '\5\20\377\377\7\0\0\0' >"$work/thread"
printf '\6\0\1\0\7\0\0\0\5\1\20\0\7\0\0\0' >"$work/subject"
printf '\5\3\3\0\7\0\0\0' >"$work/itself"
printf '\5\0\1\0\7\0\0\0\5\2\1\0\7\0\0\0' >"$work/twice"
printf '\6\0\1\0\7\0\0\0\5\1\1\0\7\0\0\0' >"$work/ended"
{ cat "$work/deep" && printf '\6\1\0\0\7\0\0\0\3\0\5\0\7\0\0\0'; } >"$work/ended-deep"
expect "$work/kind" 0 'refused 2 record 0' '' racereport
expect "$work/thread" 0 'refused 3 record 0' '' racereport
expect "$work/subject" 0 'refused 4 record 1' '' racereport
expect "$work/itself" 0 'refused 14 record 0' '' racereport
expect "$work/twice" 0 'refused 14 record 1' '' racereport
expect "$work/ended" 0 'refused 15 record 1' '' racereport
expect "$work/ended-deep" 0 'refused 15 record 256' '' racereport

# as many records as there is room for; a byte more, a record more, and records without end, of which none is read but those that decide
printf '\2\0\0\0\7\0\0\0%.0s' $(seq 64) >"$work/64"
for part in $(seq 64); do cat "$work/64"; done >"$work/full"
{ cat "$work/full" && printf '\2'; } >"$work/cut"
cat "$work/full" "$work/64" >"$work/more"
cat "$work/full" "$work/itself" >"$work/worse"
expect "$work/full" 0 'events 4096
pairs 0' '' racereport
expect "$work/cut" 0 'refused 1 record 4096' '' racereport
expect "$work/more" 0 'refused 7 record 4096' '' racereport
expect "$work/worse" 0 'refused 14 record 4096' '' racereport
expect <(while cat "$work/full" 2>/dev/null; do :; done) 0 'refused 7 record 4096' '' racereport
calls=$((calls + 1))
left=$({ "$folder/racereport/out/racereport" >/dev/null && wc -c; } <"$work/more")
if [ "$left" -ne $((63 * 8)) ]; then
    differ=$((differ + 1))
    echo "racereport leaves $left bytes to read of a dump that is 63 records too long"
fi

echo "programs: $calls calls, $differ differ"
[ "$differ" -eq 0 ]
