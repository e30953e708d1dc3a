#!/usr/bin/env bash
# Calls the built command, each of its commands with good and bad input, from files and from pipes, and compares what it prints, what it says on
# standard error and its status with what is expected here. Its last line is 'command: N calls, M differ'; the exit status is 0 only if M is 0.
#
#   bash tests/command.sh [PROGRAM]    with no PROGRAM it is the command of this checkout, built first where it is missing
set -eu
cd "$(dirname "$0")/.."

program=${1:-crates/lenogneiss/out/lenogneiss}
[ $# -gt 0 ] || ./lenogneiss --version >/dev/null

work=$(mktemp -d)
trap 'rm -rf "$work"' EXIT
calls=0
differ=0

# Runs the command on an input and keeps what it prints, what it says and its status.
run() {
    local input=$1
    shift
    ended=0
    timeout 60 "$program" "$@" <"$input" >"$work/printed" 2>"$work/told" || ended=$?
    calls=$((calls + 1))
}

# Tells that the last call differs, and from what.
differs() {
    differ=$((differ + 1))
    echo "$1"
    head -c 400 "$work/printed" "$work/told"
}

# A call: its input, the status, what it prints and what it says, and its words.
expect() {
    local input=$1 status=$2 printed=$3 told=$4
    shift 4
    run "$input" "$@"
    if [ "$ended" != "$status" ] || [ "$(cat "$work/printed")" != "$printed" ] || [ "$(cat "$work/told")" != "$told" ]; then
        differs "$*: status $ended, where $status is expected; printed '$printed' and told '$told' are; it gave:"
    fi
}

# A call that prints nothing, and whose first line on standard error is this.
wrong() {
    local input=$1 told=$2
    shift 2
    run "$input" "$@"
    if [ "$ended" != 2 ] || [ -s "$work/printed" ] || [ "$(head -n 1 "$work/told")" != "$told" ]; then
        differs "$*: status $ended, where 2 and '$told' are expected; it gave:"
    fi
}

# Writes the records of some events to a file. An event is its thread, a letter and its subject: r reads a variable, w writes one, a acquires a
# lock, z releases one, s spawns a thread, j joins one. Any other letter becomes the kind 9.
dump() {
    local file=$work/$1 event thread letter subject kind
    shift
    : >"$file"
    for event in "$@"; do
        thread=${event%%[a-z]*}
        subject=${event##*[a-z]}
        letter=${event#"$thread"}
        letter=${letter%"$subject"}
        case $letter in r) kind=1 ;; w) kind=2 ;; a) kind=3 ;; z) kind=4 ;; s) kind=5 ;; j) kind=6 ;; *) kind=9 ;; esac
        printf '%b' "$(printf '\\x%02x' "$kind" "$thread" $((subject % 256)) $((subject / 256)) 7 0 0 0)" >>"$file"
    done
}

snapshot=examples/snapshot-900.bin
sections=examples/two-sections.bin
damaged=examples/damaged.bin
monitors=examples/monitors-60.bin
inner=examples/inner-section.bin
walker=examples/walker-40.bin
spawned=examples/spawned-worker.bin
none=/dev/null

# what it takes: each help is an answer, and the first fits a screen
for words in '' report list judge witness partners ask script; do
    run $none $words --help
    if [ "$ended" != 0 ] || [ -s "$work/told" ] || ! grep -q '^Usage: lenogneiss' "$work/printed"; then
        differs "$words --help: status $ended; it gave:"
    fi
    if [ "$(wc -l <"$work/printed")" -gt 24 ] || grep -qE '.{81}' "$work/printed"; then
        differs "$words --help does not fit a screen:"
    fi
done

# its version: that of the C header, and the toolchain that proves it
number() { sed -n "s/^#define LENOGNEISS_VERSION_$1 //p" include/lenogneiss.h; }
version="lenogneiss $(number MAJOR).$(number MINOR).$(number PATCH)"
proved="proved with $(sed -n 's/^    \(rattle-kit-.*\)/\1/p' README.md)"
expect $none 0 "$version
$proved" '' --version

# the report: from a file, from the standard input and from a pipe, always the same
report=$(cat crates/racereport/stdout)
expect $none 0 "$report" '' report $snapshot
expect $snapshot 0 "$report" '' report
expect $snapshot 0 "$report" '' report -
expect <(cat $snapshot) 0 "$report" '' report
expect $none 0 "$report" '' report <(cat $snapshot)
expect $none 0 'events 0
pairs 0' '' report
expect $none 1 "$report" '' report --exit-code $snapshot
expect $none 0 'events 0
pairs 0' '' report --exit-code
expect $none 0 "$(cat tests/stored/monitors-report.txt)" '' report $monitors
expect $none 0 "$(cat tests/stored/walker-report.txt)" '' report $walker
words='refused 3 record 8: thread 200 is not below 16'
expect $none 0 'refused 3 record 8' "$words" report $damaged
expect $none 2 'refused 3 record 8' "$words" report --exit-code $damaged

# of a dump that never ends no more is read than decides
expect /dev/zero 0 'refused 2 record 0: there is no kind 0' '' list
full=$(printf '2w0 %.0s' {1..4096})
dump full $full
dump more $full 3w0
expect "$work/full" 0 'events 4096
pairs 0' '' report
expect <(while cat "$work/full"; do :; done 2>/dev/null) 0 'refused 7 record 4096: there is room for 4096 events' '' judge 0 1
expect "$work/more" 2 'refused 7 record 4096' 'refused 7 record 4096: there is room for 4096 events' report --exit-code

# the listing
listing=$(cat tests/stored/list.txt)
expect examples/snapshot-40.bin 0 "$listing" '' list
expect $none 0 "$listing" '' list examples/snapshot-40.bin
expect $none 0 'events 0' '' list --exit-code
expect $none 0 "$(cat tests/stored/monitors-list.txt)" '' list $monitors
expect $none 0 "$(cat tests/stored/walker-list.txt)" '' list $walker
expect $none 0 '0 thread 0 writes variable 0 site 10
1 thread 0 spawns thread 1 site 20
2 thread 1 writes variable 0 site 30
3 thread 0 writes variable 0 site 40
4 thread 1 writes variable 1 site 50
5 thread 0 joins thread 1 site 60
6 thread 0 writes variable 0 site 70
events 7' '' list $spawned

# an inner acquire or release has its depth, to the deepest
expect $inner 0 '0 thread 0 acquires lock 0 site 10
1 thread 0 acquires lock 0 at depth 2 site 20
2 thread 0 releases lock 0 at depth 2 site 30
3 thread 0 writes variable 0 site 40
4 thread 0 releases lock 0 site 50
5 thread 1 writes variable 0 site 60
6 thread 1 acquires lock 0 site 70
7 thread 1 writes variable 0 site 80
events 8' '' list
deepest=$(printf '0a5 %.0s' {1..255})
dump deepest $deepest 0z5
expect "$work/deepest" 0 "0 thread 0 acquires lock 5 site 7
$(for depth in {2..255}; do echo "$((depth - 1)) thread 0 acquires lock 5 at depth $depth site 7"; done)
255 thread 0 releases lock 5 at depth 255 site 7
events 256" '' list
expect $none 2 "$words" '' list --exit-code $damaged

# verdicts and witnesses
expect $none 0 race '' judge 0 5 $sections
expect $sections 1 race '' judge --exit-code 0 5
expect $none 1 race '' judge 0 5 $sections --exit-code
expect $none 0 'witness 2
thread 1 up to and with event 4
positions 3 4' '' witness 0 5 $sections
expect $sections 1 'witness 2
thread 1 up to and with event 4
positions 3 4' '' witness --exit-code 0 5
expect $inner 0 race '' judge 3 5
expect $inner 0 'witness 3
thread 0 up to and with event 2
positions 0 1 2' '' witness 3 5
expect $inner 0 'no race' '' judge 3 7
expect $inner 0 'refused 11: events 3 and 7 do not race' '' witness 3 7
expect $spawned 0 'no race' '' judge 0 2
expect $spawned 0 race '' judge 2 3
expect $spawned 0 'witness 2
thread 0 up to and with event 1
positions 0 1' '' witness 2 3
expect $spawned 0 'no race' '' judge 2 6
expect $spawned 0 'refused 10: events 1 and 2 are not a write and another access of one variable by different threads' '' judge 1 2
dump locked 0a0 0w0 0z0 1a0 1w0 1z0
expect "$work/locked" 0 'no race' '' judge 1 4
expect "$work/locked" 0 'no race' '' judge --exit-code 1 4
expect "$work/locked" 0 'refused 11: events 1 and 4 do not race' '' witness --exit-code 1 4
expect examples/three-threads.bin 0 'witness 0
positions' '' witness 0 2
expect examples/three-threads.bin 0 'partners 2
positions 0 1' '' partners 2
expect $none 1 'partners 1
positions 0' '' partners --exit-code 5 $sections
expect $none 0 'partners 0
positions' '' partners --exit-code 3 $sections
expect $none 2 "$words" '' witness 0 1 --exit-code $damaged
expect $none 0 "$words" '' partners 0 $damaged

# the numbers of a witness are those of its positions: each thread's last one
"$program" list $snapshot | awk '{ print $1, $3 }' >"$work/threads"
while read -r _ p q _; do
    run $none witness "$p" "$q" $snapshot
    runs=$(awk 'FNR == NR { of[$1] = $2; next }
        $1 == "positions" { for (i = 2; i <= NF; i++) last[of[$i]] = $i
            for (h = 0; h < 16; h++) if (h in last) print "thread", h, "up to and with event", last[h] }' "$work/threads" "$work/printed")
    count=$(awk '$1 == "positions" { print NF - 1 }' "$work/printed")
    if [ "$ended" != 0 ] || [ "$(grep '^thread' "$work/printed")" != "$runs" ] || [ "$(head -n 1 "$work/printed")" != "witness $count" ]; then
        differs "witness $p $q: other numbers are expected, $runs; it gave:"
    fi
done < <(grep '^race' crates/racereport/stdout | awk 'NR % 40 == 1')

# questions that are refused, in words
expect $none 0 'refused 8: there are 6 events, counted from 0' '' judge 0 6 $sections
expect $none 2 'refused 8: there are 6 events, counted from 0' '' judge --exit-code 6 0 $sections
expect $none 0 'refused 8: there are 6 events, counted from 0' '' witness 18446744073709551615 0 $sections
expect $none 2 'refused 8: there are 6 events, counted from 0' '' partners 6 $sections --exit-code
expect $none 0 'refused 9: event 5 is not before event 0' '' judge 5 0 $sections
expect $none 0 'refused 10: events 1 and 3 are not a write and another access of one variable by different threads' '' witness 1 3 $sections

# records that are refused, in words; the first that is wrong decides
refused() {
    local printed=$1 name=$2
    expect "$work/$name" 0 "$printed" '' judge 0 1
    expect "$work/$name" 2 "${printed%%:*}" "$printed" report --exit-code
}
dump short 0w0 1w0
printf 'abcde' >>"$work/short"
refused 'refused 1 record 2: 5 bytes, where a record has 8' short
dump kind 0w0 99q5000
refused 'refused 2 record 1: there is no kind 9' kind
dump thread 0w0 16w5000
refused 'refused 3 record 1: thread 16 is not below 16' thread
dump variable 0w0 1r1024
refused 'refused 4 record 1: variable 1024 is not below 1024' variable
dump lock 0w0 1z200
refused 'refused 4 record 1: lock 200 is not below 200' lock
dump last 0w0 1a199
expect "$work/last" 0 'events 2
pairs 0' '' report
dump started 0w0 1w0 0s16
refused 'refused 4 record 2: spawned thread 16 is not below 16' started
dump awaited 0w0 1w0 0j256
refused 'refused 4 record 2: joined thread 256 is not below 16' awaited
dump held 0w0 1w0 0a5 1a5
refused 'refused 5 record 3: acquires lock 5, which another thread holds' held
dump deep 0w0 1w0 $deepest 0a5
refused 'refused 13 record 257: acquires lock 5, which thread 0 would hold more than 255 deep' deep
dump other 0w0 1w0 0a5 1z5
refused 'refused 6 record 3: releases lock 5, which thread 1 does not hold' other
own='thread 1 cannot spawn or join itself'
dump itself 0w0 1w0 1s1
refused "refused 14 record 2: $own" itself
dump itself 0w0 1w0 1j1
refused "refused 14 record 2: $own" itself
known='which has events, or was spawned or joined before'
dump begun 0w0 1w0 0s1
refused "refused 14 record 2: spawns thread 1, $known" begun
dump twice 0w0 1w0 0s2 1s2
refused "refused 14 record 3: spawns thread 2, $known" twice
dump before 0w0 1w0 0j2 1s2
refused "refused 14 record 3: spawns thread 2, $known" before
past='thread 1 was joined by an earlier event'
dump joined 0w0 1w0 0j1 1s1
refused "refused 15 record 3: $past" joined
dump joined 0w0 1w0 0a5 0j1 1a5
refused "refused 15 record 4: $past" joined
dump tied 0s1 0j1 2j1 0j15 1w0
refused "refused 15 record 4: $past" tied
dump tied 0s1 0j1 2j1 0j15
expect "$work/tied" 0 'events 4
pairs 0' '' report

# the questions about orders
expect tests/stored/ask.bin 0 "$(cat tests/stored/ask.txt)" '' ask $(cat tests/stored/ask.args)
expect $none 0 "$(cat tests/stored/ask.txt)" '' ask $(cat tests/stored/ask.args) --dump tests/stored/ask.bin
expect $none 0 "$(cat tests/stored/ask.txt)" '' ask -d tests/stored/ask.bin $(cat tests/stored/ask.args)
expect $sections 0 'unordered refused 9
schedulable refused 9
vet refused 9' '' ask 5 0
expect $sections 2 'unordered refused 8
schedulable refused 8
vet refused 8' '' ask --exit-code 5 6 1
expect $none 0 "$words" '' ask 0 1 --dump $damaged
expect $inner 0 'unordered yes
schedulable yes
vet yes' '' ask 3 5 0 1 2
expect $inner 0 'unordered no
schedulable no
vet no' '' ask 3 7 0 1 2 5 6
expect $spawned 0 'unordered yes
schedulable yes
vet yes' '' ask 2 3 0 1
expect $spawned 0 'unordered no
schedulable no
vet no' '' ask 2 6 0 1 3 5

# scripts: each reply stands below the words of its call, and the replies are those of the run
run tests/stored/script.txt script
if [ "$ended" != 0 ] || [ -s "$work/told" ] || ! grep -v '^> ' "$work/printed" | cmp -s - tests/stored/replies.txt; then
    differs "script: status $ended, where 0 and the stored replies are expected; it gave:"
fi
if ! grep '^> ' "$work/printed" | cut -c 3- | cmp -s - <(grep -vE '^ *(#|$)' tests/stored/script.txt); then
    differs 'script: the words of the calls are expected; it gave:'
fi
printf '  # a comment\n\n  load @%s\njudge 0 5\n' $sections >"$work/script"
said="> load @$sections
load 6
> judge 0 5
judge race"
expect "$work/script" 0 "$said" '' script
expect "$work/script" 0 "$said" '' script -
expect $none 0 "$said" '' script "$work/script"
expect $none 0 '' '' script
script() {
    printf '%b' "$1" >"$work/script"
    wrong $none "error: $2" script "$work/script"
}
script 'judge 0 1 2\n' "line 1: there is a word too many, '2'"
script 'sweep 1\njudge 0\n' 'line 2: a number is missing'
script 'judges 0 1\n' "line 1: there is no call 'judges'"
script '# judge\njudge 0 x1\n' "line 2: 'x1' is no number: invalid digit found in string"
script 'enter 02 100\n' "line 1: '100' is no byte: number too large to fit in target type"
script 'sweep 99999999999\n' 'line 1: a buffer of 99999999999 places is refused, since 8386560 are enough for every answer'
script 'load @nosuch\n' 'line 1: cannot read nosuch: No such file or directory (os error 2)'
script 'load @/dev/zero\n' 'line 1: /dev/zero has more than 524280 bytes'
script 'load @a b\n' "line 1: there is a word too many, 'b'"
printf 'judge \377\n' >"$work/script"
wrong $none "error: $work/script is no text" script "$work/script"

# wrong calls: the word that is wrong is named
wrong $none "error: unrecognized subcommand 'reports'" reports
wrong $none "error: unexpected argument '--all' found" report --all
wrong $none "error: unexpected argument 'b' found" report a b
wrong $none 'error: the following required arguments were not provided:' judge 1
wrong $none 'error: the following required arguments were not provided:' partners
wrong $none "error: P is 'x1', and a position is wanted: a number from 0 on" judge x1 2
wrong $none "error: Q is '-1', and a position is wanted: a number from 0 on" judge 1 -1
wrong $none "error: Q is '', and a position is wanted: a number from 0 on" witness 1 ''
wrong $none "error: Q is '18446744073709551616', and a position is wanted: a number from 0 on" partners 18446744073709551616
wrong $none "error: POSITION is '65536', and a position is wanted: a number from 0 to 65535" ask 1 2 3 65536
wrong $none "error: POSITION is 'dump.bin', and a position is wanted: a number from 0 to 65535" ask 1 2 dump.bin
run $none
if [ "$ended" != 2 ] || [ -s "$work/printed" ] || ! grep -q '^Usage: lenogneiss' "$work/told"; then
    differs "no words: status $ended, where 2 and what it takes are expected; it gave:"
fi

# what cannot be read or written
wrong $none 'error: cannot read nosuch: No such file or directory (os error 2)' report nosuch
wrong $none 'error: cannot read tests: Is a directory (os error 21)' list tests
wrong $none 'error: cannot read nosuch: No such file or directory (os error 2)' script nosuch
for words in report list 'judge 0 5' 'partners 5' --version; do
    ended=0
    calls=$((calls + 1))
    : >"$work/printed"
    "$program" $words <$sections >/dev/full 2>"$work/told" || ended=$?
    if [ "$ended" = 0 ] || ! grep -q 'No space left on device' "$work/told"; then
        differs "$words on a full device: status $ended; it gave:"
    fi
done

echo "command: $calls calls, $differ differ"
[ "$differ" -eq 0 ]
