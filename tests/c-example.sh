#!/usr/bin/env bash
# Builds examples/judge.c against the header and the static library, asks it about example dumps, small traces and damaged dumps, and compares
# what it says with what is expected here. Its last line is 'c example: N answers, M differ'; the exit status is 0 only if M is 0.
#
#   bash tests/c-example.sh               run it
#   RUN='valgrind ..' bash tests/c-example.sh   the same, each run of the example under another program
set -eu
cd "$(dirname "$0")/.."

archive=crates/host/out/libhost.a
if [ ! -f "$archive" ] || [ -n "$(find crates crates.txt -name out -prune -o -newer "$archive" -type f -print -quit)" ]; then
    (cd crates/host && ${RT:-rt} lib)
fi

work=$(mktemp -d)
trap 'rm -rf "$work"' EXIT
cc -std=c99 -O2 -pedantic -Wall -Wextra -Werror -Iinclude examples/judge.c "$archive" -o "$work/judge"

# as the header says, of the C library it needs memset alone
needed=$(nm -u "$archive" | sed -n 's/^ *U //p')
if [ "$needed" != memset ]; then
    echo "the archive needs from outside:" $needed
    exit 1
fi

# Writes the records of some events to a file. An event is its thread, a letter and its subject: r reads a variable, w writes one, a acquires a
# lock, z releases one, s spawns a thread, j joins one. Any other letter becomes the kind 9.
dump() {
    local file=$work/$1 event thread letter subject kind
    shift
    : >"$file"
    for event in "$@"; do
        thread=${event%%[a-z]*}
        subject=${event##*[a-z]}
        letter=${event#"$thread"}
        letter=${letter%"$subject"}
        case $letter in r) kind=1 ;; w) kind=2 ;; a) kind=3 ;; z) kind=4 ;; s) kind=5 ;; j) kind=6 ;; *) kind=9 ;; esac
        printf '%b' "$(printf '\\x%02x' "$kind" "$thread" $((subject % 256)) $((subject / 256)) 7 0 0 0)" >>"$file"
    done
}

answers=0
differ=0
# What the example says of a dump and two positions.
expect() {
    local file=$1 p=$2 q=$3 said status=0
    shift 3
    [ -f "$file" ] || file=$work/$file
    said=$(${RUN:-} "$work/judge" "$file" "$p" "$q") || status=$?
    answers=$((answers + 1))
    if [ "$said" != "$*" ] || [ "$status" -gt 1 ]; then
        differ=$((differ + 1))
        echo "$(basename "$file") $p $q: said '$said' with status $status, expected '$*'"
    fi
}

short='refused 1: the length is no multiple of 8'
kind='refused 2: a record has no known kind'
thread="refused 3: a record's thread is above its limit"
subject="refused 4: a record's variable, lock or named thread is above its limit"
past='refused 15: a thread has an event after it was joined'
start='refused 14: a thread names itself, or spawns one that is not new'
held='refused 5: a lock is acquired that another thread holds'
deep='refused 13: a lock would be held more than 255 deep'
holder='refused 6: a lock is released by a thread that does not hold it'
full='refused 7: there are more records than the table holds'
event='refused 8: there is no event at a position'
order='refused 9: the first position is not below the second'
conflict='refused 10: the two events do not conflict'

# two writes, and between them each thread takes and gives back one lock
expect examples/two-sections.bin 0 5 race
expect examples/two-sections.bin 5 0 "$order"
expect examples/two-sections.bin 0 1 "$conflict"
expect examples/two-sections.bin 1 3 "$conflict"
expect examples/two-sections.bin 0 6 "$event"
expect examples/two-sections.bin 18446744073709551615 18446744073709551615 "$event"

# a write, a read and a write by three threads
expect examples/three-threads.bin 0 1 race
expect examples/three-threads.bin 0 2 race
expect examples/three-threads.bin 1 2 race
expect examples/three-threads.bin 0 3 "$event"
expect examples/three-threads.bin 3 0 "$event"
expect examples/three-threads.bin 2 2 "$order"

# of its forty events, thread 2 writes variable 2 at 23 and 34, and thread 1 reads it at 39
expect examples/snapshot-40.bin 23 39 race
expect examples/snapshot-40.bin 34 39 race
expect examples/snapshot-40.bin 23 34 "$conflict"
expect examples/snapshot-40.bin 39 40 "$event"

# a record whose thread is 200
expect examples/damaged.bin 0 1 "$thread"

# a write behind an inner release, which is in its section still
expect examples/inner-section.bin 3 5 race
expect examples/inner-section.bin 3 7 'no race'

# writes of a thread before it spawns another, beside it, and when it has awaited it
expect examples/spawned-worker.bin 0 2 'no race'
expect examples/spawned-worker.bin 2 3 race
expect examples/spawned-worker.bin 2 6 'no race'
expect examples/spawned-worker.bin 1 2 "$conflict"

# two writes under one lock
dump locked 0a0 0w0 0z0 1a0 1w0 1z0
expect locked 1 4 'no race'

# a read of what the other thread wrote last keeps the writes around it apart
dump read 0w0 0w1 1r1 1w0
expect read 0 3 'no race'
expect read 1 2 race

# a read brings in an acquire, that a release, and that another read
dump chain 0w0 0w1 1a0 1w2 1r1 1z0 2r2 2a0 2w0
expect chain 0 8 'no race'
expect chain 3 6 race

# a write under a lock and one without, whether or not the lock is released later
dump open 0a0 0w0 1w0
expect open 1 2 race
dump released 0a0 0w0 1w0 0z0
expect released 1 2 race

# no bytes at all, which the example passes as NULL
dump none
expect none 0 1 "$event"

# seventeen bytes; nine, of which the first record is damaged too
dump two 0w0 1w0
printf 'x' >>"$work/two"
expect two 0 1 "$short"
dump one 99w0
printf 'x' >>"$work/one"
expect one 0 1 "$short"

# limits of records, each just below and just above
dump last 15w1023 14w1023 15a199 15z199
expect last 0 1 race
dump kind 0w0 99q5000
expect kind 0 1 "$kind"
dump thread 0w0 16w5000
expect thread 0 1 "$thread"
dump variable 0w0 1w1024
expect variable 0 1 "$subject"
dump lock 0w0 1z200
expect lock 0 1 "$subject"
dump taken 0w0 1a200
expect taken 0 1 "$subject"

dump spawned 0w0 1w0 0s16
expect spawned 0 1 "$subject"
dump joined 0w0 1w0 0j16
expect joined 0 1 "$subject"

# threads that are started or awaited, and those that cannot be
dump ties 0w0 1w0 0s2 2w1 0j2 1j2 0j15
expect ties 0 1 race
dump itself 0w0 1w0 1j1
expect itself 0 1 "$start"
dump begun 0w0 1w0 0s1
expect begun 0 1 "$start"
dump twice 0w0 1w0 0s2 1s2
expect twice 0 1 "$start"
dump ended 0w0 1w0 0j1 1s1
expect ended 0 1 "$past"

# locks that another thread holds, that the thread holds itself, as deep as can be and deeper, and locks that no thread holds
dump held 0w0 1w0 0a5 1a5
expect held 0 1 "$held"
dump inside 0w0 1w0 0a5 0a5 0z5 1a5
expect inside 0 1 "$held"
dump again 0w0 1w0 0a5 0a5
expect again 0 1 race
dump deepest 0w0 1w0 $(printf '0a5 %.0s' {1..255})
expect deepest 0 1 race
dump deep 0w0 1w0 $(printf '0a5 %.0s' {1..256})
expect deep 0 1 "$deep"
dump other 0w0 1w0 0a5 1z5
expect other 0 1 "$holder"
dump free 0w0 1w0 1z5
expect free 0 1 "$holder"
dump freed 0w0 1w0 0a5 0a5 0z5 0z5 0z5
expect freed 0 1 "$holder"

# 1,024 records, and one more; the checks of that one come first
dump full 0w0 $(printf '1w%d ' $(seq 0 1022))
expect full 0 1 race
expect full 0 1023 "$conflict"
expect full 0 1024 "$event"
cp "$work/full" "$work/more"
cat examples/three-threads.bin >>"$work/more"
expect more 0 1 "$full"
cp "$work/full" "$work/worse"
printf '%b' '\x04\x00\x00\x00\x00\x00\x00\x00' >>"$work/worse"
expect worse 0 1 "$holder"

echo "c example: $answers answers, $differ differ"
[ "$differ" -eq 0 ]
