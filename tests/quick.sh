#!/usr/bin/env bash
# Quick checks that prove nothing: the example dumps are those that their scripts make, the C sources compile, and the second implementation of
# the report agrees with the stored reports and with a search through all reorderings of small traces. What a machine lacks the tools for is passed over.
set -eu
cd "$(dirname "$0")/.."
work=$(mktemp -d)
trap 'rm -rf "$work"' EXIT

cmp crates/racereport/stdin examples/snapshot-900.bin
if command -v python3 >/dev/null; then
    python3 examples/snapshot.py | cmp - examples/snapshot-900.bin
    python3 examples/monitors.py | cmp - examples/monitors-60.bin
    python3 examples/walker.py | cmp - examples/walker-40.bin
fi
if command -v cc >/dev/null; then
    cc -std=c99 -pedantic -Wall -Wextra -Werror -fsyntax-only -Iinclude examples/judge.c
    cc -std=c99 -O2 -Wall -Wextra -Werror tests/reference.c -o "$work/reference"
    "$work/reference" <examples/snapshot-900.bin | cmp - crates/racereport/stdout
    "$work/reference" <examples/monitors-60.bin | cmp - tests/stored/monitors-report.txt
    "$work/reference" <examples/walker-40.bin | cmp - tests/stored/walker-report.txt
    if command -v python3 >/dev/null; then
        python3 tests/brute.py "$work/reference" 3000
    fi
fi
