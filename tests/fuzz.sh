#!/usr/bin/env bash
# Compares racereport and the C entry with the reference on many made dumps, after the reference itself has been
# compared with a search through all reorderings. Options go to fuzz.py. A program or an archive that is not
# named there is proved and built first, which takes no time where nothing has changed.
set -eu
cd "$(dirname "$0")/.."
case " $*" in *" --racereport"*) ;; *) (cd crates/racereport && rt run <stdin >/dev/null) ;; esac
case " $*" in *" --archive"*) ;; *) (cd crates/host && rt lib) ;; esac
mkdir -p target/fuzz
cc -std=c99 -O2 -Wall -Wextra -Werror -o target/fuzz/reference tests/reference.c
python3 tests/brute.py target/fuzz/reference 5000
exec python3 tests/fuzz.py "$@"
