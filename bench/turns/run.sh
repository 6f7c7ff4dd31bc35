#!/usr/bin/env bash
# Turns in memory, durable batches on a file, and the opening of a long file: the proved console beside the same
# console in plain Rust, once with the history that the proved one keeps, floors in C, one read of the file, and SQLite
# where that is there (package libsqlite3-dev). It proves and builds the console in its own folder. What the proved and
# the plain programs print, and the files that they leave, have to be equal. Words: how many rounds, 7 without.
set -euo pipefail
cd "$(dirname "$0")/../.."
work=$(mktemp -d "${BENCH_FOLDER:-/var/tmp}/turns.XXXXXX")
trap 'rm -rf "$work"' EXIT

(cd crates/turn_console && rt run < stdin > "$work/build.log" 2>&1) || { tail "$work/build.log"; exit 1; }
cp crates/turn_console/out/turn_console "$work/proved"
rustc -O --edition 2021 -o "$work/plain" bench/baseline/console.rs
rustc -O --edition 2021 --cfg keeps_history -o "$work/plain_with_history" bench/baseline/console.rs
for program in baseline/floor baseline/opening_floor baseline/read_once turns/stopwatch; do
    gcc -O2 -Wall -Wextra -o "$work/$(basename "$program")" "bench/$program.c"
done
if [ -e /usr/include/sqlite3.h ]; then
    gcc -O2 -Wall -Wextra -o "$work/sqlite" bench/baseline/sqlite.c -lsqlite3
fi
python3 bench/turns/measure.py "$work" "${1:-7}"
