#!/usr/bin/env bash
# An office with 1, 3 and 8 counters: postings that are acknowledged a second and the time from a posting to its answer,
# where each client has 64 under way and where it waits for each answer, beside the floor in C for batches (two writes
# and two syncs each) on the same disk, and SQLite with one writer and with three processes where that is there (package
# libsqlite3-dev); and the most memory of a long run. The clients are one process in C. It proves and builds the program
# in its own folder, or takes the one that DERBYFIG names. Words: how many rounds, 7 without, and how many postings the
# long run has, 2000000 without. Rounds are at least 2.
set -euo pipefail
cd "$(dirname "$0")/../.."
work=$(mktemp -d "${BENCH_FOLDER:-/var/tmp}/counters.XXXXXX")
trap 'kill $(jobs -p) 2> /dev/null || true; rm -rf "$work"' EXIT

program=${DERBYFIG:-}
if [ -z "$program" ]; then
    (cd crates/derbyfig && rt run -- --help > "$work/build.log" 2>&1) || { tail "$work/build.log"; exit 1; }
    program=crates/derbyfig/out/derbyfig
fi
cp "$program" "$work/office"
gcc -O2 -Wall -Wextra -o "$work/clients" bench/counters/clients.c
gcc -O2 -Wall -Wextra -o "$work/floor" bench/baseline/floor.c
if [ -e /usr/include/sqlite3.h ]; then
    gcc -O2 -Wall -Wextra -o "$work/sqlite" bench/baseline/sqlite.c -lsqlite3
else
    echo "skipped: SQLite isn't on this machine"
fi
PYTHONDONTWRITEBYTECODE=1 python3 bench/counters/measure.py "$work" "${1:-7}" "${2:-2000000}"
