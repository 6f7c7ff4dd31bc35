#!/usr/bin/env bash
# Offices of eight counters with an archive beside offices without, on banks of 64 to 5,000 slots; and a book of many
# batches, listed beside sqlite3 over as many rows. The clients are one process in C. It proves and builds the program in
# its own folder, or takes the one that DERBYFIG names. Needed: gcc and sqlite3. Words: how many rounds, 5 without, and how
# many batches the book has, 1000000 without. Rounds are at least 2.
set -euo pipefail
cd "$(dirname "$0")/../.."
work=$(mktemp -d "${BENCH_FOLDER:-/var/tmp}/archive.XXXXXX")
trap 'kill $(jobs -p) 2> /dev/null || true; rm -rf "$work"' EXIT

program=${DERBYFIG:-}
if [ -z "$program" ]; then
    (cd crates/derbyfig && rt run -- --help > "$work/build.log" 2>&1) || { tail "$work/build.log"; exit 1; }
    program=crates/derbyfig/out/derbyfig
fi
cp "$program" "$work/office"
gcc -O2 -Wall -Wextra -o "$work/clients" bench/counters/clients.c
PYTHONDONTWRITEBYTECODE=1 python3 bench/archive/measure.py "$work" "${1:-5}" "${2:-1000000}"
