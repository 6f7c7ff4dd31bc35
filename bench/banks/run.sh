#!/usr/bin/env bash
# Turns on a file with banks of 1, 4, 64, 1,024 and 10,000 slots, and what a checkpoint takes: the proved console beside
# the same console in plain Rust and a floor in C with the same writes and syncs; and the opening of a file whose banks
# have 100,000 slots, beside one read of its live bank. It proves and builds the console in its own folder. Words: how
# many rounds, 7 without.
set -euo pipefail
cd "$(dirname "$0")/../.."
work=$(mktemp -d "${BENCH_FOLDER:-/var/tmp}/banks.XXXXXX")
trap 'rm -rf "$work"' EXIT

(cd crates/turn_console && rt run < stdin > "$work/build.log" 2>&1) || { tail "$work/build.log"; exit 1; }
cp crates/turn_console/out/turn_console "$work/proved"
rustc -O --edition 2021 -o "$work/plain" bench/baseline/console.rs
for program in baseline/banks_floor baseline/read_once turns/stopwatch; do
    gcc -O2 -Wall -Wextra -o "$work/$(basename "$program")" "bench/$program.c"
done
PYTHONPATH=bench/turns python3 bench/banks/measure.py "$work" "${1:-7}"
