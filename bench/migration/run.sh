#!/usr/bin/env bash
# The upgrade of a file of layout 2 whose live bank of 100,000 slots is full: the proved program beside plain Rust with
# the same calls of both files, and beside the opening of as long a file and the format of a new one. It proves and
# builds the console in its own folder. What both new files hold has to be equal, and what the older one held. Words:
# how many rounds, 7 without.
set -euo pipefail
cd "$(dirname "$0")/../.."
work=$(mktemp -d "${BENCH_FOLDER:-/var/tmp}/migration.XXXXXX")
trap 'rm -rf "$work"' EXIT

(cd crates/turn_console && rt run < stdin > "$work/build.log" 2>&1) || { tail "$work/build.log"; exit 1; }
cp crates/turn_console/out/turn_console "$work/proved"
rustc -O --edition 2021 -o "$work/plain_migrate" bench/baseline/migrate.rs
gcc -O2 -Wall -Wextra -o "$work/stopwatch" bench/turns/stopwatch.c
PYTHONPATH=bench/turns python3 bench/migration/measure.py "$work" "${1:-7}"
