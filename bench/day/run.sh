#!/usr/bin/env bash
# A day in threads: entries per second that three stations take from three clients beside them, and turns per second of
# 2, 4, 8 and 16 stations without clients, the proved library beside the same in plain Rust (rustc -O, standard library
# alone), in runs that take turns; and the console's `day`, turns per second and the most memory. The timed program is
# proved and built as a crate of its own in a temporary folder, the console in its own. Words: how many rounds, 7
# without, and how many runs of the console, 3 without.
set -euo pipefail
cd "$(dirname "$0")/../.."
work=$(mktemp -d)
trap 'rm -rf "$work"' EXIT
libraries='sector_device gate_journal turn_ledger four_state sweep_auditor journal_recovery turn_clerk line_lock station_desk'

(cd crates/station_desk && rt lib > "$work/build.log" 2>&1) || { tail "$work/build.log"; exit 1; }
cp HANDLES "$work/"
for library in $libraries; do
    mkdir -p "$work/crates/$library/out"
    cp -r "crates/$library/src" "crates/$library/specs" "crates/$library/proofs" "$work/crates/$library/"
    cp -r "crates/$library/out/rlib" "$work/crates/$library/out/"
    grep -E "^$library[: ]" crates.txt >> "$work/crates.txt"
done
echo "day_bench: $libraries" >> "$work/crates.txt"
program="$work/crates/day_bench"
mkdir -p "$program/src" "$program/proofs/timed"
cp bench/day/main.rt.txt "$program/src/main.rt"
cp bench/day/ghosts.antt.txt "$program/proofs/timed/Invariants.antt"
(cd "$program" && rt run -- 2 0 1 > "$work/build.log" 2>&1) || { tail "$work/build.log"; exit 1; }
rustc -O --edition 2021 -o "$work/plain" bench/baseline/day.rs
gcc -O2 -Wall -Wextra -o "$work/stopwatch" bench/turns/stopwatch.c

(cd crates/turn_console && rt run < stdin > "$work/build.log" 2>&1) || { tail "$work/build.log"; exit 1; }

python3 bench/day/measure.py "$work/plain" "$program/out/day_bench" "${1:-7}"
python3 bench/day/console.py "$work/stopwatch" crates/turn_console/out/turn_console "$work" "${2:-3}"
