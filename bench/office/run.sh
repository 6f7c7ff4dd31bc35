#!/usr/bin/env bash
# Turns per second through an office, by one thread and by three, with 15 entries a turn, 1 and none: the proved office
# beside the same in plain Rust (rustc -O, standard library alone), in runs that take turns; what they leave must agree.
# The timed program is proved and built as a crate of its own in a temporary folder. Words: how many rounds, 7 without.
set -euo pipefail
cd "$(dirname "$0")/../.."
work=$(mktemp -d)
trap 'rm -rf "$work"' EXIT
libraries='sector_device gate_journal turn_ledger four_state sweep_auditor journal_recovery turn_clerk line_lock'

(cd crates/line_lock && rt lib > "$work/build.log" 2>&1) || { tail "$work/build.log"; exit 1; }
cp HANDLES "$work/"
for library in $libraries; do
    mkdir -p "$work/crates/$library/out"
    cp -r "crates/$library/src" "crates/$library/specs" "crates/$library/proofs" "$work/crates/$library/"
    cp -r "crates/$library/out/rlib" "$work/crates/$library/out/"
    grep -E "^$library[: ]" crates.txt >> "$work/crates.txt"
done
echo "office_bench: $libraries" >> "$work/crates.txt"
program="$work/crates/office_bench"
mkdir -p "$program/src" "$program/proofs/timed" "$program/proofs/by_three"
cp bench/office/main.rt.txt "$program/src/main.rt"
cp bench/office/ghosts.antt.txt "$program/proofs/timed/Invariants.antt"
cp bench/office/sharing.antt.txt "$program/proofs/by_three/Answers.antt"
(cd "$program" && rt run -- 1 0 1 > "$work/build.log" 2>&1) || { tail "$work/build.log"; exit 1; }
rustc -O --edition 2021 -o "$work/plain" bench/baseline/office.rs

python3 bench/office/measure.py "$work/plain" "$program/out/office_bench" "${1:-7}"
