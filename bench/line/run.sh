#!/usr/bin/env bash
# Audited moves per second on a line of 64 stations, along a sweep and from many privileges: the proved audit beside the
# same in plain Rust, with the line in two words, and beside both with the line in two arrays of truth values, as it was
# kept before; in runs that take turns, which must end alike. The timed program is proved and built as a crate of its
# own in a temporary folder, twice: the line in arrays is the last revision that had it. rustc is told of the processor
# for which rt builds. Words: how many rounds, 15 without.
set -euo pipefail
cd "$(dirname "$0")/../.."
work=$(mktemp -d)
trap 'rm -rf "$work"' EXIT
libraries='four_state sweep_auditor'
in_arrays='e9d4051^'

# The timed program over the two libraries in a folder.
build() {
    cp HANDLES "$1/"
    for library in $libraries; do
        grep -E "^$library[: ]" crates.txt >> "$1/crates.txt"
    done
    echo "line_bench: $libraries" >> "$1/crates.txt"
    mkdir -p "$1/crates/line_bench/src"
    cp bench/line/main.rt.txt "$1/crates/line_bench/src/main.rt"
    (cd "$1/crates/line_bench" && rt run -- 64 0 0 1 1 > "$work/build.log" 2>&1) || { tail "$work/build.log"; exit 1; }
}

(cd crates/sweep_auditor && rt lib > "$work/build.log" 2>&1) || { tail "$work/build.log"; exit 1; }
for library in $libraries; do
    mkdir -p "$work/words/crates/$library/out"
    cp -r "crates/$library/src" "crates/$library/specs" "crates/$library/proofs" "$work/words/crates/$library/"
    cp -r "crates/$library/out/rlib" "$work/words/crates/$library/out/"
done
build "$work/words"
mkdir "$work/arrays"
git archive "$in_arrays" crates/four_state crates/sweep_auditor | tar -x -C "$work/arrays"
build "$work/arrays"
rustc -O -C target-cpu=x86-64-v2 --edition 2021 -o "$work/plain" bench/baseline/line.rs

program=crates/line_bench/out/line_bench
python3 bench/line/measure.py "$work/plain" "$work/words/$program" "$work/arrays/$program" "${1:-15}"
