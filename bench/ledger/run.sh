#!/usr/bin/env bash
# Posts per second, and screened batches of 15 entries per second, of the ledger and of the same
# ledger in plain Rust (rustc -O, standard library alone): the best of several runs that take turns,
# on the same entries, spread over 64 accounts and over all 1,024. Both print how many entries had a
# yes and the total, which must agree.
set -euo pipefail
cd "$(dirname "$0")/../.."
work=$(mktemp -d)
trap 'rm -rf "$work"' EXIT

mkdir -p "$work/crates"
cp HANDLES "$work/"
cp -r crates/turn_ledger "$work/crates/"
mkdir "$work/crates/ledger_bench"
mkdir "$work/crates/ledger_bench/src"
cp bench/ledger/main.rt.txt "$work/crates/ledger_bench/src/main.rt"
grep '^turn_ledger:' crates.txt > "$work/crates.txt"
echo 'ledger_bench: turn_ledger' >> "$work/crates.txt"
(cd "$work/crates/ledger_bench" && rt run -- 64 > "$work/build.log" 2>&1) || { tail "$work/build.log"; exit 1; }
rustc -O --edition 2021 -o "$work/plain" bench/baseline/ledger.rs

# The ratios of the best runs, by lines of the plain and of the proved program.
ratios() {
    awk '
    { key = $1 " " $2; answer[$2] = answer[$2] ? answer[$2] : $3 " " $4 }
    answer[$2] != $3 " " $4 { print "the answers differ: " $0; failed = 1; exit 1 }
    !(key in best) || $5 < best[key] { best[key] = $5 }
    END {
        if (failed) exit 1
        count["post"] = 4096 * 5000; count["screen"] = 4082 * 250
        for (what in count)
            printf "%s: %.1f million a second, plain Rust %.1f, ratio %.2f\n", what,
                count[what] * 1000 / best["proved " what], count[what] * 1000 / best["plain " what],
                best["plain " what] / best["proved " what]
    }'
}

for accounts in 64 1024; do
    echo "entries spread over $accounts accounts:"
    for _ in 1 2 3 4 5 6 7; do
        "$work/plain" "$accounts" | sed 's/^/plain /'
        "$work/crates/ledger_bench/out/ledger_bench" "$accounts" | sed 's/^/proved /'
    done | ratios
done
