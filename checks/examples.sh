#!/usr/bin/env bash
# Runs each example, and compares what it prints with the file NAME.out beside it, and of two scripts the bytes of their
# first record: one line for each, and status 1 at the first difference. Word: the program that was built.
set -euo pipefail
program=$(realpath "${1:?the word is the program that was built}")
cd "$(dirname "$0")/.."
work=$(mktemp -d)
trap 'rm -rf "$work"' EXIT

# Runs the example NAME, the first word, with the other words as those of the program.
example() {
    local name=$1
    shift
    if ! "$program" "$@" < "examples/$name" > "$work/printed" 2> "$work/told" || [ -s "$work/told" ]; then
        echo "$name: the program failed"
        cat "$work/printed" "$work/told"
        exit 1
    fi
    diff "examples/$name.out" "$work/printed" || { echo "$name: prints something else than examples/$name.out"; exit 1; }
    echo "$name: prints examples/$name.out"
}

# The first record of a file, in sector 20, begins with these bytes.
record() {
    local file=$1 wanted found
    shift
    wanted=$(printf %s "$@")
    found=$(od -A n -v -t x1 -j $((20 * 512)) -N $((${#wanted} / 2)) "$work/$file" | tr -d ' \n')
    [ "$found" = "$wanted" ] || { echo "$file: its first record begins with $found"; exit 1; }
    echo "$file: its first record has the bytes that it must have"
}

example first_day --device "$work/ledger" --sectors 55
example second_day --device "$work/ledger" --sectors 55
bash examples/damage.sh "$work/ledger" $((20 * 512))
example damaged_file --device "$work/ledger"
example full_bank
example healing
example two_stations
example three_stations
example sealed --device "$work/sealed"
"$program" --device "$work/batch" --sectors 55 < checks/scripts/a_batch_of_three_kinds > /dev/null
# of station 0, with two entries: the deposit of line 3, and the transfer of line 5
record batch 544c4231 0000 0002 0000000000000000 0000000000000000 0000000000000000 \
    01000000 00000000 00000001 00000000 0000000000000064 0000000000000003 \
    03000000 00000001 00000002 00000000 0000000000000028 0000000000000005
# of station 0, with two entries: the deposit of line 3, and the seal of line 4
record sealed 544c4231 0000 0002 0000000000000000 0000000000000000 0000000000000000 \
    01000000 00000000 00000001 00000000 000000000000000a 0000000000000003 \
    04000000 00000001 00000000 00000000 0000000000000000 0000000000000004
