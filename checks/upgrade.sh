#!/usr/bin/env bash
# Upgrades files of layouts 1 and 2, which are written here byte by byte, with the program, and runs scripts on what
# they were copied to; and looks at each line by which it refuses to. One line for each, and status 1 at the first
# difference. Word: the program that was built.
set -euo pipefail
program=$(realpath "${1:?the word is the program that was built}")
cd "$(dirname "$0")/.."
examples=$PWD/examples
work=$(mktemp -d)
trap 'rm -rf "$work"' EXIT
cd "$work"

# Writes these bytes, in hexadecimal, at the beginning of a sector of a file.
put() {
    local file=$1 sector=$2
    shift 2
    printf '%b' "$(printf %s "$@" | sed 's/../\\x&/g')" | dd of="$file" bs=512 seek="$sector" conv=notrunc status=none
}

# A file of layout 1 with four slots, of which the first holds a deposit of 500 to account 1.
first_layout() {
    truncate -s $((9 * 512)) "$1"
    put "$1" 0 544c4447 0001 0000 0000000000000004
    put "$1" 1 544c4231 0000 0001 0000000000000000 0000000000000000 0000000000000000 \
        01000000 00000000 00000001 00000000 00000000000001f4 0000000000000003
    put "$1" 2 a5
}

# One of layout 2 with one slot in each bank. The second bank is live, with 5 in account 1, and holds a deposit of 5
# more.
second_layout() {
    truncate -s $((11 * 512)) "$1"
    put "$1" 0 544c4447 0002 0000 0000000000000001
    put "$1" 1 a5
    put "$1" 2 544c424b 00000000 0000000000000000 0000000000000000
    put "$1" 6 a5
    put "$1" 7 544c424b 00000000 0000000000000001 0000000000000001
    put "$1" 8 0000000000000005
    put "$1" 9 544c4231 0001 0001 0000000000000001 0000000000000000 0000000000000000 \
        01000000 00000000 00000001 00000000 0000000000000005 0000000000000001
    put "$1" 10 a5
}

# A run of the program with the words behind the second one, which is its name: its status, its output, which is that of
# a file, and what it tells on its errors.
run() {
    local wanted=$1 name=$2 script=$3 printed=$4 told=$5 status=0
    shift 5
    "$program" "$@" < "$script" > printed 2> told || status=$?
    diff "$printed" printed || { echo "$name: prints something else"; exit 1; }
    [ "$(cat told)" = "$told" ] || { echo "$name: tells $(cat told)"; exit 1; }
    [ "$status" -eq "$wanted" ] || { echo "$name: ends with status $status"; exit 1; }
    echo "$name: as it must be"
}

: > nothing
first_layout first
cp first kept
run 0 "a file of layout 1" "$examples/upgrade" "$examples/upgrade.out" "" --migrate first --device new --slots 4
cmp first kept || { echo "the older file was changed"; exit 1; }
# the first bank: its gate open, its head with epoch 0 and base 1, and its first balances
found=$(od -A n -v -t x1 -j 512 -N 1040 new | tr -d ' \n')
wanted=$(printf %s a5 "$(printf '%01022d' 0)" 544c424b 00000000 0000000000000000 0000000000000001 \
    "$(printf '%0976d' 0)" 00000000000001f4 0000000000000000)
[ "$found" = "$wanted" ] || { echo "the new file's first bank begins with $found"; exit 1; }
printf 'open 2 00 10\nbalances\n' > look
printf 'opened 2 next 2 total 700\naccount 1 600\naccount 65 100\ntotal 700\n' > looked
run 0 "the new file in a second run" look looked "" --device new

second_layout second
printf 'migrated 1\nopened 2 next 2 total 10\naccount 1 10\ntotal 10\n' > looked
run 0 "a file of layout 2" look looked "" --migrate second --device newer --slots 1

# Nothing is written over, by a second run or by two paths in the wrong place, and no older file grows.
for words in "first new" "first newer" "new first" "new second"; do
    read -r old device <<< "$words"
    cp "$device" before
    run 1 "NotEmpty, $words" nothing nothing "migrate refused NotEmpty" --migrate "$old" --device "$device" --slots 1
    cmp before "$device" || { echo "$device was changed"; exit 1; }
done

run 1 "TooSmall" nothing nothing "migrate refused TooSmall" --migrate first --device small --sectors 54 --slots 4
run 1 "a missing file" nothing nothing "migrate refused Source Unformatted" --migrate missing --device other --slots 1
[ -e missing ] && [ ! -s missing ] || { echo "a missing older file isn't made empty"; exit 1; }
run 1 "a present file" nothing nothing "migrate refused Source Version 3" --migrate new --device other --slots 1
cp second bad
put bad 9 544c4231 0001 0001 0000000000000001 0000000000000000 0000000000000000 \
    04000000 00000001 00000000 00000000 0000000000000000 0000000000000001
run 1 "a seal of layout 2" nothing nothing "migrate refused Source Damaged 0 Entry 0" --migrate bad --device other --slots 1
put bad 9 544c4231 0001 0001 0000000000000001 0000000000000000 0000000000000000 \
    01000000 00000000 00000041 00000000 0000000000000005 0000000000000001
run 1 "account 65 of layout 2" nothing nothing "migrate refused Source Damaged 0 Verdict 0" --migrate bad --device other \
    --slots 1
printf 'open 2 00 10\n' > opening
printf 'refused Version 1\n' > refused
run 0 "a file of layout 1, as it is" opening refused "" --device first
cmp first kept || { echo "an older file was changed by a script"; exit 1; }
truncate -s 511 short
run 1 "a file of broken sectors" nothing nothing "device failed" --device short
run 1 "no folder" nothing nothing "device failed" --migrate none/old --device never --slots 1
[ ! -e never ] || { echo "a new file is made where the older one can't be opened"; exit 1; }
ln first first_too
run 1 "one file by two names" nothing nothing "device failed" --migrate first --device first_too --slots 1

run 2 "no device" nothing nothing "--migrate needs --device and --slots" --migrate first --slots 1
run 2 "no slots" nothing nothing "--migrate needs --device and --slots" --migrate first --device other
run 2 "slots alone" nothing nothing "--slots needs --migrate" --device other --slots 1
run 2 "one path" nothing nothing "--migrate needs another path" --migrate first --device first --slots 1
