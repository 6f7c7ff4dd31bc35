#!/usr/bin/env bash
# Opens a ledger of which some bytes were changed from outside, and compares what the program prints. The ledger has 4
# slots in each bank, 55 sectors, and one deposit of 500 to account 1, of station 0. One line for each row, and status 1
# at the first difference. Word: the program that was built.
set -euo pipefail
program=$(realpath "${1:?the word is the program that was built}")
work=$(mktemp -d)
trap 'rm -rf "$work"' EXIT
cd "$work"

# Each row has what is printed, and then changes: a sector, a byte of it, and what is written there in hexadecimal.
rows() {
    local ones
    ones=$(printf '%01024d' 0 | tr 0 f)
    cat << TABLE
refused Unformatted: 0:0:00000000
refused Version 9: 0:4:0009
refused Version 9: 0:4:0009 0:6:01
refused Unformatted: 0:6:01
refused Unformatted: 0:511:01
refused Size: 0:8:0000000000000005
refused Size: 0:8:0000000000000000
refused Damaged 0 Bank: 1:0:00
refused Damaged 0 Bank: 2:0:00
refused Damaged 0 Bank: 2:4:01
refused Damaged 1 Bank: 28:0:a5
refused Damaged 0 Bank: 2:8:0000000000000003 28:0:a5 29:0:544c424b 29:8:0000000000000003
refused Damaged 0 Bank: 3:0:$ones
refused Damaged 0 Bank: 3:0:0de0b6b3a76400000de0b6b3a7640000
refused Damaged 0 Bank: 19:128:01
refused Damaged 0 Header: 20:0:00
refused Damaged 0 Header: 20:4:0040
refused Damaged 0 Header: 20:6:0010
refused Damaged 0 Header: 20:6:0010 20:8:0000000000000007
refused Damaged 0 Sequence: 20:8:0000000000000007
refused Damaged 0 Sequence: 20:8:ff
refused Damaged 0 Sequence: 2:16:ffffffffffffffff 20:8:ffffffffffffffff
refused Damaged 1 Tail: 21:0:00 23:0:a5
refused Damaged 0 Entry 0: 20:32:09
refused Damaged 0 Verdict 0: 20:32:0200000000000001000000000000000000000000000000050000000000000003
opened 2 next 0 total 0: 21:0:00
opened 2 next 1 total 500: 21:1:77 28:1:77 29:0:77 22:0:77
TABLE
}

printf 'format 4\nopen 2 00 10\npost 0 deposit 1 500\nturn 0\n' | "$program" --device sound --sectors 55 > /dev/null
while IFS= read -r row; do
    wanted=${row%%: *} changes=${row#*: }
    cp sound changed
    for change in $changes; do
        IFS=: read -r sector byte bytes <<< "$change"
        printf '%b' "$(sed 's/../\\x&/g' <<< "$bytes")" \
            | dd of=changed bs=1 seek=$((sector * 512 + byte)) conv=notrunc status=none
    done
    cp changed kept
    printed=$(printf 'open 2 00 10\n' | "$program" --device changed --sectors 55)
    [ "$printed" = "$wanted" ] || { echo "${changes:0:60}: prints $printed and not $wanted"; exit 1; }
    cmp kept changed || { echo "${changes:0:60}: the file was changed"; exit 1; }
    echo "${changes:0:60}: $wanted"
done < <(rows)
