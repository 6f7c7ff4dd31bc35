#!/usr/bin/env bash
# Types the commands of docs/RECOVERY.md, each behind the mishap that it is for, and looks at what is left. Word: the built
# derbyfig. Needed beside the toolchain: nothing.
set -euo pipefail
program=$(realpath "${1:?the word is the built derbyfig}")
cd "$(dirname "$0")/.."
top=$PWD page=$PWD/docs/RECOVERY.md client=$PWD/clients/counter
work=$(mktemp -d "${BENCH_FOLDER:-/var/tmp}/recovery.XXXXXX")
trap 'kill $(jobs -p) 2> /dev/null || true; rm -rf "$work"' EXIT
mkdir "$work/path"
ln -s "$program" "$work/path/derbyfig"
ln -s "$client" "$work/path/derbyfig-counter"
PATH=$work/path:$PATH
fail() { echo "recovery: $1" >&2; exit 1; }

# The commands of the page, by their number.
commands() {
    awk -v wanted="$1" '/^```sh$/ { count++; within = 1; next } /^```$/ { within = 0 } within && count == wanted' "$page"
}
blocks=$(grep -c '^```sh$' "$page")
run() { bash -euc "$(commands "$1")" > printed 2> told; }

# A ledger of eight postings of one counter, four of which the archive has, and then a copy.
new_office() {
    cd "$work" && mkdir "$1" && cd "$1" && mkdir books copies north && mkfifo north/in north/out
    printf 'deposit 1 10 %d\n' 1 2 3 4 | post --format 10 --archive books
    printf '%s\n' 'deposit 1 10 5' 'deposit 1 10 6' copy 'deposit 1 10 7' 'deposit 1 10 8' | post --copies copies
}
post() { derbyfig serve office.ledger --terminal "$@" > /dev/null; }
holds() { derbyfig balances "$1" --as csv | grep -q "^1,$2," || fail "$1 has $(derbyfig balances "$1" --as csv | tail -n 1)"; }
damage() { printf 'x' | dd of="$1" bs=1 seek=3 conv=notrunc status=none; }

new_office archived
damage office.ledger
run 1 && grep -q '^restored 1000$' printed || fail "restoring ends with $(cat printed told)"
holds office.ledger 40
printf 'deposit 1 10 100\n' | { sed '1i first 100' | post --archive books; }
holds office.ledger 50

new_office copied
damage office.ledger
run 2 && holds office.ledger 60

new_office gap
derbyfig archive office.ledger books > /dev/null
damage "books/$(ls books | grep -E '^[0-9]{20}$' | head -n 1)"
run 3 && grep -q '^total 80$' printed || fail "a new folder ends with $(cat printed told)"

new_office unknown
derbyfig archive office.ledger books > /dev/null
printf '70\ndeposit 1 10 71\n' > north.state
run 4 && ! grep -q ',71,' printed || fail "the journal says $(cat printed told)"
derbyfig serve office.ledger --counters-anew --counter north > /dev/null &
for _ in $(seq 3000); do derbyfig status north > /dev/null 2>&1 && break || sleep 0.02; done
status=0
derbyfig-counter -s north.state north > printed 2> told || status=$?
[ "$status" -eq 4 ] || fail "a counter that is unknown is told $status, $(cat printed told)"
derbyfig-counter -f -s north.state north
derbyfig-counter -s north.state north deposit 1 10 > printed
grep -qx 'posted [0-9]* 71' printed || fail "behind that it is told $(cat printed)"
derbyfig close north > /dev/null
wait
holds office.ledger 90
# the day's export of FILES, of an open office and of a closed one, and killed at any moment
page=$work/export.md
sed -n "/^\*\*A day's export/,/^Each day gets/p" "$top/docs/FILES.md" > "$page"
new_office exported
derbyfig serve office.ledger --archive books --counter north > /dev/null &
for _ in $(seq 3000); do derbyfig status north > /dev/null 2>&1 && break || sleep 0.02; done
run 1 && derbyfig-counter -s north.state north deposit 1 10 > /dev/null && run 1 || fail "an export ends with $(cat told)"
derbyfig close north > /dev/null
wait
printf 'deposit 1 10 200\n' | post
for milliseconds in 005 010 020 030 050; do
    (timeout -s KILL "0.$milliseconds" bash -euc "$(commands 1)" || true) > /dev/null 2>&1
done
run 1 || fail "an export of a closed ledger ends with $(cat told)"
cat $(ls ./*.journal | sort -n -t / -k 2) | grep -c '^    account:1 ' > printed
[ "$(cat printed)" -eq 10 ] || fail "the exports have $(cat printed) postings, and 10 were made"
[ "$blocks" -eq 4 ] || fail "the page has $blocks parts with commands, and 4 are typed"
echo "each mishap of docs/RECOVERY.md: as it has to be"
