#!/usr/bin/env bash
# Runs derbyfig serve for counters of real pipes, and looks at what each is told and at what derbyfig then finds in the
# file: every kind of request and answer, counters that hang up, that never listen, that never end a line and that close
# at once, what isn't opened, a device that fails, an office that waits, a terminal, and kill -9 at random moments of
# many postings, where each posting that a client was told of has to be in the file once, and nothing that wasn't asked.
# Lets an office of three slots keep an archive and make copies, amid such kills. Gives it folders that can't be used and
# an archive that lacks a file, and ends or fails each call that a copy makes. Lets clients of clients/ be killed too,
# which repeat what they weren't told, and looks that nothing stands twice. Fills pipes before anybody reads them: of a
# counter, of a terminal, of a script, and with answers of which nobody heard. Lets two counters ask at once, one of them
# so that its answers fill the pipe. Slows or holds it, and wishes meanwhile.
# Looks under strace whether a posting is told behind its last sync, and what an office reads of its ledger. Words: the
# built derbyfig, and those of checks/offices/check.py, as --kills 100. Needed beside the toolchain: Python and `strace`.
# The files are made below the folder BENCH_FOLDER, /var/tmp without it.
set -euo pipefail
program=$(realpath "${1:?the first word is the built derbyfig}")
command -v strace > /dev/null || { echo "strace is missing (package strace)"; exit 1; }
cd "$(dirname "$0")/.."
work=$(mktemp -d "${BENCH_FOLDER:-/var/tmp}/offices.XXXXXX")
trap 'rm -rf "$work"' EXIT

# the example of the README
mkdir "$work/example" "$work/path"
ln -s "$program" "$work/path/derbyfig"
example=$PWD/examples/two_counters.sh
(cd "$work/example" && PATH="$work/path:$PATH" timeout 300 bash "$example") | diff "$example.out" - \
    || { echo "examples/two_counters.sh: tells something else than examples/two_counters.sh.out"; exit 1; }

# Each request for memory is refused, the first, then the second, until a run makes no more. Runs one with the request
# of that number refused, and tells whether it was; the program ends by itself, and what it told as posted is in the
# file.
cc -O1 -Wall -shared -fPIC -o "$work/refuse.so" checks/refused_memory/refuse.c
printf 'deposit 1 5 71\nbalance 1\nfind 71\nwithdraw 1 9\nclose\n' > "$work/said"
refuse() {
    rm -f "$work/ledger"
    status=0
    timeout 300 env LD_PRELOAD="$work/refuse.so" REFUSED_REQUEST="$1" "$program" serve "$work/ledger" --format 4 --terminal \
        < "$work/said" > "$work/told" 2> "$work/fault" 9> "$work/refused" || status=$?
    case "$status $(cat "$work/fault")" in
        '0 ' | '3 out of memory' | '3 '*': out of memory' | '3 the system refused a thread' | '3 ') ;;
        *) echo "request $1 refused: status $status, $(cat "$work/fault")"; return 1 ;;
    esac
    if grep -q 'posted 0 71' "$work/told"; then
        "$program" journal "$work/ledger" --as csv > "$work/listed" && grep -q ',71,' "$work/listed" \
            || { echo "request $1 refused: a posting is lost"; return 1; }
    fi
}
requests=0
while :; do
    refuse $((requests + 1)) || exit 1
    grep -q refused "$work/refused" || break
    requests=$((requests + 1))
done
[ "$requests" -gt 50 ] && [ "$status" -eq 0 ] || { echo "$requests requests were refused, and then the status is $status"; exit 1; }
echo "the example is told as shown, and each of $requests requests for memory was refused in turn"
mkdir "$work/cases"
PYTHONDONTWRITEBYTECODE=1 python3 checks/offices/check.py "$program" "$work/cases" "${@:2}"
