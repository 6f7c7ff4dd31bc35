#!/usr/bin/env bash
# Run by hand, not by the gate. It runs each test alone, where 5 seconds are the most that it may take, and again beside
# four busy loops on each processor, where it has to pass. A line for each crate with its slowest test, and status 1
# where any test fails or is too slow. Word: the tree whose tests were built by `rt ci` or `rt test`, this one without
# it.
set -euo pipefail
tree=$(realpath "${1:-$(dirname "$0")/..}")
work=$(mktemp -d)
loops=()
trap 'kill "${loops[@]}" 2> /dev/null || true; rm -rf "$work"' EXIT
trap 'exit 1' INT TERM HUP
cd "$work"
most=5
wrong=0
TIMEFORMAT=%R

# Runs each test of a crate, and tells how many there are and how long the slowest took. Words: its tests, and how they
# are run.
run_all() {
    local tests=$1 how=$2 name slowest="" longest=0 count=0
    while IFS= read -r name; do
        count=$((count + 1))
        if ! { time "$tests" "$name" > printed 2>&1; } 2> seconds; then
            echo "$name failed $how:"
            cat printed
            wrong=$((wrong + 1))
        fi
        if awk -v a="$(cat seconds)" -v b="$longest" 'BEGIN { exit !(a > b) }'; then
            longest=$(cat seconds) slowest=$name
        fi
    done < <("$tests" --list | sed -n 's/: test$//p')
    echo "$(basename "$tests" _tests), $how: $count tests, the slowest in $longest s ($slowest)"
    if [ "$how" = alone ] && awk -v a="$longest" -v b=$most 'BEGIN { exit !(a > b) }'; then
        echo "$slowest takes more than $most seconds"
        wrong=$((wrong + 1))
    fi
}

each_crate() {
    local tests
    for tests in "$tree"/crates/*/out/*_tests; do
        run_all "$tests" "$1"
    done
}

[ -n "$(compgen -G "$tree/crates/*/out/*_tests")" ] || { echo "no tests were built in $tree: run rt ci there"; exit 1; }
each_crate alone
for ((number = 0; number < 4 * $(nproc); number++)); do
    (while :; do :; done) &
    loops+=($!)
done
each_crate "beside ${#loops[@]} busy loops"
[ "$wrong" -eq 0 ] || { echo "$wrong wrong"; exit 1; }
