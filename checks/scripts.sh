#!/usr/bin/env bash
# Runs each script of checks/scripts on a device in memory, and compares all that the program prints with the file
# NAME.out beside it: one line for each, and status 1 at the first difference. NAME.args has words for the program, one
# a line. With NAME.err the program has to end with status 1 and tell this on its errors, and else with status 0 and
# nothing. Word: the program that was built.
set -euo pipefail
program=$(realpath "${1:?the word is the program that was built}")
cd "$(dirname "$0")/scripts"
work=$(mktemp -d)
trap 'rm -rf "$work"' EXIT
: > "$work/nothing"

for printed in *.out; do
    name=${printed%.out}
    words=() wanted=0 errors=$work/nothing
    [ ! -e "$name.args" ] || mapfile -t words < "$name.args"
    [ ! -e "$name.err" ] || { wanted=1 errors=$name.err; }
    status=0
    "$program" "${words[@]}" < "$name" > "$work/printed" 2> "$work/told" || status=$?
    diff "$printed" "$work/printed" || { echo "$name: prints something else than checks/scripts/$printed"; exit 1; }
    diff "$errors" "$work/told" || { echo "$name: tells something else on its errors"; exit 1; }
    [ "$status" -eq "$wanted" ] || { echo "$name: ends with status $status and not $wanted"; exit 1; }
    echo "$name: prints checks/scripts/$printed"
done
