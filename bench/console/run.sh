#!/usr/bin/env bash
# The console on long scripts: seconds, lines per second and the most memory, each at full and at
# half size, so that linear growth can be seen. The last line that is printed is compared with what
# the script comes to. It proves and builds the console in its own folder.
set -euo pipefail
cd "$(dirname "$0")/../.."
work=$(mktemp -d)
trap 'rm -rf "$work"' EXIT

(cd crates/turn_console && rt run < stdin > "$work/build.log" 2>&1) || { tail "$work/build.log"; exit 1; }
program=crates/turn_console/out/turn_console

for count in 50000 100000; do
    script="$work/turns_$count"
    python3 bench/console/script.py turns "$count" > "$script"
    python3 bench/console/measure.py "$program" $((4 * count + 39)) "$script" \
        $((2 * count + 3)) 5 "total $count"
done
for count in 500000 1000000; do
    script="$work/comments_$count"
    python3 bench/console/script.py comments "$count" > "$script"
    python3 bench/console/measure.py "$program" 64 "$script" "$count" 5 ""
done
