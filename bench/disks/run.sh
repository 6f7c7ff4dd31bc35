#!/usr/bin/env bash
# Durable batches on a loop device, with sectors of 512 and of 4,096 bytes, beside a file that lies where the loop
# device's does, and beside the floor in C on each. It proves and builds the console in its own folder, and needs
# `losetup`. Words: how many rounds, 7 without.
set -euo pipefail
cd "$(dirname "$0")/../.."
export PATH=$PATH:/usr/sbin:/sbin
work=$(mktemp -d "${BENCH_FOLDER:-/var/tmp}/disks.XXXXXX")
disks=()
leave() {
    for disk in "${disks[@]}"; do losetup -d "$disk"; done
    rm -rf "$work"
}
trap leave EXIT

(cd crates/turn_console && rt run < stdin > "$work/build.log" 2>&1) || { tail "$work/build.log"; exit 1; }
cp crates/turn_console/out/turn_console "$work/proved"
for program in baseline/floor turns/stopwatch; do
    gcc -O2 -Wall -Wextra -o "$work/$(basename "$program")" "bench/$program.c"
done
for size in 512 4096; do
    dd if=/dev/zero of="$work/behind $size" bs=128K count=32 conv=fsync status=none
    disks+=("$(losetup -f --show --sector-size "$size" "$work/behind $size")")
done
dd if=/dev/zero of="$work/file" bs=128K count=32 conv=fsync status=none
PYTHONDONTWRITEBYTECODE=1 PYTHONPATH=bench/turns python3 bench/disks/measure.py "$work" "${1:-7}" "$work/file" "${disks[@]}"
