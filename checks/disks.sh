#!/usr/bin/env bash
# Runs the program on disks: loop devices over files, with sectors of 512 and of 4,096 bytes.
#
# Scripts leave on a disk, byte for byte, and print what they do on a file of the same length. Each cause for which a
# disk is refused has its sentence, and the disk keeps its bytes. Turns are ended by kill -9, and the disk opened again,
# and they make the same system calls, in the same order, as on a file.
#
# Where the machine has no loop device for this user, the last line is `skipped: no loop device`. Word: the program that
# was built. Needed beside the toolchain: Python, `strace`, and of `util-linux` `losetup`, `flock` and `setpriv`. The
# files are made below the folder BENCH_FOLDER, /var/tmp without it.
set -euo pipefail
program=$(realpath "${1:?the word is the program that was built}")
cd "$(dirname "$0")/.."
export PYTHONDONTWRITEBYTECODE=1 PATH=$PATH:/usr/sbin:/sbin
work=$(mktemp -d "${BENCH_FOLDER:-/var/tmp}/disks.XXXXXX")
disks=()
leave() {
    if mountpoint -q "$work/mounted"; then umount "$work/mounted"; fi
    for disk in "${disks[@]}"; do losetup -d "$disk"; done
    rm -rf "$work"
}
trap leave EXIT

sectors=2048
# Makes the file $1 of zeros, and a disk of it with the other words; $disk is the disk.
make_disk() {
    truncate -s $((512 * sectors)) "$1"
    disk=$(losetup -f --show "${@:2}" "$1" 2> "$work/why") || return 1
    disks+=("$disk")
}
if ! make_disk "$work/first"; then
    cat "$work/why"
    echo "skipped: no loop device"
    exit 0
fi

fail() { echo "$1" && exit 1; }

# Ends with this status and tells this on its errors: $1, $2; the program has the other words, and an empty script.
told() {
    local status=0
    "$program" "${@:3}" < /dev/null > "$work/printed" 2> "$work/told" || status=$?
    [ "$status" -eq "$1" ] || fail "status $status and not $1: ${*:3}"
    [ "$(cat "$work/told")" = "$2" ] || fail "it tells \"$(cat "$work/told")\" and not \"$2\""
    echo "${*:3}: ${2:-opened}" | sed "s|$work/||g; s|$disk|DISK|g"
}
sum() { sha256sum < "$1"; }
# The disk is refused with this sentence, whatever the other words, and keeps its bytes; or is opened.
refused() {
    local before
    before=$(sum "$disk")
    told 1 "device failed: $disk $1" --device "$disk" "${@:2}"
    [ "$(sum "$disk")" = "$before" ] || fail "a disk that is refused was changed"
}
opened() { told 0 "" --device "$disk" "$@"; }
fill() { printf "$1" | dd of="$disk" bs=1 seek="$2" conv=notrunc,fsync status=none; }
blank() { dd if=/dev/zero of="$disk" bs=4096 count=$((sectors / 8)) conv=notrunc,fsync status=none; }

for size in 512 4096; do
    make_disk "$work/disk$size" --sector-size "$size" || fail "$(cat "$work/why")"
    truncate -s $((512 * sectors)) "$work/file$size"
    for script in first_day second_day; do
        "$program" --device "$disk" --sectors 55 < "examples/$script" > "$work/on_disk"
        "$program" --device "$work/file$size" --sectors 55 < "examples/$script" > "$work/on_file"
        cmp "$work/on_disk" "examples/$script.out"
        cmp "$work/on_file" "examples/$script.out"
    done
    cmp "$work/disk$size" "$work/file$size" || fail "the disk and the file differ"
    echo "sectors of $size bytes: two scripts leave on the disk what they leave on a file"

    # By another name, beside which the check may write.
    ln -s "$disk" "$work/link$size"
    python3 checks/kills/check.py "$program" "$work/link$size" 5 1 | tail -n 1
    echo "format 3" | "$program" --device "$disk" > /dev/null
    python3 checks/durable_order/script.py 50 > "$work/script"
    strace -f -y -xx -s 131072 -o "$work/trace" \
        -e trace=pread64,write,writev,pwrite64,pwritev,pwritev2,ftruncate,fallocate,fsync,fdatasync,sync_file_range,msync,sync,syncfs \
        "$program" --device "$disk" < "$work/script" > /dev/null
    python3 checks/durable_order/check.py "$work/trace" "${disk##*/}" 50 3 | tail -n 1
done

disk=${disks[0]}
refused "is a disk with too few sectors" --sectors $((sectors + 1))
refused "is a disk with too few sectors" --sectors $((sectors + 1)) --overwrite
opened --sectors "$sectors"
exec 9< "$disk"
flock 9
refused "is a disk that is in use" --overwrite
exec 9<&-

no_ledger="is a disk that holds no ledger; --overwrite takes it all the same"
# Somebody else's first sector, and behind zeros the marks of an ext4, of LVM and of a swap, and the last byte that
# counts.
for mark in 'MYDISK 0' '\123\357 1080' 'LABELONE 512' 'SWAPSPACE2 4086' 'x 131071'; do
    blank
    fill "${mark% *}" "${mark#* }"
    refused "$no_ledger"
done
opened --overwrite
refused "$no_ledger"
echo "format 4" | "$program" --device "$disk" --overwrite > /dev/null
opened
fill 'TLDG\0\2' 0
opened
blank
fill x 131072
opened

if command -v mkfs.ext4 > /dev/null && blank && mkfs.ext4 -q -O ^has_journal "$disk" && mkdir "$work/mounted" \
    && mount "$disk" "$work/mounted"; then
    refused "is a disk that is in use" --overwrite
    umount "$work/mounted"
    refused "$no_ledger"
else
    echo "not tried: a mounted disk"
fi

make_disk "$work/read_only" -r || fail "$(cat "$work/why")"
refused "is a disk that may not be read and written"
# By a user who may not write the first disk.
disk=${disks[0]}
chmod 755 "$work"
install "$program" "$work/program"
status=0
setpriv --reuid=65534 --clear-groups "$work/program" --device "$disk" < /dev/null 2> "$work/told" || status=$?
[ "$status-$(cat "$work/told")" = "1-device failed: $disk is a disk that may not be read and written" ] \
    || fail "another user is told: $(cat "$work/told")"

# What is no disk.
told 1 "device failed: $work/file512 is no disk, and --overwrite is for disks alone" --device "$work/file512" --overwrite
told 1 "device failed" --device "$work/missing" --overwrite
test ! -e "$work/missing"
told 1 "device failed" --device /dev/zero
told 2 "--overwrite needs --device" --overwrite
echo "all of it, on disks with sectors of 512 and of 4096 bytes"
