#!/usr/bin/env bash
# Looks under strace at what the program asks of the system for a ledger's file.
#
# First the opening: which calls open, lock, grow and sync a new file, and the same file again, in which order; with
# each of the standard streams closed, and all of them; where the disk is full; and where no memory is left. Then
# turns: each turn with an accepted entry makes exactly these calls on the file, before its lines are printed: a write
# of the body's sector, fdatasync, a write of the gate's sector, fdatasync. On banks of 3 slots each third such turn
# makes those of a checkpoint before: a read of the other bank's gate, where it is open a write of it closed and
# fdatasync, writes of the head, the snapshot and the slots' gates, fdatasync, a write of the bank's gate, fdatasync.
# Neighbouring calls of one turn are swapped, and each such trace is refused.
#
# Word: the program that was built. Needed beside the toolchain: Python and `strace`. The files are made below the
# folder BENCH_FOLDER, /var/tmp without it.
set -euo pipefail
program=$(realpath "${1:?the word is the program that was built}")
command -v strace > /dev/null || { echo "strace is missing (package strace)"; exit 1; }
cd "$(dirname "$0")/.."
export PYTHONDONTWRITEBYTECODE=1
work=$(mktemp -d "${BENCH_FOLDER:-/var/tmp}/durable_order.XXXXXX")
trap 'rm -rf "$work"' EXIT

turns=200
sectors=$((4 * turns + 39))
writing=write,writev,pwrite64,pwritev,pwritev2,ftruncate,fallocate,copy_file_range,sendfile,splice
syncing=fsync,fdatasync,sync_file_range,msync,sync,syncfs
opening=open,openat,openat2,creat,close,unlink,unlinkat,flock,fcntl,read,readv,pread64,preadv,$writing,$syncing

# An opening of the ledger that is there, or isn't, under strace with these words of its own: its trace goes to the
# first word.
open_ledger() {
    strace -f -y -s 8 -o "$@" -e trace="$opening" "$program" --device "$work/ledger" --sectors "$sectors"
}

: > "$work/empty"
without_in() { "$@" 0<&-; }
without_out() { "$@" 1>&- < "$work/empty"; }
without_err() { "$@" 2>&- < "$work/empty"; }
without_any() { "$@" 0<&- 1>&- 2>&-; }
closed=()
for streams in in out err any; do
    for file in new again; do
        trace=$work/$file.without_$streams
        status=0
        "without_$streams" open_ledger "$trace" || status=$?
        case $streams-$status in
            in-1 | any-1 | out-0 | err-0) closed+=("$trace") ;;
            *) echo "without the streams \"$streams\" the status is $status" && exit 1 ;;
        esac
    done
    rm "$work/ledger"
done

# Memory ends at a call of mmap, each in turn, and the heap has its first piece: without memory there is no file. The
# device has two buffers that take a call each.
refused=0
for call in {1..40}; do
    { strace -f -o "$work/memory" -e trace=mmap,brk -e inject="mmap:error=ENOMEM:when=$call+" \
        -e inject=brk:retval=0:when=4+ "$program" --device "$work/ledger" --sectors "$sectors" < "$work/empty"; } \
        2> "$work/told" || true
    test ! -e "$work/ledger" || break
    if grep -qx "out of memory" "$work/told"; then refused=$((refused + 1)); fi
done
if [ "$refused" -lt 2 ] || [ "$(stat -c %s "$work/ledger")" -ne $((512 * sectors)) ]; then
    echo "of a file that was refused $refused times for want of memory there are $(stat -c %s "$work/ledger") bytes"
    exit 1
fi
echo "refused $refused times for want of memory, a file wasn't made, and then it was made whole"
rm "$work/ledger"

if open_ledger "$work/full" -e inject=pwrite64:error=ENOSPC:when=2 < "$work/empty" 2> "$work/told"; then
    echo "a file that can't be grown was taken for a device"
    exit 1
fi
grep -qx "device failed" "$work/told"
test ! -e "$work/ledger"
open_ledger "$work/new" < "$work/empty"
open_ledger "$work/again" < "$work/empty"
python3 checks/durable_order/opening.py "$work/ledger" $((512 * sectors)) \
    "$work/new" "$work/again" "$work/full" "${closed[@]}"

python3 checks/durable_order/script.py "$turns" > "$work/script"
for slots in "$turns" 3; do
    echo "format $slots" | "$program" --device "$work/ledger" > /dev/null
    strace -f -y -xx -s 131072 -o "$work/trace" -e trace="pread64,$writing,$syncing" \
        "$program" --device "$work/ledger" < "$work/script" > "$work/answers"
    echo "banks of $slots slots:"
    python3 checks/durable_order/check.py "$work/trace" ledger "$turns" "$slots"
done
