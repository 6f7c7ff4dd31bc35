#!/usr/bin/env bash
# Makes power failures of machines (qemu) that post to a ledger, and looks whether what was told is there. By hand, not in
# the gate: it takes some ten minutes of four processors, and packages that have to be loaded.
#
# First cuts: a machine is killed amid postings on ext4, and started again. Then recordings: the writes and flushes of a
# machine's disk are logged, on ext4, on ext4 with data=journal, on a disk without a file system, and, as root, on xfs; and
# out of each log thousands of crashes are made, which keep what was flushed and of the rest what chance leaves. The
# ledger is opened, and compared with what had been told by then: turns of a script, answers of counters, copies, what was
# archived, also by programs that were killed and started again. Beside each stands a control with a fault made on purpose,
# which has to lose: no syncs, every second one skipped, none of the archive's, barrier=0, a disk that keeps no flush, one
# that tears blocks of 4,096 bytes.
#
# Words: the built turn_console, the built derbyfig, and those of checks/power/check.py, as --times 5 and --seed 2. Needed:
# Python, a C compiler, and the Debian packages that it names if they aren't there; then the last line is `skipped: ..`.
# The kernel is that of the folder KERNEL_FOLDER, which has boot/vmlinuz-* and lib/modules/*. The files are made below the
# folder BENCH_FOLDER, /var/tmp without it.
set -euo pipefail
console=$(realpath "${1:?the first word is the turn_console that was built}")
derbyfig=$(realpath "${2:?the second word is the derbyfig that was built}")
cd "$(dirname "$0")/.."
export PYTHONDONTWRITEBYTECODE=1 PATH=$PATH:/usr/sbin:/sbin
kernel=${KERNEL_FOLDER:-/var/tmp/derbyfig-kernel}

# Tells how to get what isn't there.
missing() {
    cat << END
As root, from Debian:
    apt-get install --no-install-recommends qemu-system-x86 busybox-static e2fsprogs xfsprogs gcc libc6-dev
As anybody, a kernel, which isn't installed:
    mkdir -p $kernel && cd $kernel
    apt-get download "\$(apt-cache depends linux-image-cloud-amd64 | sed -n 's/.*Depends: //p')"
    dpkg -x linux-image-*.deb .
END
    echo "skipped: $1"
    exit 0
}
for program in qemu-system-x86_64 busybox mkfs.ext4 e2fsck debugfs cc; do
    command -v "$program" > /dev/null || missing "no $program"
done
images=("$kernel"/boot/vmlinuz-*)
if [ ! -r "${images[0]}" ] || [ ! -d "$kernel/lib/modules" ]; then missing "no kernel in $kernel"; fi

work=$(mktemp -d "${BENCH_FOLDER:-/var/tmp}/power.XXXXXX")
trap 'rm -rf "$work"' EXIT
cc -O1 -Wall -Wextra -shared -fPIC -o "$work/unsynced.so" checks/power/unsynced.c
echo "kernel ${images[0]##*/vmlinuz-}; $(qemu-system-x86_64 --version | head -n 1); $(mkfs.ext4 -V 2>&1 | head -n 1)"
mkdir "$work/run"
python3 checks/power/check.py "$console" "$derbyfig" "$work/unsynced.so" "$work/run" "$kernel" \
    "$(command -v busybox)" "${@:3}"
