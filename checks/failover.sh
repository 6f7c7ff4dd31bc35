#!/usr/bin/env bash
# Makes failovers between two machines (qemu) with DRBD, by the configuration that docs/REPLICATION.md shows. By hand, not
# in the gate. The primary is killed amid postings, the other machine is promoted, and the turns that were told have to be
# there. A fence that answers falsely has to lose. Of protocol A, and of a peer whose cache is volatile and both of which
# fail, it is told what they lose.
#
# Words: the built turn_console, and those of checks/failover/check.py, as --failovers 10. Needed: Python, and the Debian
# packages that it names if they aren't there; then the last line is `skipped: ..`. The kernel is that of the folder
# KERNEL_FOLDER, which has boot/vmlinuz-* and lib/modules/*, and the files of drbd-utils too. The files are made below the
# folder BENCH_FOLDER, /var/tmp without it.
set -euo pipefail
console=$(realpath "${1:?the first word is the turn_console that was built}")
cd "$(dirname "$0")/.."
export PYTHONDONTWRITEBYTECODE=1 PATH=$PATH:/usr/sbin:/sbin
kernel=${KERNEL_FOLDER:-/var/tmp/derbyfig-kernel}

# Tells how to get what isn't there.
missing() {
    cat << END
As root, from Debian:
    apt-get install --no-install-recommends qemu-system-x86 busybox-static
As anybody, a kernel and DRBD's programs, which aren't installed:
    mkdir -p $kernel && cd $kernel
    apt-get download drbd-utils "\$(apt-cache depends linux-image-cloud-amd64 | sed -n 's/.*Depends: //p')"
    for package in linux-image-*.deb drbd-utils_*.deb; do dpkg -x "\$package" .; done
END
    echo "skipped: $1"
    exit 0
}
for program in qemu-system-x86_64 busybox; do
    command -v "$program" > /dev/null || missing "no $program"
done
images=("$kernel"/boot/vmlinuz-*)
if [ ! -r "${images[0]}" ] || [ ! -d "$kernel/lib/modules" ]; then missing "no kernel in $kernel"; fi
[ -r "$kernel/sbin/drbdadm" ] || missing "no drbd-utils in $kernel"

work=$(mktemp -d "${BENCH_FOLDER:-/var/tmp}/failover.XXXXXX")
trap 'rm -rf "$work"' EXIT
echo "kernel ${images[0]##*/vmlinuz-}; $(qemu-system-x86_64 --version | head -n 1)"
python3 checks/failover/check.py "$console" "$work" "$kernel" "$kernel" "$(command -v busybox)" "${@:2}"
