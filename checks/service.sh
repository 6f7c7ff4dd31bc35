#!/usr/bin/env bash
# Installs the package of `make deb` in a fresh Debian, under a systemd of its own, and looks at what docs/INSTALL.md says of
# it. By hand, not in the gate: it takes a minute or two, root, and packages that have to be loaded.
#
# In that system stands nothing of ours but the package. The commands of docs/INSTALL.md are typed there as they stand, and
# the clients of docs/FORMATS.md. Then it is looked at: who may post and read, starts, a start that has to fail, kill -9, an
# upgrade, reboots, an end of all at once, the archive, and what a removal leaves. One line tells what was seen of each, and
# the first that isn't so ends it with status 1.
#
# Words: the built turn_console, the built derbyfig. Needed: root who may make namespaces and cgroups, Python, make, and the
# Debian packages that it names if they aren't there; then the last line is `skipped: ..`. The system is in the file
# SYSTEM_FILE, /var/tmp/derbyfig-debian.tar without it. The files are made below the folder BENCH_FOLDER, /var/tmp without
# it.
set -euo pipefail
console=$(realpath "${1:?the first word is the turn_console that was built}")
derbyfig=$(realpath "${2:?the second word is the derbyfig that was built}")
cd "$(dirname "$0")/.."
export PYTHONDONTWRITEBYTECODE=1 PATH=$PATH:/usr/sbin:/sbin
system=${SYSTEM_FILE:-/var/tmp/derbyfig-debian.tar}

# Tells how to get what isn't there.
missing() {
    cat << END_OF_TEXT
As root, on Debian:
    apt-get install --no-install-recommends mmdebstrap dpkg-dev make util-linux
    mmdebstrap --variant=apt --include=systemd-sysv,python3 bookworm $system
END_OF_TEXT
    echo "skipped: $1"
    exit 0
}
for program in dpkg-deb make unshare nsenter findmnt; do
    command -v "$program" > /dev/null || missing "no $program"
done
[ -r "$system" ] || missing "no $system"
[ "$(id -u)" = 0 ] || missing "it isn't root who runs it"
unshare --mount --uts --ipc --pid --cgroup --net --fork true 2> /dev/null || missing "no namespace can be made"
cgroups=$(findmnt --noheadings --first-only --types cgroup2 --output TARGET) || missing "no cgroup2 is mounted"
cgroup=$cgroups/derbyfig_service.$$
mkdir "$cgroup" 2> /dev/null || missing "no cgroup can be made"

work=$(mktemp -d "${BENCH_FOLDER:-/var/tmp}/service.XXXXXX")
trap 'rm -rf "$work"; rmdir "$cgroup"' EXIT
mkdir "$work/tree" "$work/newer"
tar -C "$work/tree" --numeric-owner -xf "$system"

# The package, and the same one with a version that comes after it. Neither is packed, which takes a minute.
export DPKG_DEB_COMPRESSOR_TYPE=none
make --silent deb "DEB=$work/tree/root/derbyfig.deb" "CONSOLE=$console" "DERBYFIG=$derbyfig"
dpkg-deb -R "$work/tree/root/derbyfig.deb" "$work/newer"
sed -i 's/^Version: .*/&+1/' "$work/newer/DEBIAN/control"
mkdir "$work/tree/root/newer"
dpkg-deb --root-owner-group --build "$work/newer" "$work/tree/root/newer/derbyfig.deb" > /dev/null
python3 checks/service/check.py "$work/tree" "$cgroup"
