#!/usr/bin/env bash
# Gives files of every kind to turn_console and to the commands of derbyfig, and compares the bytes and the length of
# each before and after: parts of a ledger, ledgers of earlier versions, files of other programs, files that may not
# be opened, file systems without room, and files whose making was ended by kill -9; and where a copy is refused, also
# a disk and what is behind a link. Compares what each command makes with a ledger's format, byte by byte, and with
# the numbers that `check` tells of both banks. Lets it take a file for a disk, and a loop device if there is one, that
# another program has written or uses. One line for each case, and status 1 if one fails. Words: the built turn_console,
# the built derbyfig. Needed beside the toolchain: gcc, Python. The files are made below the folder BENCH_FOLDER,
# /var/tmp without it.
set -euo pipefail
console=$(realpath "${1:?the first word is the built turn_console}")
derbyfig=$(realpath "${2:?the second word is the built derbyfig}")
cd "$(dirname "$0")/.."
work=$(mktemp -d "${BENCH_FOLDER:-/var/tmp}/files.XXXXXX")
leave() {
    if mountpoint -q "$work/full"; then umount "$work/full"; fi
    rm -rf "$work"
}
trap leave EXIT
# where another user may run them too
chmod 755 "$work"
install "$console" "$derbyfig" "$work"
mkdir "$work/full"
cc -O1 -Wall -shared -fPIC -o "$work/disk.so" checks/files/disk.c
if ! mount -t tmpfs -o size=64k none "$work/full" 2> /dev/null; then
    echo "not tried: a file system without room, since none can be mounted"
fi
PYTHONDONTWRITEBYTECODE=1 python3 checks/files/check.py "$work/$(basename "$console")" \
    "$work/$(basename "$derbyfig")" "$work"
