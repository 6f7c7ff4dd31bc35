#!/usr/bin/env bash
# Compares which calls of the system an opening makes, one by one: for a new file, for one that grows, for one that has
# all its sectors, for a disk, and for a file that is only read, of which a copy reads no more than it needs. A library
# that is loaded before the programs notes these calls, fails one of them, or moves only a part of what is read or
# written. The check compares what is printed then, and which bytes the file has.
#
# Prints one line for each case, and ends with status 1 if one fails. Words: the built turn_console, the built derbyfig.
# Needed besides the toolchain: gcc, Python. The files are made below the folder BENCH_FOLDER, or below /var/tmp.
set -euo pipefail
console=$(realpath "${1:?the first word is the built turn_console}")
derbyfig=$(realpath "${2:?the second word is the built derbyfig}")
cd "$(dirname "$0")/.."
work=$(mktemp -d "${BENCH_FOLDER:-/var/tmp}/openings.XXXXXX")
trap 'rm -rf "$work"' EXIT
cc -O1 -Wall -shared -fPIC -o "$work/steps.so" checks/openings/steps.c
cc -O1 -Wall -shared -fPIC -o "$work/disk.so" checks/files/disk.c
PYTHONDONTWRITEBYTECODE=1 python3 checks/openings/check.py "$console" "$derbyfig" "$work"
