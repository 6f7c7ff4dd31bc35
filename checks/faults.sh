#!/usr/bin/env bash
# Fails calls of derbyfig, by a library that is loaded before it, the first of a kind, then the second, until a run makes
# no more. While it makes a ledger, a copy or an archive these are its writings, syncs, growths, renamings and removals;
# while it reads one these are its readings; while it prints these are its writings to the output; and then its requests
# for memory. Changes a ledger, too, before each reading of an export, and gives the name of a new file to something else
# before that is taken back. Looks at the status and the line that it ends with, at what is there then, byte by byte, and
# whether the same command does it once nothing fails. One line for each case, and status 1 if one fails. Word: the built
# derbyfig. Needed beside the toolchain: gcc, Python. The files are made below the folder BENCH_FOLDER, /var/tmp without
# it.
set -euo pipefail
program=$(realpath "${1:?the word is the built derbyfig}")
cd "$(dirname "$0")/.."
work=$(mktemp -d "${BENCH_FOLDER:-/var/tmp}/faults.XXXXXX")
trap 'rm -rf "$work"' EXIT
cc -O1 -Wall -shared -fPIC -o "$work/fail.so" checks/faults/fail.c
PYTHONDONTWRITEBYTECODE=1 python3 checks/faults/check.py "$program" "$work/fail.so" "$work"
