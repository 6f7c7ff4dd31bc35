#!/usr/bin/env bash
# Archives a ledger of three slots again and again while it is posted to, and compares each posting in the files of
# the archive, and what each begins with and ends at, with a plain list of what was posted; among the runs some that
# kill -9 ends. Looks what becomes of the folder, byte by byte, where nothing is new, where batches are lost, where
# the ledger is another one or an old copy, where another program has the folder, where it isn't there, and where its
# newest file is damaged; where it came to the same balances by other batches; of what a run left unfinished; and
# where each request for memory is refused in turn. Looks under strace in what order a file is written, synced and
# named. Reads the folder as one ledger, alone and with the live one behind it, and compares that with the list; takes
# a file of it away, cuts it and exchanges it; exports it day by day, from each record on; and restores a ledger from it,
# beside a copy. Prints sealed accounts that hold nothing, in each format, and compares that byte by byte.
# What is exported is read by `hledger` too, if that is on the machine. One line for each case, and status 1 if one
# fails. Words: the built derbyfig. Needed beside the toolchain: Python and `strace`. The files are made below the
# folder BENCH_FOLDER, /var/tmp without it.
set -euo pipefail
derbyfig=$(realpath "${1:?the first word is the built derbyfig}")
command -v strace > /dev/null || { echo "strace is missing (package strace)"; exit 1; }
cd "$(dirname "$0")/.."
work=$(mktemp -d "${BENCH_FOLDER:-/var/tmp}/books.XXXXXX")
trap 'rm -rf "$work"' EXIT
cc -O1 -Wall -shared -fPIC -o "$work/refuse.so" checks/refused_memory/refuse.c
PYTHONDONTWRITEBYTECODE=1 python3 checks/books/check.py "$derbyfig" "$work"
