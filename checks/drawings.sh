#!/usr/bin/env bash
# Draws ledgers of layouts 1, 2 and 3 with `derbyfig map`, and looks with `derbyfig check` where damage is found. The
# ledgers are written here byte by byte, by the tables of docs/FORMATS.md. The check counts the cells of each kind,
# compares the captions, and fails readings and writings while a ledger is drawn.
#
# Prints one line for each case, and ends with status 1 if one fails. Word: the built derbyfig. Needed besides the
# toolchain: gcc, Python. The files are made below the folder BENCH_FOLDER, or below /var/tmp.
set -euo pipefail
program=$(realpath "${1:?the word is the built derbyfig}")
cd "$(dirname "$0")/.."
work=$(mktemp -d "${BENCH_FOLDER:-/var/tmp}/drawings.XXXXXX")
trap 'rm -rf "$work"' EXIT
cc -O1 -Wall -shared -fPIC -o "$work/fail.so" checks/faults/fail.c
PYTHONDONTWRITEBYTECODE=1 python3 checks/drawings/check.py "$program" "$work/fail.so" "$work"
