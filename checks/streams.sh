#!/usr/bin/env bash
# Gives scripts to turn_console and derbyfig on standard streams whose calls are interrupted, move few bytes or fail.
# A library that is loaded before the programs does that. A script is cut after each byte; a reader and a writer fail
# at each call; the limits of bytes, of calls and of interruptions are met and passed; and the pieces are looked at in
# which lines are written. Scripts also run on files whose calls fail, and on ledgers that are made byte by byte. Then
# the words of both programs are tried that no other script of checks tries: the limits of numbers, each word of an
# office with and without it, and how long a closing waits, by pauses that are counted and not slept. One line for
# each case, and status 1 if one fails. Words: the built turn_console, the built derbyfig, and those of
# checks/streams/check.py, as --only readers. Needed beside the toolchain: gcc, Python. The files are made below the
# folder BENCH_FOLDER, /var/tmp without it.
set -euo pipefail
console=$(realpath "${1:?the first word is the built turn_console}")
derbyfig=$(realpath "${2:?the second word is the built derbyfig}")
cd "$(dirname "$0")/.."
work=$(mktemp -d "${BENCH_FOLDER:-/var/tmp}/streams.XXXXXX")
trap 'rm -rf "$work"' EXIT
cc -O1 -Wall -shared -fPIC -o "$work/stream.so" checks/streams/stream.c
cc -O1 -Wall -shared -fPIC -o "$work/fail.so" checks/faults/fail.c
mkdir "$work/cases"
PYTHONDONTWRITEBYTECODE=1 python3 checks/streams/check.py "$console" "$derbyfig" "$work/stream.so" "$work/fail.so" \
    "$work/cases" "${@:3}"
