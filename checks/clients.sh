#!/usr/bin/env bash
# Lets an office that isn't one tell the clients for the shell and for Python each answer, and be silent or end at each
# request; ends the clients at each call by which they touch a file or a pipe, or has that fail as on a full disk, and
# counts what stands. Word: the built derbyfig. Needed beside the toolchain: gcc, Python.
set -euo pipefail
program=$(realpath "${1:?the word is the built derbyfig}")
cd "$(dirname "$0")"
work=$(mktemp -d)
trap 'rm -rf "$work"' EXIT
cc -O1 -Wall -shared -fPIC -o "$work/ends.so" clients/ends.c
PYTHONDONTWRITEBYTECODE=1 python3 clients/check.py "$program" "$work"
