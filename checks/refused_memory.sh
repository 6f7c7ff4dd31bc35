#!/usr/bin/env bash
# Refuses the requests for memory of the program, one in each run, the first request, then the second, until a run makes
# no more; and so the requests for a thread. The program ends with `out of memory` and a prefix of its output, or tells of
# it in a line. A file is as before, or has all its sectors, and the same command does it once nothing is refused. So are
# those of the test that makes the flags of a held call, which makes them again.
#
# Words: the program that was built, and the tests of `test_examples` that were. Needed beside the toolchain: Python, and
# `cc` and `nm` (package gcc). The file devices are made below the folder BENCH_FOLDER, /var/tmp without it.
set -euo pipefail
program=$(realpath "${1:?the first word is the program that was built}")
tests=$(realpath "${2:?the second word is the tests of test_examples that were built}")
for tool in cc nm; do
    command -v "$tool" > /dev/null || { echo "$tool is missing (package gcc)"; exit 1; }
done
cd "$(dirname "$0")/.."
work=$(mktemp -d "${BENCH_FOLDER:-/var/tmp}/refused_memory.XXXXXX")
trap 'rm -rf "$work"' EXIT

cc -O1 -Wall -shared -fPIC -o "$work/refuse.so" checks/refused_memory/refuse.c
export PYTHONDONTWRITEBYTECODE=1
python3 checks/refused_memory/check.py "$program" "$tests" "$work"
