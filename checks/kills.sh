#!/usr/bin/env bash
# Ends the console by kill -9 at random moments of a long script on a file, with a checkpoint in each eighth turn, and
# opens the file again each time: all turns that were printed in full are there, none that wasn't sent is, and the
# balances are those of whole batches.
# Words: the program that was built, how many rounds, 50 without, and the seed of the random moments, 1 without. Needed
# beside the toolchain: Python. The file is made below the folder BENCH_FOLDER, /var/tmp without it.
set -euo pipefail
program=$(realpath "${1:?the first word is the program that was built}")
cd "$(dirname "$0")/.."
work=$(mktemp -d "${BENCH_FOLDER:-/var/tmp}/kills.XXXXXX")
trap 'rm -rf "$work"' EXIT

PYTHONDONTWRITEBYTECODE=1 python3 checks/kills/check.py "$program" "$work/ledger" "${2:-50}" "${3:-1}"
