#!/usr/bin/env bash
# Runs the tests that are text, looks that each refusal's text is in one of them, and runs through all of a kind: stops
# and faults at each call, power losses, changed images, refused memory. Prints a line for each. Word: the built
# test_console; checks/calls/README.md has its words.
# Needed beside the toolchain: gcc, Python.
set -euo pipefail
console=$(realpath "${1:?the word is the built test_console}")
cd "$(dirname "$0")/.."
export PYTHONDONTWRITEBYTECODE=1
python3 checks/calls "$console"
python3 checks/calls/refusal_texts.py
python3 checks/calls/memory.py "$console"
python3 checks/calls/exhaustive.py "$console"
