#!/usr/bin/env bash
# Looks whether the documents are true: that their links lead somewhere, that the scripts and answers they show are
# those of the files they name, that the pictures are what the program gives, and that their commands run. Looks too
# whether the sentences of those that are held to it are short. Status 1 where something isn't so. Words: the
# turn_console that was built, which answers `rt run` in the commands, and the
# derbyfig. Needed beside the toolchain: Python.
set -euo pipefail
program=$(realpath "${1:?the first word is the turn_console that was built}")
derbyfig=$(realpath "${2:?the second word is the derbyfig that was built}")
cd "$(dirname "$0")/.."
PYTHONDONTWRITEBYTECODE=1 python3 checks/documents/check.py "$program" "$derbyfig"
