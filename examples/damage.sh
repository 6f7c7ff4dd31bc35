#!/usr/bin/env bash
# Makes one byte of a file 255. Words: the file, and the place of the byte.
set -euo pipefail
printf '\377' | dd of="$1" bs=1 seek="$2" conv=notrunc status=none
