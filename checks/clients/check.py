"""Words: the program, and an empty folder that has the built ends.so."""
import pathlib
import sys
import time

from answers import CASES
from kills import kills
from require import Mismatch

program, folder = pathlib.Path(sys.argv[1]), pathlib.Path(sys.argv[2])
start = time.monotonic()
try:
    for case in CASES:
        for kind in ("shell", "python"):
            where = folder / f"{case.__name__}_{kind}"
            where.mkdir()
            case(where, kind)
    count = kills(program, folder)
except Mismatch as told:
    sys.exit(f"clients: {told}")
print("each answer, each cut and each kill of a client: a posting stands once")
print(f"{count} postings, in {time.monotonic() - start:.0f} s")
