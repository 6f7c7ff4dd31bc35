"""Tells what a fresh Debian does with the package, one line for each thing, and ends at the first that isn't so.

Words: a folder with the files of the system, in which root has both packages, and an empty cgroup."""
import pathlib
import signal
import sys
import time

for folder in ("kills", "documents"):
    sys.path.append(str(pathlib.Path(__file__).parent.parent / folder))

import lifetimes
import pages
import refusals
import rights
import starts
from rounds import Mismatch
from system import System

# In this order: each finds what those before it left.
CASES = (*starts.CASES, *rights.CASES, *refusals.CASES, *pages.CASES, *lifetimes.CASES)


def main():
    begin = time.monotonic()
    system = System(*map(pathlib.Path, sys.argv[1:]))
    for number in (signal.SIGTERM, signal.SIGHUP):
        signal.signal(number, lambda *_: sys.exit("it was ended from outside"))
    try:
        system.start()
        for case in CASES:
            print(f"{case.__name__.replace('_', ' ')}: {case(system)}", flush=True)
            # or systemd refuses a sixth start within ten seconds
            system.outcome("systemctl reset-failed 'derbyfig@*'")
    except (Mismatch, OSError) as told:
        sys.exit(f"it isn't so: {told}")
    finally:
        system.end()
    print(f"{len(CASES)} things are as they have to be, seen within {time.monotonic() - begin:.0f} seconds")


main()
