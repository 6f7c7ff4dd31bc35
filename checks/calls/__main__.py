"""Runs tests as text: python3 checks/calls TEST_CONSOLE [NAME..]

Each `NAME.calls` in a folder beside this file is typed into a process of its own, which has to print `NAME.out`, to end
with status 0 and to write no errors. Drivers (`limits.py`, `openings.py`, ..) type what would be long as text, and know
what has to be printed. With names only those tests run whose paths have one of them. Prints a line for each test that
passed, the differences of the others, and at the end how many there were. The status is 1 if a test failed.
"""
import difflib
import subprocess
import sys
import time
from pathlib import Path

import limits
import listings
import many_turns
import openings
import places
import rewritten
import schedules
import searches
import stacked

HERE = Path(__file__).resolve().parent

# What types tests, and the longest that one of them may take.
DRIVERS = (limits, listings, many_turns, openings, places, rewritten, schedules, searches, stacked)
SECONDS = 30

# How many lines of a difference are shown.
SHOWN = 60


def texts():
    """Each test that is a text: its name, where its output stands, what is typed, and what has to be printed. A file
    without the other one is an empty one beside it, so that the test fails."""
    found = (path for path in HERE.glob("*/*.*") if path.suffix in (".calls", ".out"))
    for name in sorted({path.relative_to(HERE).with_suffix("") for path in found}):
        calls, out = (HERE / f"{name}{suffix}" for suffix in (".calls", ".out"))
        typed_lines, wanted = (path.read_text(encoding="utf-8") if path.exists() else "" for path in (calls, out))
        yield str(name), f"checks/calls/{name}.out", typed_lines, wanted


def typed():
    """Each test that a driver types. What it has to type is made once its turn has come."""
    for driver in DRIVERS:
        for test in driver.TESTS:
            name = driver.__name__
            yield f"{name}/{test.__name__}", f"what checks/calls/{name}.py has", test, None


def difference(console, name, calls, wanted):
    """What differs between the printed and the wanted text, and how the process ended if that wasn't well. Spaces at
    the end of a printed line don't count."""
    ran = subprocess.run([console], input=calls.encode(), capture_output=True, timeout=SECONDS, check=False)
    printed = [line.rstrip(" ") for line in ran.stdout.decode(errors="replace").splitlines()]
    shown = list(difflib.unified_diff(wanted.splitlines(), printed, f"{name}.out", "printed", lineterm=""))
    if ran.returncode or ran.stderr:
        shown.append(f"status {ran.returncode} {ran.stderr[:500]!r}")
    return shown


def passes(console, name, where, calls, wanted):
    """Whether the test passes, which is printed."""
    if wanted is None:
        calls, wanted = ("".join(f"{line}\n" for line in lines) for lines in calls())
    try:
        shown = difference(console, name, calls, wanted)
    except subprocess.TimeoutExpired:
        shown = [f"no end after {SECONDS} seconds"]
    if shown:
        print(f"{name}: FAILED", *shown[:SHOWN], sep="\n", flush=True)
    else:
        print(f"{name}: prints {where}", flush=True)
    return not shown


def main():
    console, names = sys.argv[1], sys.argv[2:]
    begun = time.monotonic()
    tests = [test for test in (*texts(), *typed()) if not names or any(name in test[0] for name in names)]
    failed = sum(not passes(console, *test) for test in tests)
    print(f"{len(tests)} tests, {failed} failed, {time.monotonic() - begun:.1f} seconds")
    sys.exit(1 if failed or not tests else 0)


main()
