"""Looks whether each test, script and wrong body that `checks/kept` names is there, and ran.

    python3 checks/kept.py PRINTED    the file has what all other parts of the gate printed

Prints how many there are of each kind, and status 1 where one is missing.
"""
import re
import sys
from collections import Counter
from pathlib import Path

CHECKS = Path(__file__).resolve().parent
ROOT = CHECKS.parent

# What one of a kind has printed when it ran and passed.
PRINTED = {
    "test": r"^{}$",
    "calls": r"^{}: prints ",
    "script": r"^{}: prints checks/scripts/",
    "example": r"^{}: prints examples/",
    "program": r"^rt: {} ran, and wrote what its file stdout has",
    "told": r"^{}",
}

# The file of one that is known to be refused, since another part of the gate tries it.
FILES = {
    "edit": ROOT / "crates" / "{}" / "must-fail" / "{}.edit",
    "case": CHECKS / "wrong_bodies" / "cases" / "{}" / "{}.edit",
}


def kept():
    """What is kept: its kind, and its name."""
    for line in (CHECKS / "kept").read_text(encoding="utf-8").splitlines():
        if line and not line.startswith("#"):
            named, shows, _ = line.partition(" :: ")
            kind, _, name = named.partition(" ")
            if not shows or kind not in (*PRINTED, *FILES, "owed"):
                sys.exit(f"checks/kept: a line that isn't KIND NAME :: WHAT IT SHOWS: {line}")
            yield kind, name


def tests_passed(printed):
    """The tests that passed, each behind its crate's name, which is printed behind all of the crate's tests."""
    passed = []
    for line in printed.splitlines():
        if found := re.match(r"test (\S+) \.\.\. ok$", line):
            passed.append(found[1])
        elif found := re.match(r"rt: (\w+): its tests ", line):
            yield from (f"{found[1]}::{test}" for test in passed)
            passed = []


def is_there(kind, name, printed):
    if kind in PRINTED:
        return re.search(PRINTED[kind].format(re.escape(name)), printed, re.MULTILINE) is not None
    return kind == "owed" or Path(str(FILES[kind]).format(*name.split("/"))).is_file()


def main():
    printed = Path(sys.argv[1]).read_text(encoding="utf-8", errors="replace")
    printed += "\n".join(tests_passed(printed))
    all_kept = list(kept())
    missing = [f"{kind} {name}: it isn't there, or didn't run" for kind, name in all_kept if not is_there(kind, name, printed)]
    counted = Counter(kind for kind, _ in all_kept)
    print("\n".join(missing) if missing else ", ".join(f"{kind} {count}" for kind, count in counted.items()))
    sys.exit(1 if missing else 0)


main()
