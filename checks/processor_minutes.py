"""Tells how many processor minutes the gate's proofs, tests and wrong bodies take, crate by crate.

    python3 checks/processor_minutes.py PID    looks at that process and all below it until SIGTERM, then writes the table

It looks at what is running every half second, so that up to half a second of each run of the prover is missing.
"""
import os
import re
import signal
import sys
import time
from collections import defaultdict

PAUSE = 0.5
TICKS = os.sysconf("SC_CLK_TCK") * 60
PARTS = ("proofs", "tests", "wrong bodies")


def running():
    """Each process that is there now: its number with its start, its parent's, its minutes, and its words."""
    for name in filter(str.isdigit, os.listdir("/proc")):
        try:
            with open(f"/proc/{name}/stat", encoding="utf-8", errors="replace") as file:
                fields = file.read().rpartition(")")[2].split()
            with open(f"/proc/{name}/cmdline", encoding="utf-8", errors="replace") as file:
                words = file.read().split("\0")
        except OSError:  # it has ended meanwhile
            continue
        yield (int(name), fields[19]), int(fields[1]), (int(fields[11]) + int(fields[12])) / TICKS, words


def below(top):
    """The processes below this one, itself among them."""
    there = list(running())
    parents = {number: parent for (number, _), parent, _, _ in there}

    def is_below(number):
        while number not in (top, None):
            number = parents.get(number)
        return number == top

    return [one for one in there if is_below(one[0][0])]


def share(words):
    """The crate and the part that a run of the prover is for, or None of another process."""
    if os.path.basename(words[0]) != "rattle" or "--crate-name" not in words:
        return None
    crate = words[words.index("--crate-name") + 1]
    if "--incremental" in words:
        return crate, "wrong bodies"
    return crate, "tests" if "--test" in words else "proofs"


def table(minutes):
    """The lines of the table, dearest first."""
    crates = defaultdict(lambda: dict.fromkeys(PARTS, 0.0))
    for (crate, part), taken in minutes.values():
        crates[crate][part] += taken
    rows = [(crate, *parts.values(), sum(parts.values())) for crate, parts in crates.items()]
    rows.sort(key=lambda row: -row[-1])
    sums = [sum(column) for column in list(zip(*rows))[1:]]
    for name, *figures in [("crate", *PARTS, "all"), *rows, ("all", *sums)]:
        yield name.ljust(20) + "".join((it if isinstance(it, str) else f"{it:.1f}").rjust(14) for it in figures)


def main():
    if len(sys.argv) != 2 or not re.fullmatch(r"\d+", sys.argv[1]):
        sys.exit(__doc__)
    ended, minutes = [], {}
    signal.signal(signal.SIGTERM, lambda *_: ended.append(True))
    while not ended:
        for number, _, taken, words in below(int(sys.argv[1])):
            if told := share(words):
                first, _ = minutes.get(number, (told, 0.0))
                minutes[number] = first, taken
        time.sleep(PAUSE)
    print("\n".join(table(minutes)) if minutes else "no proof was run")


main()
