"""The opening of a long file, which the page cache holds, and of the same file from the disk, beside a floor in C, plain
Rust, and one read of what the opening looks at: the superblock and the live bank.
"""
import os
import sys

import image
import scripts
from runs import Work
from table import Aim

SLOTS = 100_000

# How many entries a batch has, and what an opening from the page cache may take beside the floor.
MOST = {15: 1.3, 1: 1.5}


def forget(path):
    """Makes the system drop what it holds of the file, so that it is read from the disk."""
    def prepare():
        with open(path, "rb") as file:
            os.fsync(file.fileno())
            os.posix_fadvise(file.fileno(), 0, 0, os.POSIX_FADV_DONTNEED)
    return prepare


def taking_turns(runs, path, prepare, wanted):
    """The times of one read, of the floor and of both consoles, which have to find these lines."""
    folder = runs.folder
    script = scripts.write(folder / "opening", ["open 3 000 100", "balances"])
    times = runs.taking_turns({
        "one read": Work([folder / "read_once", path, str(image.live_bytes(SLOTS))], prepare=prepare),
        "C floor": Work([folder / "opening_floor", path], prepare=prepare),
        "proved": Work([folder / "proved", "--device", path], script, prepare),
        "plain": Work([folder / "plain", "--device", path], script, prepare),
    }, [("proved", "plain"), ("proved", "C floor")])
    if runs.answers("proved").read_text().splitlines() != wanted:
        sys.exit("the opened ledger holds something else than the file")
    return times


def measure(runs, ratios, memory):
    for places, most in MOST.items():
        path = runs.folder / "opened.ledger"
        wanted = image.write(path, SLOTS, places=places)
        work = f"opening a full bank of {SLOTS:,} batches of {places}"
        for told, prepare, floor, plain in (
            (f"{work}, from the disk", forget(path), None, Aim(most=1.1)),
            (f"{work}, from the page cache", None, Aim(most=most), None),
        ):
            times = taking_turns(runs, path, prepare, wanted)
            ratios.time(told, times["proved"], "C floor", times["C floor"], floor)
            ratios.time(told, times["proved"], "plain Rust", times["plain"], plain)
            ratios.time(told, times["proved"], "one read", times["one read"], None)
        memory.add(work, times["proved"], times["plain"], f"one read {times['one read'].megabytes()}")
