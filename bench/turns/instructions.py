"""Counts the instructions of turns and of openings by `valgrind --tool=callgrind`, and prints a row for each.

Words: the console that was built, and a folder for files. A turn's count is the difference of two scripts, one with twice
as many turns, on devices of one size. An opening's is the difference of full banks of 4,000 and of 2,000 slots.
"""
import pathlib
import re
import subprocess
import sys

import image
import scripts

TURNS = 1_000


def counted(console, script, *words):
    """The instructions of a run."""
    tool = ["valgrind", "--tool=callgrind", "--callgrind-out-file=/dev/null"]
    with open(script, "rb") as said:
        done = subprocess.run(
            [*tool, console, *words], stdin=said, stdout=subprocess.DEVNULL, stderr=subprocess.PIPE, check=True, text=True)
    return int(re.search(r"Collected : (\d+)", done.stderr).group(1))


def turns(console, folder, entries, accounts, slots):
    """Those of a turn on a device in memory with so many slots in each bank."""
    def lines(count):
        yield f"format {slots}"
        yield from scripts.turns(count, entries, accounts)
    once, twice = (
        counted(console, scripts.write(folder / f"turns_{times}", lines(times * TURNS)), "--sectors", "16000") for times in (1, 2))
    return (twice - once) / TURNS


def opening(console, folder):
    """Those of an opening for each slot of the live bank."""
    script, counts = scripts.write(folder / "opening", ["open 3 000 100"]), []
    for slots in (2_000, 4_000):
        path = folder / f"opened_{slots}"
        image.write(path, slots)
        counts.append(counted(console, script, "--device", str(path)))
    return (counts[1] - counts[0]) / 2_000


def main():
    console, folder = sys.argv[1], pathlib.Path(sys.argv[2])
    for entries in (1, 15):
        for accounts in (64, image.ACCOUNTS):
            print(f"| a turn of {entries} entries, {accounts:,} accounts | {turns(console, folder, entries, accounts, 2_000):,.0f} |")
    for slots in (1, 4, 64):
        print(f"| a turn of 1 entry, banks of {slots} slots | {turns(console, folder, 1, 64, slots):,.0f} |")
    print(f"| an opening, for each slot | {opening(console, folder):,.0f} |")


main()
