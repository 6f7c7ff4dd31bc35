"""Measures the upgrade of a file of layout 2 whose live bank is full, beside the same in plain Rust, and beside the opening
of as long a file and the writes of a new one, and prints tables.

Words: the folder of the programs `proved`, `plain_migrate` and `stopwatch`, and how many rounds.
"""
import os
import pathlib
import shutil
import sys

import image
import scripts
from runs import Runs, Times, Work, require_same
from table import Aim, Memory, Ratios, milliseconds, print_rows

SLOTS = 100_000


def blank(path):
    """Makes a file of zeros on the disk, or makes that sector one again by which it would be told as a ledger."""
    def prepare():
        with open(path, "r+b" if path.exists() else "wb") as file:
            sectors = 1 if path.stat().st_size else image.sectors_needed(SLOTS)
            file.write(bytes(image.SECTOR * sectors))
            file.flush()
            os.fsync(file.fileno())
    return prepare


def works(folder):
    """What takes turns. All of them write the same new file, since one file may be slower than another by a fifth."""
    old, opened, new = (folder / f"{name}.ledger" for name in ("old", "opened", "new"))
    slots = str(SLOTS)
    formatting = scripts.write(folder / "formatting", [f"format {slots}"])
    return {
        "proved": Work([folder / "proved", "--migrate", old, "--device", new, "--slots", slots], prepare=blank(new)),
        "plain": Work([folder / "plain_migrate", old, new, slots], prepare=blank(new)),
        "opening": Work([folder / "proved", "--device", opened], scripts.write(folder / "opening", ["open 3 000 100"])),
        "writes": Work([folder / "proved", "--device", new], formatting, blank(new)),
    }


def require_upgraded(runs, wanted):
    """Both programs leave the same file, which opens as what the older file holds."""
    new, left = runs.folder / "new.ledger", runs.folder / "plain.ledger"
    made = works(runs.folder)
    runs.once("plain", made["plain"])
    shutil.copyfile(new, left)
    runs.once("proved", made["proved"])
    require_same(new, left)
    script = scripts.write(runs.folder / "looking", ["open 3 000 100", "balances"])
    runs.once("looked", Work([runs.folder / "proved", "--device", new], script))
    if runs.answers("looked").read_text().splitlines() != wanted:
        sys.exit("the new file holds something else than the older one")


def together(one, other):
    """What two works take one after the other."""
    both = Times()
    for first, second in zip(one.seconds, other.seconds):
        both.add(first + second, max(one.kilobytes, other.kilobytes))
    return both


def main():
    runs = Runs(pathlib.Path(sys.argv[1]), int(sys.argv[2]))
    wanted = image.write(runs.folder / "old.ledger", SLOTS, image.SECOND)
    image.write(runs.folder / "opened.ledger", SLOTS)
    times = runs.taking_turns(works(runs.folder), [("proved", "plain")])
    require_upgraded(runs, wanted)
    both, ratios, memory = together(times["opening"], times["writes"]), Ratios(), Memory()
    work = f"an upgrade of a full bank of {SLOTS:,} batches of 15"
    ratios.time(work, times["proved"], "plain Rust", times["plain"], None)
    ratios.time(work, times["proved"], "an opening and a format", both, Aim(most=1.1))
    memory.add(work, times["proved"], times["plain"], f"an opening {times['opening'].megabytes()}")
    print(f"medians of {runs.rounds} runs; an opening alone {milliseconds(times['opening'].median())}, "
          f"a format alone {milliseconds(times['writes'].median())}")
    print_rows(ratios.rows)
    print()
    print_rows(memory.rows)


main()
