"""Turns on the device in memory."""
import scripts
from image import ACCOUNTS, sectors_needed
from runs import Work
from table import Aim

TURNS = {15: 30_000, 1: 100_000}

# The accounts that the entries of a run are spread over.
SPREADS = (64, ACCOUNTS)

# How many times as many rounds as other works have, since the runs are short.
TIMES = 3


def measure(runs, entries, accounts, ratios, memory):
    """Turns with so many entries each, spread over so many accounts."""
    count, folder = TURNS[entries], runs.folder
    script = scripts.write(folder / "turns", scripts.in_memory(count, entries, accounts))
    sectors = ["--sectors", str(sectors_needed(count))]
    programs = ("proved", "plain", "plain_with_history")
    times = runs.taking_turns(
        {program: Work([folder / program, *sectors], script) for program in programs},
        [("proved", plain) for plain in programs[1:]], TIMES)
    work, kept = f"turns in memory, {entries} a batch, {accounts:,} accounts", times["plain_with_history"]
    ratios.speed(work, count, times["proved"], "plain Rust with the history", kept, Aim(least=0.97))
    ratios.speed(work, count, times["proved"], "plain Rust without", times["plain"], Aim(least=0.8))
    memory.add(f"{count:,} {work}", times["proved"], times["plain"], f"with the history {kept.megabytes()}")
