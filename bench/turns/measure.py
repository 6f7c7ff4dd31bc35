"""Measures turns in memory, durable batches on a file, and the opening of a long file, and prints tables.

Words: the folder of the programs `proved`, `plain`, `floor`, `read_once` and `stopwatch`, and how many rounds.
"""
import pathlib
import subprocess
import sys

import durable
import in_memory
import opening
import same
from runs import Runs
from table import Memory, Ratios, print_rows


def filesystem(folder):
    """The filesystem that a folder lies on."""
    told = subprocess.run(["df", "--output=fstype", folder], capture_output=True, check=True, text=True)
    return told.stdout.split()[-1]


def main():
    folder, rounds = pathlib.Path(sys.argv[1]), int(sys.argv[2])
    runs, ratios, memory = Runs(folder, rounds), Ratios(), Memory()
    replaced = same.require_same(folder)
    for entries in in_memory.TURNS:
        for accounts in in_memory.SPREADS:
            in_memory.measure(runs, entries, accounts, ratios, memory)
    durable.measure(runs, ratios, memory)
    opening.measure(runs, ratios, memory)
    memory_runs, durable_runs = in_memory.TIMES * rounds, durable.TIMES * rounds
    print(f"taking turns: medians of {rounds} runs, {memory_runs} in memory, {durable_runs} of durable batches")
    print(f"files on {filesystem(folder)}")
    print("what proved and plain print, and the files that they leave, are equal byte for byte,")
    print(f"here and on {same.SCRIPTS} random scripts in memory and on a file, where {replaced} made checkpoints")
    print()
    print_rows(ratios.rows)
    print()
    print_rows(memory.rows)


main()
