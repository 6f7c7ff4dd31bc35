"""Durable batches on a file that has its length and an empty journal already, and in SQLite where that is there."""
import os
import subprocess
import sys

import scripts
from image import sectors_needed
from runs import Work, require_same
from table import Aim

BATCHES = 1_000
PIECE = 256 * 512

# How many times as many rounds as other works have. The speed of a disk changes from one second to the next, so runs
# are short and many, and each is compared with the one beside it.
TIMES = 6


def formatted(program, path):
    """Makes a file with the program, and an empty journal in it."""
    def prepare():
        path.unlink(missing_ok=True)
        words = [program, "--device", path, "--sectors", str(sectors_needed(BATCHES))]
        subprocess.run(words, input=f"format {BATCHES}\n".encode(), stdout=subprocess.DEVNULL, check=True)
    return prepare


def zeros(path):
    """Makes a file of zeros of the same length, on the disk, in pieces of 256 sectors, as the console does: the page cache
    keeps a file in pieces as large as it was written in, and a write of one sector takes longer in a large piece.
    """
    def prepare():
        length = 512 * sectors_needed(BATCHES)
        with open(path, "wb", buffering=0) as file:
            for at in range(0, length, PIECE):
                file.write(bytes(min(PIECE, length - at)))
            os.fsync(file.fileno())
    return prepare


def on_file(folder, program, entries):
    """The work of a console with so many entries in each batch, and its file."""
    script = scripts.write(folder / f"batches {entries}", scripts.turns(BATCHES, entries))
    path = folder / f"{program} {entries}.ledger"
    return Work([folder / program, "--device", path], script, formatted(folder / program, path)), path


def in_sqlite(folder, entries):
    """The entries of the same script, in a database that has its tables already."""
    path = folder / f"sqlite {entries}.db"

    def prepare():
        for left in folder.glob(f"{path.name}*"):
            left.unlink()
        subprocess.run([folder / "sqlite", path], stdin=subprocess.DEVNULL, stdout=subprocess.DEVNULL, check=True)
    return Work([folder / "sqlite", path], folder / f"batches {entries}", prepare)


def beside_sqlite(runs, times, entries, ratios):
    """The speeds beside each other, of ledgers with the same total."""
    totals = {runs.answers(f"{name} {entries}").read_text().splitlines()[-1] for name in ("proved", "sqlite")}
    if len(totals) != 1:
        sys.exit(f"SQLite's ledger has another total: {totals}")
    work = f"durable batches, {entries} a batch"
    ratios.speed(work, BATCHES, times[f"proved {entries}"], "SQLite", times[f"sqlite {entries}"], None)


def measure(runs, ratios, memory):
    folder = runs.folder
    has_sqlite = (folder / "sqlite").exists()
    floor = folder / "floor.ledger"
    works = {"floor": Work([folder / "floor", floor, str(BATCHES)], prepare=zeros(floor))}
    pairs, files = [], []
    for entries in (15, 1):
        proved, proved_file = on_file(folder, "proved", entries)
        plain, plain_file = on_file(folder, "plain", entries)
        works |= {f"proved {entries}": proved, f"plain {entries}": plain}
        if has_sqlite:
            works[f"sqlite {entries}"] = in_sqlite(folder, entries)
        pairs.append((f"proved {entries}", f"plain {entries}"))
        files.append((proved_file, plain_file))
    times = runs.taking_turns(works, pairs, TIMES)
    for one, other in files:
        require_same(one, other)
    for entries in (15, 1):
        work = f"durable batches, {entries} a batch"
        proved, plain = times[f"proved {entries}"], times[f"plain {entries}"]
        ratios.speed(work, BATCHES, proved, "plain Rust", plain, Aim(least=0.95))
        ratios.speed(work, BATCHES, proved, "C floor", times["floor"], Aim(least=0.85))
        if has_sqlite:
            beside_sqlite(runs, times, entries, ratios)
        memory.add(f"{BATCHES:,} {work}", proved, plain, f"C floor {times['floor'].megabytes()}")
