"""Lets offices with an archive and without take turns, and lists a book beside SQLite. Prints a row for each.

Words: the folder with the programs, how many rounds, and how many batches the book has.
"""
import os
import pathlib
import resource
import shutil
import sqlite3
import statistics
import subprocess
import sys
import time

sys.path.insert(0, str(pathlib.Path(__file__).parents[1] / "counters"))
from measure import Office, spread, talk

# Slots of a bank, which are the turns of a span too, up to 5,000.
SLOTS = (64, 256, 1_024, 5_000)

COUNTERS, UNDER_WAY, POSTINGS = 8, 64, 60_000

# Slots of the ledger that the book is made of.
SLOTS_OF_THE_BOOK = 5_000


def rate(folder, slots, is_kept):
    """Postings a second of an office, with an archive or without, and how many files the archive has."""
    books = folder / "books"
    shutil.rmtree(books, ignore_errors=True)
    books.mkdir()
    with Office(folder, COUNTERS, slots, *(("--archive", books) if is_kept else ())) as office:
        answered, _, taken, *_ = talk(folder, office, UNDER_WAY, POSTINGS)
        office.close()
    return answered / taken, sum(path.name.isdigit() for path in books.iterdir())


def print_offices(folder, rounds):
    print("| Slots | Postings a second without | With an archive | Beside | Its quartiles | Files of the archive |")
    print("|---|---|---|---|---|---|")
    for slots in SLOTS:
        pairs = [(rate(folder, slots, False)[0], *rate(folder, slots, True)) for _ in range(rounds)]
        ratios = [kept / bare for bare, kept, _ in pairs]
        bare, kept, files = (statistics.median([pair[place] for pair in pairs]) for place in range(3))
        print(f"| {slots:,} | {bare:,.0f} | {kept:,.0f} | {statistics.median(ratios):.2f} | {spread(ratios)} | {files:,.0f} |")


def make_book(folder, batches):
    """An archive of so many batches of one posting each."""
    books = folder / "books"
    shutil.rmtree(books, ignore_errors=True)
    books.mkdir()
    with Office(folder, COUNTERS, SLOTS_OF_THE_BOOK, "--archive", books) as office:
        talk(folder, office, 1, batches)
        office.close()
    return books


def make_table(folder, book):
    """A table with the rows that the book is listed as."""
    path = folder / "rows.db"
    path.unlink(missing_ok=True)
    table = sqlite3.connect(path)
    with subprocess.Popen([folder / "office", "journal", book, "--as", "csv"], stdout=subprocess.PIPE, text=True) as listing:
        names = next(listing.stdout).strip().split(",")
        table.execute("create table rows ({})".format(", ".join(f'"{name}"' for name in names)))
        rows = (line.rstrip("\n").split(",") for line in listing.stdout)
        table.executemany(f"insert into rows values ({', '.join('?' * len(names))})", rows)
    table.commit()
    count = table.execute("select count(*) from rows").fetchone()[0]
    table.close()
    return path, count


def listed(words):
    """The seconds of a run whose output goes nowhere, and its most memory in MB."""
    start = time.monotonic()
    run = subprocess.Popen(words, stdout=subprocess.DEVNULL)
    _, status, used = os.wait4(run.pid, 0)
    run.returncode = os.waitstatus_to_exitcode(status)
    if run.returncode != 0:
        sys.exit(f"{words[0]} ends as {run.returncode}")
    return time.monotonic() - start, used.ru_maxrss / 1024


def print_book(folder, rounds, batches):
    book = make_book(folder, batches)
    path, count = make_table(folder, book)
    files = sum(path.name.isdigit() for path in book.iterdir())
    print(f"\nA book of {batches:,} batches of one posting, in {files} files, listed as {count:,} rows of CSV:\n")
    runs = {
        "`derbyfig journal --as csv`": [folder / "office", "journal", book, "--as", "csv"],
        "`sqlite3 -csv`": ["sqlite3", "-csv", path, "select * from rows"],
        "`derbyfig balances`": [folder / "office", "balances", book],
        "`derbyfig check`": [folder / "office", "check", book],
    }
    told = {name: [] for name in runs}
    for _ in range(rounds):
        for name, words in runs.items():
            told[name].append(listed(words))
    print("| Run | Seconds | Most memory |")
    print("|---|---|---|")
    for name, pairs in told.items():
        seconds, memory = zip(*pairs)
        print(f"| {name} | {statistics.median(seconds):.2f} | {max(memory):.1f} MB |")


def main():
    folder, rounds, batches = pathlib.Path(sys.argv[1]), int(sys.argv[2]), int(sys.argv[3])
    resource.setrlimit(resource.RLIMIT_NOFILE, (4_096, 4_096))
    print_offices(folder, rounds)
    print_book(folder, rounds, batches)


if __name__ == "__main__":
    main()
