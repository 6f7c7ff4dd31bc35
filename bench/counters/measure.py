"""Lets offices with counters, the floor in C and SQLite take turns, and prints a row for each.

Words: the folder with the programs, how many rounds, and how many postings the long run has.
"""
import os
import pathlib
import re
import statistics
import subprocess
import sys
import time

# How many counters, how many postings each client has under way, and how many are posted in all.
OFFICES = ((1, 64, 60_000), (3, 64, 60_000), (8, 64, 60_000), (1, 1, 5_000), (3, 1, 10_000), (8, 1, 20_000))

# How many processes write to one database, how many entries each has in a transaction, and how many transactions there
# are in all.
WRITERS = ((1, 15, 3_000), (3, 15, 3_000), (1, 1, 3_000), (3, 1, 3_000))

BATCHES = 2_000

# Slots of a bank, so many that there is no checkpoint in a run, and those of the long run.
SLOTS = 32_768
SLOTS_OF_THE_LONG_RUN = 1_024

PIECE = 256 * 512


def sectors(slots):
    return 39 + 4 * slots


class Office:
    """An office of so many counters on a file that it formats."""

    def __init__(self, folder, counters, slots, *more):
        self.file = folder / "ledger"
        self.file.unlink(missing_ok=True)
        self.counters = [folder / f"counter_{number}" for number in range(counters)]
        for counter in self.counters:
            counter.mkdir(exist_ok=True)
            for name in ("in", "out"):
                if not (counter / name).exists():
                    os.mkfifo(counter / name)
        said = [word for counter in self.counters for word in ("--counter", counter)]
        words = ["serve", self.file, "--format", str(slots), "--sectors", str(sectors(slots)), "--no-hello"]
        self.run = subprocess.Popen([folder / "office", *words, *said, *more], stdout=subprocess.PIPE, stdin=subprocess.DEVNULL)

    def __enter__(self):
        while not (line := self.run.stdout.readline()).startswith(b"opened "):
            if not line:
                sys.exit("the office isn't opened")
        return self

    def __exit__(self, *_):
        if self.run.poll() is None:
            self.run.kill()
        self.run.wait()
        self.file.unlink()

    def most_memory(self):
        text = pathlib.Path(f"/proc/{self.run.pid}/status").read_text(encoding="ascii")
        return int(re.search(r"VmHWM:\s+(\d+) kB", text)[1])

    def close(self):
        with open(self.counters[0] / "in", "wb", buffering=0) as client, open(self.counters[0] / "out", "rb") as told:
            client.write(b"close\n")
            if told.readline() != b"closing\n" or self.run.wait(60) != 0:
                sys.exit("the office isn't closed")


def talk(folder, office, under_way, postings):
    """Of so many postings how many were answered, in how many batches, and the seconds of all, and of the answers those of
    the median, of the 99th percentile and of the slowest."""
    words = [folder / "clients", str(postings), str(under_way), *office.counters]
    told = subprocess.run(words, stdout=subprocess.PIPE, check=True)
    answered, batches, *nanoseconds = map(int, told.stdout.split())
    return answered, batches, *(each / 1e9 for each in nanoseconds)


def with_counters(folder, counters, under_way, postings):
    with Office(folder, counters, SLOTS) as office:
        told = talk(folder, office, under_way, postings)
        office.close()
    return told


def floor(folder):
    """Batches a second: each two writes and two syncs, on a file that has its length."""
    path = folder / "floor.file"
    with open(path, "wb", buffering=0) as file:
        for _ in range(0, 512 * sectors(BATCHES), PIECE):
            file.write(bytes(PIECE))
        os.fsync(file.fileno())
    start = time.monotonic()
    subprocess.run([folder / "floor", path, str(BATCHES)], check=True)
    taken = time.monotonic() - start
    path.unlink()
    return BATCHES / taken


def script(folder, entries, transactions):
    """A script for SQLite, whose entries are those of the counters' clients."""
    path = folder / f"script {entries} {transactions}"
    if not path.exists():
        with open(path, "w", encoding="ascii") as lines:
            for place in range(entries * transactions):
                lines.write(f"post 0 deposit {1 + place % 1024} {1 + place % 97}\n")
                if (place + 1) % entries == 0:
                    lines.write("turn 0\n")
    return path


def in_sqlite(folder, writers, entries, transactions):
    """Entries and transactions a second that so many processes post to one database, which has its tables already."""
    path = folder / "sqlite.db"
    for left in folder.glob(f"{path.name}*"):
        left.unlink()
    subprocess.run([folder / "sqlite", path], stdin=subprocess.DEVNULL, stdout=subprocess.DEVNULL, check=True)
    said = script(folder, entries, transactions // writers)
    start, runs = time.monotonic(), []
    for _ in range(writers):
        with open(said, "rb") as source:
            runs.append(subprocess.Popen([folder / "sqlite", path], stdin=source, stdout=subprocess.DEVNULL))
    if any([run.wait() != 0 for run in runs]):
        sys.exit("SQLite failed")
    taken = time.monotonic() - start
    return entries * transactions / taken, transactions / taken


def median(values):
    return statistics.median(values)


def spread(values):
    low, _, high = statistics.quantiles(values, n=4, method="inclusive")
    return f"{low:.2f} to {high:.2f}"


def print_offices(told):
    """A row for each office. Each run stands beside the floor's just before it."""
    all_floors = [beside for runs in told.values() for beside, _ in runs]
    print(f"The floor: {median(all_floors):,.0f} batches a second, {1e3 / median(all_floors):.3f} ms each.\n")
    print("| Counters | Under way at each | Postings a second | In a batch | Batches a second | Beside the floor | Its quartiles "
          "| Median answer | 99th percentile | In floor's batches: median | 99th percentile | Slowest answer |")
    print("|---|---|---|---|---|---|---|---|---|---|---|---|")
    for (counters, under_way, _), pairs in told.items():
        floors, runs = zip(*pairs)
        postings = median([answered / taken for answered, _, taken, *_ in runs])
        batches = [count / taken for _, count, taken, *_ in runs]
        ratios = [rate / beside for rate, beside in zip(batches, floors)]
        full = median([answered / count for answered, count, *_ in runs])
        middle, late, latest = (median([run[place] for run in runs]) for place in (3, 4, 5))
        in_floors = [median([run[place] * beside for run, beside in zip(runs, floors)]) for place in (3, 4)]
        print(f"| {counters} | {under_way} | {postings:,.0f} | {full:.1f} | {median(batches):,.0f} | {median(ratios):.2f} "
              f"| {spread(ratios)} | {middle * 1e3:.3f} ms | {late * 1e3:.3f} ms | {in_floors[0]:.1f} | {in_floors[1]:.1f} "
              f"| {latest * 1e3:.1f} ms |")


def print_sqlite(told):
    print("\n| SQLite's writers | Entries a transaction | Entries a second | Transactions a second | Beside the floor "
          "| Its quartiles |")
    print("|---|---|---|---|---|---|")
    for (writers, entries, _), pairs in told.items():
        floors, runs = zip(*pairs)
        ratios = [rate / beside for (_, rate), beside in zip(runs, floors)]
        print(f"| {writers} | {entries} | {median([rate for rate, _ in runs]):,.0f} "
              f"| {median([rate for _, rate in runs]):,.0f} | {median(ratios):.2f} | {spread(ratios)} |")


def long_run(folder, postings):
    """The most memory of an office with eight counters, before and behind so many postings."""
    with Office(folder, 8, SLOTS_OF_THE_LONG_RUN) as office:
        before = office.most_memory()
        answered, batches, taken, *_, slowest = talk(folder, office, 64, postings)
        most = office.most_memory()
        office.close()
    print(f"\n{answered:,} postings of eight counters in {batches:,} batches on banks of {SLOTS_OF_THE_LONG_RUN:,} slots, in "
          f"{taken:.1f} s, the slowest answer in {slowest * 1e3:.1f} ms: at most {most / 1024:.1f} MB, "
          f"{before / 1024:.1f} MB before.")


def main():
    folder, rounds, postings = pathlib.Path(sys.argv[1]), int(sys.argv[2]), int(sys.argv[3])
    offices, databases = {work: [] for work in OFFICES}, {work: [] for work in WRITERS}
    for _ in range(rounds):
        for work, told in offices.items():
            told.append((floor(folder), with_counters(folder, *work)))
        if (folder / "sqlite").exists():
            for work, told in databases.items():
                told.append((floor(folder), in_sqlite(folder, *work)))
    print_offices(offices)
    if databases[WRITERS[0]]:
        print_sqlite(databases)
    long_run(folder, postings)


if __name__ == "__main__":
    main()
