"""Runs programs on the same work, taking turns, and keeps the time of each run and the most memory."""
import dataclasses
import filecmp
import pathlib
import statistics
import subprocess
import sys


class Times:
    """The seconds of each run, and the most kilobytes of all."""

    def __init__(self):
        self.seconds, self.kilobytes = [], 0

    def add(self, seconds, kilobytes):
        self.seconds.append(seconds)
        self.kilobytes = max(self.kilobytes, kilobytes)

    def median(self):
        return statistics.median(self.seconds)

    def megabytes(self):
        return f"{self.kilobytes / 1024:,.1f} MB"


@dataclasses.dataclass
class Work:
    """What one program does: its words, and what is done before each run, untimed."""

    words: list
    script: pathlib.Path = None
    prepare: object = None


class Runs:
    """Runs in the folder of the programs, where what a program prints stands under the name of its work."""

    def __init__(self, folder, rounds):
        self.folder, self.rounds = folder, rounds

    def answers(self, name):
        return self.folder / f"{name}.answers"

    def once(self, name, work):
        """The seconds and the kilobytes of one run."""
        if work.prepare:
            work.prepare()
        words = [self.folder / "stopwatch", *work.words]
        with open(work.script or "/dev/null", "rb") as source, open(self.answers(name), "wb") as sink:
            run = subprocess.run(words, stdin=source, stdout=sink, stderr=subprocess.PIPE)
        told = run.stderr.decode()
        if run.returncode != 0:
            sys.exit(f"{name} ended with {run.returncode}: {told}")
        nanoseconds, kilobytes = told.split()
        return int(nanoseconds) / 1e9, int(kilobytes)

    def taking_turns(self, works, pairs, times=1):
        """The times of each work, over so many times the rounds. What the two of a pair print has to be equal."""
        found = {name: Times() for name in works}
        for _ in range(times * self.rounds):
            for name, work in works.items():
                found[name].add(*self.once(name, work))
            for one, other in pairs:
                require_same(self.answers(one), self.answers(other))
        return found


def require_same(one, other):
    if not filecmp.cmp(one, other, shallow=False):
        sys.exit(f"{one.name} and {other.name} differ")
