"""Crashes out of a recording: each one's disk is made, the ledger taken out of it and opened, and what is there compared
with what was told when the crash came."""
import collections
import concurrent.futures
import dataclasses
import multiprocessing
import pathlib
import random
import re
import subprocess
import tempfile

import crashes
import disks
from rounds import Mismatch


@dataclasses.dataclass(frozen=True)
class Programs:
    console: str
    derbyfig: str

    def script(self, path, script, by):
        """What a script on a ledger prints."""
        words = [self.console, "--device", path] if by == "console" else [self.derbyfig, "run", path]
        return self.run(words, script)[1]

    def derbyfig_run(self, words, said):
        """How derbyfig ends that hears this, and what it prints."""
        return self.run([self.derbyfig, *words], said)

    @staticmethod
    def run(words, said):
        done = subprocess.run(words, input=said, stdout=subprocess.PIPE, stderr=subprocess.STDOUT, check=False)
        return done.returncode, done.stdout


@dataclasses.dataclass
class Ledgers:
    """The ledgers on a disk as a crash left it."""

    image: disks.Image
    programs: Programs

    def said(self, name, script, by="console"):
        return self.programs.script(self.image.file(name), script, by)


@dataclasses.dataclass
class Outcome:
    """How many crashes were made, by how many something was told before, and what was lost."""

    crashes: int = 0
    behind: int = 0
    faults: collections.Counter = dataclasses.field(default_factory=collections.Counter)
    examples: dict = dataclasses.field(default_factory=dict)

    def note(self, number, fault):
        kind = re.sub(r"\d+", "N", str(fault))[:60]
        self.faults[kind] += 1
        self.examples.setdefault(kind, f"crash {number}: {fault}")

    def add(self, other):
        self.crashes += other.crashes
        self.behind += other.behind
        self.faults += other.faults
        self.examples = other.examples | self.examples

    @property
    def lost(self):
        return self.faults.total()


def crash_of(seed, number, entries):
    """The moment of a crash, which is behind so many entries, and the random choices of what it leaves."""
    moments = random.Random(f"{seed} {number}")
    return moments.randrange(len(entries) + 1), moments


def share(recording, kind, numbers, seed, programs):
    """The crashes of these numbers."""
    outcome, entries = Outcome(), crashes.entries_of(recording.log())
    disk = crashes.Disk(recording.base(), kind, recording.whole(kind))
    wanted = collections.defaultdict(list)
    for number in numbers:
        place, moments = crash_of(seed, number, entries)
        wanted[place].append((number, moments))
    with tempfile.TemporaryDirectory(prefix="crashes.", dir=recording.folder) as folder:
        ledgers = Ledgers(disks.Image(recording.layout, pathlib.Path(folder)), programs)
        for place in range(len(entries) + 1):
            told = recording.told_by(entries[place - 1].end if place else 0) if wanted[place] else []
            for number, moments in wanted[place]:
                ledgers.image.put(disk.crashed(moments))
                outcome.crashes += 1
                outcome.behind += bool(told)
                try:
                    recording.work.require_kept(ledgers, told)
                except Mismatch as fault:
                    outcome.note(number, fault)
            if place < len(entries):
                disk.apply(entries[place], place)
    return outcome


def replay(recording, kind, count, seed, programs, processes):
    """So many crashes, by so many processes."""
    outcome = Outcome()
    with concurrent.futures.ProcessPoolExecutor(processes, multiprocessing.get_context("fork")) as pool:
        shares = [pool.submit(share, recording, kind, range(first, count, processes), seed, programs)
                  for first in range(processes)]
        for done in shares:
            outcome.add(done.result())
    return outcome
