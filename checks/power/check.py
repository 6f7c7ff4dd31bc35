"""Makes power failures, by cuts of machines and out of recordings, and prints a table of what was told and lost. A control
beside them, which has a fault on purpose, has to lose.

Words: check.py --help tells them. What is run is reproduced by its seed, except for the recordings and the moments of cuts.
"""
import argparse
import concurrent.futures
import os
import pathlib
import random
import shutil
import sys
import time

for folder in ("kills", "offices", "files"):
    sys.path.append(str(pathlib.Path(__file__).parent.parent / folder))

import counters
import cuts
import disks
import initramfs
from here import HereKit
from machine import Kit, end_if_told, with_accelerator
from recordings import record
from replays import Programs, replay
from rounds import Mismatch
from rows import CONTROLS, CUTS, MEASURED, ROWS

HEAD = ("| On | Told | The disk | Crashes | Behind something told | Lost |", "|---|---|---|---|---|---|")


class Report:
    """The rows of the table, told one by one, and how many aren't as they have to be."""

    def __init__(self):
        self.crashes = self.faults = 0

    def row(self, row, outcome, told):
        """Tells of a row: how much was told to the machine's clients, the crashes, and what they lost."""
        role = {True: " (control)", False: "", None: " (measured)"}[row.loses]
        cells = (row.name, f"{told} {row.work.name}", row.kind.name, outcome.crashes, outcome.behind)
        print(f"| {' | '.join(map(str, cells))} | {outcome.lost}{role} |", flush=True)
        if row.loses and outcome.lost == 0:
            self.fault(f"a control that loses nothing: {row.name}")
        if row.loses is False:
            self.crashes += outcome.crashes
            if outcome.lost:
                lines = (f"{times} times: {outcome.examples[kind]}" for kind, times in outcome.faults.most_common(5))
                self.fault("\n".join(lines))

    def fault(self, told):
        self.faults += 1
        print(told, flush=True)


class Run:
    """All recordings and their crashes, and the cuts."""

    def __init__(self, words):
        self.words, self.report, self.recordings = words, Report(), {}
        self.programs = Programs(words.console, words.derbyfig)
        if words.here:
            self.kit = HereKit(words.folder, words.derbyfig, words.console, words.preload)
        else:
            self.kit = with_accelerator(self.kit_of(words), disks.plain(self.blank()))

    def kit_of(self, words):
        target = words.folder / "initramfs"
        files = {"bin/console": words.console, "bin/derbyfig": words.derbyfig, "lib/unsynced.so": words.preload}
        modules = next((words.kernel / "lib/modules").iterdir())
        kit = Kit(next((words.kernel / "boot").glob("vmlinuz-*")), target, words.folder, counters.PORTS)
        initramfs.make(target, kit.names(), modules, words.busybox, files)
        return kit

    def blank(self):
        path = self.words.folder / "blank"
        disks.RAW.make(path)
        return path

    def record(self, rows):
        """Makes the recordings of these rows, each once, some of them at the same time."""
        wanted = dict.fromkeys(row.recorded() for row in rows)
        with concurrent.futures.ThreadPoolExecutor(self.words.processes) as pool:
            for number, key in enumerate(wanted):
                layout, work, preload = key
                wanted[key] = pool.submit(record, self.kit, f"recording_{number}", layout, work(), preload)
        self.recordings = {key: made.result() for key, made in wanted.items()}

    def replay(self, row):
        recording = self.recordings[row.recorded()]
        is_fixed = row.loses or row.layout == disks.XFS
        count = int(row.count * (min(1, self.words.times) if is_fixed else self.words.times))
        outcome = replay(recording, row.kind, count, self.words.seed, self.programs, self.words.processes)
        self.report.row(row, outcome, told_in(recording))

    def cut(self):
        """Makes the cuts, several series of them at the same time, and tells each as a row."""
        with concurrent.futures.ThreadPoolExecutor(self.words.processes) as pool:
            rows = [row for row in CUTS if self.words.rows in row.told()]
            made = [pool.submit(self.series, number, row) for number, row in enumerate(rows)]
            for row, series in zip(rows, made):
                self.report.row(row, *series.result())

    def series(self, number, row):
        work_of = cuts.WORK[row.work]
        moments = random.Random(f"{self.words.seed} cuts {number}")
        return cuts.series(self.kit, f"cuts_{number}", work_of, row.count * self.words.cuts, row.preload, moments)

    def crash(self):
        """Makes the recordings, and crashes out of them."""
        why = without_xfs()
        rows = [row for row in ROWS + CONTROLS + MEASURED if row.layout != disks.XFS or not why]
        rows = [row for row in rows if self.words.rows in row.told()]
        for row in rows:
            self.kit.state_for(row.layout.size())
        self.record(rows)
        for row in rows:
            self.replay(row)
        if why:
            print(f"not tried: xfs, {why}", flush=True)

    def all(self):
        self.kit.state_for(disks.SIZE)
        print("\n".join(HEAD), flush=True)
        for part in (self.cut, self.crash):
            if self.words.only in part.__name__:
                part()


def told_in(recording):
    """How much a recording's work told in all."""
    if isinstance(recording.work, counters.Counters):
        return sum(len(client.heard) for client in recording.work.clients)
    return recording.work.count


def without_xfs():
    """Why crashes of xfs can't be made here, or nothing."""
    if shutil.which("mkfs.xfs") is None:
        return "mkfs.xfs is missing (package xfsprogs)"
    if os.geteuid() != 0:
        return "which is mounted by root"
    if "\txfs\n" not in pathlib.Path("/proc/filesystems").read_text(encoding="ascii"):
        return "whose module this kernel hasn't loaded"
    return "" if pathlib.Path("/dev/loop-control").exists() else "which needs a loop device"


def parsed():
    parser = argparse.ArgumentParser(description=__doc__)
    for name, told in (("console", "the turn_console that was built"), ("derbyfig", "the derbyfig that was built"),
                       ("preload", "the library that skips syncs"), ("folder", "an empty folder"),
                       ("kernel", "a folder with boot/vmlinuz-* and lib/modules/*"), ("busybox", "a static busybox")):
        is_program = name in ("console", "derbyfig", "busybox")
        parser.add_argument(name, type=str if is_program else pathlib.Path, help=told)
    parser.add_argument("--seed", type=int, default=1)
    parser.add_argument("--times", type=float, default=1,
                        help="so many times as many crashes; xfs and controls never have more")
    parser.add_argument("--only", default="", choices=("cut", "crash"), help="the cuts alone, or what is recorded")
    parser.add_argument("--here", action="store_true", help="with --only crash: record by this system, without machines")
    parser.add_argument("--rows", default="", help="only rows whose first two cells have this in them, as archivings")
    parser.add_argument("--processes", type=int, default=os.cpu_count(), help="so many machines or crashes at a time")
    parser.add_argument("--cuts", type=int, default=1, help="so many times as many cuts")
    words = parser.parse_args()
    if words.here and words.only != "crash":
        parser.error("--here needs --only crash")
    return words


def main():
    words, start = parsed(), time.monotonic()
    end_if_told()
    run = Run(words)
    print(f"machines by {run.kit.accelerator}; seed {words.seed}", flush=True)
    try:
        run.all()
    except (Mismatch, OSError) as told:
        sys.exit(f"the seed is {words.seed}: {told}")
    if run.report.faults:
        sys.exit(f"{run.report.faults} rows aren't as they have to be, with the seed {words.seed}")
    minutes = (time.monotonic() - start) / 60
    told = f"{run.report.crashes} power failures in {minutes:.0f} minutes"
    print(f"{told}: nothing that was told is lost, and each control loses")


if __name__ == "__main__":
    main()
