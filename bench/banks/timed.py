"""Times each turn of a run from outside, by the moments at which the answers come: a program hands them over one by one.
"""
import dataclasses
import os
import statistics
import subprocess
import sys
import time

import image

TURNS = 10_000
SWEEP = (0, 1, 2, 1)


@dataclasses.dataclass
class Spent:
    """Milliseconds of one run's turns: the mean of all, and of those without and with a checkpoint the median and the
    worst.
    """

    mean: float
    plain: float
    renewing: float
    worst_plain: float
    worst_renewing: float


def script():
    """So many turns of a line of three stations, each with one deposit, to one account after another."""
    lines = ["open 3 000 100"]
    for number in range(TURNS):
        station = SWEEP[number % 4]
        lines += [f"post {station} deposit {number % image.ACCOUNTS + 1} 1", f"turn {station}"]
    return "".join(line + "\n" for line in lines)


def formatted(program, path, slots):
    """Makes a file with an empty journal."""
    path.unlink(missing_ok=True)
    words = [program, "--device", path, "--sectors", str(image.sectors_needed(slots))]
    subprocess.run(words, input=f"format {slots}\n".encode(), stdout=subprocess.DEVNULL, check=True)


def moments(command, source):
    """When each turn's answer came, in nanoseconds, behind the moment of the start."""
    came = [time.perf_counter_ns()]
    with open(source, "rb") as script_file:
        run = subprocess.Popen(command, stdin=script_file, stdout=subprocess.PIPE, bufsize=0)
    with run:
        while piece := os.read(run.stdout.fileno(), 65_536):
            now = time.perf_counter_ns()
            came += [now] * piece.count(b"turn ")
    if run.returncode != 0 or len(came) != TURNS + 1:
        sys.exit(f"{command} ended with {run.returncode} after {len(came) - 1} turns")
    return came


def spent(command, source, slots):
    """What the turns of a run took. The first one, with the start of the program, isn't counted."""
    came = moments(command, source)
    turns = [(later - earlier) / 1e6 for earlier, later in zip(came, came[1:])]
    renewing = turns[slots::slots] or [0]
    plain = [turn for number, turn in enumerate(turns) if number % slots] or [0]
    mean = statistics.mean(turns[1:])
    return Spent(mean, statistics.median(plain), statistics.median(renewing), max(plain), max(renewing))
