"""Measures turns on banks of few and of many slots, and the opening of a file with long banks, and prints tables.

Words: the folder of the programs `proved`, `plain`, `banks_floor`, `read_once` and `stopwatch`, and how many rounds.
What each round found is told on standard error as it goes.
"""
import pathlib
import statistics
import sys

import opening
import timed
from runs import Runs, require_same
from table import Memory, Ratios, print_rows

# Slots of a bank. With as many as there are turns no bank is replaced; with one, each turn but the first replaces one.
SLOTS = (1, 4, 64, 1_024, timed.TURNS)
NAMES = {"proved": "proved", "plain": "plain Rust", "floor": "C floor"}


def one_round(folder, script, slots):
    """What the turns of each program took, on a file of its own, which the plain program or the proved one formatted."""
    paths = {name: folder / f"{name}.ledger" for name in NAMES}
    commands = {name: [folder / name, "--device", paths[name]] for name in ("proved", "plain")}
    commands["floor"] = [folder / "banks_floor", paths["floor"], str(slots), str(timed.TURNS)]
    found = {}
    for name, command in commands.items():
        timed.formatted(folder / ("plain" if name == "floor" else name), paths[name], slots)
        found[name] = timed.spent(command, script, slots)
    require_same(paths["proved"], paths["plain"])
    return found


def median(rounds, name, part):
    return statistics.median(getattr(one[name], part) for one in rounds)


def beside_floor(rounds, name):
    """The median of the ratios of the mean turns of runs beside each other."""
    return statistics.median(one[name].mean / one["floor"].mean for one in rounds)


def rows(slots, rounds):
    """A row for each program: medians of the rounds."""
    for name, told in NAMES.items():
        parts = [median(rounds, name, part) for part in ("plain", "renewing", "mean", "worst_plain", "worst_renewing")]
        times = [f"{part:.3f}" if part else "" for part in parts]
        yield (f"{slots:,}", told, *times, f"{beside_floor(rounds, name):.2f}")


def checkpoints(measured):
    """How many checkpoints a second a program makes: what a turn with one takes beyond one of banks that never fill."""
    yield ("checkpoints of banks of 1 slot", "milliseconds", "a second", "to the floor")
    own = {}
    for name in NAMES:
        pairs = zip(measured[1], measured[timed.TURNS])
        own[name] = statistics.median(few[name].renewing - many[name].plain for few, many in pairs)
    for name, told in NAMES.items():
        yield (told, f"{own[name]:.3f}", f"{1000 / own[name]:,.0f}", f"{own[name] / own['floor']:.2f}")


def main():
    folder, count = pathlib.Path(sys.argv[1]), int(sys.argv[2])
    script = folder / "turns"
    script.write_text(timed.script(), encoding="ascii")
    measured = {slots: [] for slots in SLOTS}
    for _ in range(count):
        for slots in SLOTS:
            measured[slots].append(one_round(folder, script, slots))
            for row in rows(slots, measured[slots][-1:]):
                print(*row, sep="  ", file=sys.stderr, flush=True)
    print(f"milliseconds, medians of {count} runs of {timed.TURNS:,} turns")
    print_rows([
        ("slots", "", "without a checkpoint", "with one", "mean", "worst without", "worst with", "mean to the floor's"),
        *(row for slots in SLOTS for row in rows(slots, measured[slots])),
    ])
    print()
    print_rows(list(checkpoints(measured)))
    print()
    ratios, memory = Ratios(), Memory()
    opening.measure(Runs(folder, count), ratios, memory)
    print_rows(ratios.rows)
    print()
    print_rows(memory.rows)


main()
