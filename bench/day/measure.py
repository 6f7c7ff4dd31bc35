"""Lets the plain and the proved program take turns, and prints how many entries or turns a second each took.

Words: the plain program, the proved one, and how many rounds. Each program prints the turns that the history holds, the
next sequence number, the total, what the clients submitted, how many posted entries and how many others they were
answered, and nanoseconds. How many entries a turn has is the threads', so with clients each run is held against itself.
"""
import statistics
import subprocess
import sys

# With clients, and of empty turns.
AIM_WITH_CLIENTS, AIM_EMPTY = 0.9, 0.85

# Stations, places of a ring, or 0 for no clients, and turns.
WITH_CLIENTS = (3, 64, 100_000)
EMPTY = ((2, 0, 100_000), (4, 0, 100_000), (8, 0, 100_000), (16, 0, 100_000))

# A run that is over when its threads have barely begun.
SHORT = (3, 0, 4)

# Threads that one core runs in turn: then none waits for another core.
ON_ONE_CORE = ("taskset", "--cpu-list", "0")


def run(command, work):
    """How many entries and turns a second a program took, and how many entries a turn; what it left is looked at."""
    words = [str(number) for number in work]
    told = subprocess.run([*command, *words], capture_output=True, check=True, text=True)
    taken, batches, total, submitted, posted, others, nanoseconds = map(int, told.stdout.split())
    stations, places, turns = work
    # what has no collected answer lies in the rings, or is held
    if taken != turns or others != 0 or not posted <= total <= submitted <= posted + stations * (2 * places + 15):
        sys.exit(f"{command} {work}: {told.stdout}")
    if batches > turns or not batches <= total <= 15 * batches:
        sys.exit(f"{command} {work}: {told.stdout}")
    work_done = total if places else taken
    return work_done * 1e9 / nanoseconds, total / taken


def measure(plain, proved, work, rounds):
    """What both programs took, run by run."""
    return [(run(proved, work), run(plain, work)) for _ in range(rounds)]


def row(cores, work, runs):
    """The medians of runs, and the median and the quartiles of the ratios of runs beside each other."""
    rates = [(proved[0], plain[0]) for proved, plain in runs]
    proved, plain = (statistics.median(column) for column in zip(*rates))
    ratios = [a / b for a, b in rates]
    low, ratio, high = statistics.quantiles(ratios, n=4, method="inclusive")
    stations, places, turns = work
    if places:
        fill = [statistics.median(column) for column in zip(*((a[1], b[1]) for a, b in runs))]
        kind = f"entries, {fill[0]:.1f} a turn, plain Rust {fill[1]:.1f}"
    else:
        kind = f"turns, empty, {turns:,} in all"
    least = AIM_WITH_CLIENTS if places else AIM_EMPTY
    aim = f" at least {least:.2f} | {'met' if ratio >= least else 'missed'} " if work != SHORT else " | "
    return (f"| {stations} | {stations if places else 0} | {cores} | {kind} | {proved:,.0f} | {plain:,.0f} | {ratio:.2f} "
            f"| {low:.2f} to {high:.2f} |{aim}|")


def main():
    plain, proved, rounds = sys.argv[1], sys.argv[2], int(sys.argv[3])
    print("| Stations | Clients | Cores | A second | Proved | Plain Rust | Ratio | Its quartiles | Aim | |")
    print("|---|---|---|---|---|---|---|---|---|---|")
    for work in (WITH_CLIENTS, *EMPTY, SHORT):
        print(row("all", work, measure([plain], [proved], work, rounds)), flush=True)
    for work in (WITH_CLIENTS, *EMPTY, SHORT):
        runs = measure([*ON_ONE_CORE, plain], [*ON_ONE_CORE, proved], work, rounds)
        print(row("one", work, runs), flush=True)


main()
