"""Lets the plain and the proved program take turns, and prints how many turns a second each took through its office.

Words: the plain program, the proved one, and how many rounds. Each program prints the turns that the history holds, the
next sequence number, the total and a number of all balances, which have to be the same in all runs, and nanoseconds.
"""
import statistics
import subprocess
import sys

# By how many threads.
AIMS = {1: 0.9, 3: 0.8}

# Threads, entries a turn, and sweeps of four turns.
WORK = (
    (1, 15, 20_000), (1, 1, 40_000), (1, 0, 60_000),
    (3, 15, 10_000), (3, 1, 10_000), (3, 0, 20_000),
)

# Three threads that one core runs in turn: then no thread waits for another core.
ON_ONE_CORE = ("taskset", "--cpu-list", "0")


def run(command, work):
    """What a program left, and its turns a second."""
    words = [str(number) for number in work]
    told = subprocess.run([*command, *words], capture_output=True, check=True, text=True)
    *left, nanoseconds = map(int, told.stdout.split())
    return left, left[0] * 1e9 / nanoseconds


def measure(plain, proved, work, rounds):
    """The turns a second of both programs, run by run."""
    rates = []
    for _ in range(rounds):
        (plain_left, plain_rate), (proved_left, proved_rate) = run(plain, work), run(proved, work)
        if proved_left != plain_left or proved_left[0] != 4 * work[2]:
            sys.exit(f"{work}: proved left {proved_left}, plain Rust {plain_left}")
        rates.append((proved_rate, plain_rate))
    return rates


def row(cores, work, rates):
    """The medians of runs, and the median and the quartiles of the ratios of runs beside each other."""
    proved, plain = (statistics.median(column) for column in zip(*rates))
    ratios = [a / b for a, b in rates]
    low, ratio, high = statistics.quantiles(ratios, n=4, method="inclusive")
    aim = AIMS[work[0]]
    met = "met" if ratio >= aim else "missed"
    return (f"| {work[0]} | {cores} | {work[1]} | {proved:,.0f} | {plain:,.0f} | {ratio:.2f} | {low:.2f} to {high:.2f} "
            f"| at least {aim:.2f} | {met} |")


def main():
    plain, proved, rounds = sys.argv[1], sys.argv[2], int(sys.argv[3])
    print("| Threads | Cores | Entries a turn | Proved, turns a second | Plain Rust | Ratio | Its quartiles | Aim | |")
    print("|---|---|---|---|---|---|---|---|---|")
    for work in WORK:
        print(row("all", work, measure([plain], [proved], work, rounds)), flush=True)
    for work in WORK[3:]:
        rates = measure([*ON_ONE_CORE, plain], [*ON_ONE_CORE, proved], work, rounds)
        print(row("one", work, rates), flush=True)


main()
