"""Lets programs that audit moves take turns, and prints how many moves a second each audited.

Words: the plain program, the proved one, the proved one from before the words, and how many rounds. Each program prints
the moves that it audited, the first legitimate index of the last audit and where this audit ended, which have to be the
same in all runs, and nanoseconds.
"""
import statistics
import subprocess
import sys

AIM = 0.9

STATIONS = 64

# What is audited; whether the bits x alternate at the start, and whether the moves are scattered over the line; how
# many moves the list has, and how often it is audited with the line in words, and in arrays.
WORK = (
    ("a sweep", (0, 0, 1_000_000), 50, 50),
    ("from 63 privileges, the lowest moves", (1, 0, 3_906), 5_000, 500),
    ("from 63 privileges, a random one moves", (1, 1, 256), 50_000, 5_000),
)


def run(command, moves, rounds):
    """Where an audit ended, and the moves a second."""
    words = [str(number) for number in (STATIONS, *moves, rounds)]
    told = subprocess.run([*command, *words], capture_output=True, check=True, text=True)
    audited, *ended, nanoseconds = told.stdout.split()
    if int(audited) != rounds * moves[2] - rounds // 2:
        sys.exit(f"{command} audited {audited} moves of {rounds} lists of {moves[2]}")
    return ended, int(audited) * 1e9 / int(nanoseconds)


def measure(programs, name, moves, rounds):
    """The moves a second of each program, run by run."""
    rates = []
    for _ in range(rounds):
        told = [run(command, moves, times) for command, times in programs]
        if any(ended != told[0][0] for ended, _ in told):
            sys.exit(f"{name}: the audits ended at {[ended for ended, _ in told]}")
        rates.append([rate for _, rate in told])
    return rates


def ratio(rates, above, below):
    """The quartiles of the ratios of runs beside each other."""
    return statistics.quantiles([run[above] / run[below] for run in rates], n=4, method="inclusive")


def rows(name, rates):
    """Medians of runs, in millions a second, and ratios of runs beside each other."""
    proved, plain, proved_before, plain_before = (statistics.median(column) / 1e6 for column in zip(*rates))
    low, middle, high = ratio(rates, 0, 1)
    met = "met" if middle >= AIM else "missed"
    beside = (f"| {name} | {proved:.1f} | {plain:.1f} | {middle:.2f} | {low:.2f} to {high:.2f} "
              f"| at least {AIM:.2f} | {met} |")
    before = (f"| {name} | {proved_before:.1f} | {ratio(rates, 0, 2)[1]:.1f} "
              f"| {plain_before:.1f} | {ratio(rates, 1, 3)[1]:.1f} |")
    return beside, before


def main():
    plain, proved, before, rounds = *sys.argv[1:4], int(sys.argv[4])
    beside, earlier = [], []
    for name, moves, in_words, in_arrays in WORK:
        programs = (([proved], in_words), ([plain, "words"], in_words),
                    ([before], in_arrays), ([plain, "arrays"], in_arrays))
        both = rows(name, measure(programs, name, moves, rounds))
        beside.append(both[0])
        earlier.append(both[1])
    print("| Moves | Proved, millions a second | Plain Rust | Ratio | Its quartiles | Aim | |")
    print("|---|---|---|---|---|---|---|")
    print(*beside, sep="\n")
    print()
    print("| Moves | Proved, in arrays | Times as many in words | Plain Rust, in arrays | Times as many in words |")
    print("|---|---|---|---|---|")
    print(*earlier, sep="\n")


main()
