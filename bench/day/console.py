"""Times the console's `day` on scripts that it writes: one day of many empty turns, and many days of full batches.

Words: `stopwatch`, the program, a folder, and how many runs. Scripts of one kind differ in size, so that growth can be
seen. The answers are counted, and compared with what the script comes to. Prints the median, the fastest and the slowest
run.
"""
import os
import statistics
import subprocess
import sys

BATCH = 15

# Where the program's threads run: on all cores, or on one that runs them in turn.
CORES = {"all": set(range(os.cpu_count())), "one": {0}}

# How many turns the one day has, and how many days a script has.
EMPTY = (50_000, 100_000)
FULL = {"all": (1_000, 2_000), "one": (1_000, 2_000, 4_000)}


def empty(turns):
    """One day of turns without entries."""
    yield "format 1\nopen 3 000 100\n"
    yield f"day {turns}\n"


def full(days):
    """Days of four turns, the first three with 15 entries each; the stations begin each day where the last began."""
    yield f"format {3 * days}\nopen 3 000 100\n"
    for _ in range(days):
        for station in range(3):
            yield f"post {station} deposit {station + 1} 1\n" * BATCH
        yield "day 4\n"
    yield "balances\n"


def run(command, script, answers):
    """Seconds, and the most memory in kilobytes, of one run."""
    with open(script, "rb") as source, open(answers, "wb") as sink:
        told = subprocess.run(command, stdin=source, stdout=sink, stderr=subprocess.PIPE, text=True)
    if told.returncode != 0:
        sys.exit(f"{script}: {command} ended with {told.returncode}")
    nanoseconds, memory = map(int, told.stderr.split())
    return nanoseconds / 1e9, memory


def looked_at(answers, turns, posted, days):
    """Ends the program where the answers don't hold so many turns, answered entries and days that all ended well."""
    with open(answers, encoding="ascii") as output:
        lines = output.read().splitlines()
    found = [sum(line.startswith(start) for line in lines) for start in ("turn ", "answer ", "day ")]
    reached = sum(line.startswith("station ") and line.endswith(" Reached") for line in lines)
    accepted = sum(line.startswith("answer ") and " posted " in line for line in lines)
    total = [line for line in lines if line.startswith("total ")]
    wanted_total = [f"total {posted}"] if posted else []
    if found != [turns, posted, days] or reached != 3 * days or accepted != posted or total != wanted_total:
        sys.exit(f"{answers}: {found}, {reached} reached, {accepted} posted, {total}")


def measure(stopwatch, program, folder, cores, name, lines, load, runs):
    """Prints the times of a script."""
    os.sched_setaffinity(0, CORES[cores])
    slots, turns, posted, days = load
    script = os.path.join(folder, name)
    with open(script, "w", encoding="ascii") as sink:
        sink.writelines(lines)
    results = []
    for _ in range(runs):
        command = [stopwatch, program, "--sectors", str(4 * slots + 39)]
        results.append(run(command, script, script + ".answers"))
        looked_at(script + ".answers", turns, posted, days)
    seconds = [seconds for seconds, _ in results]
    middle, memory = statistics.median(seconds), max(memory for _, memory in results)
    print(f"| {days:,} | {cores} | {turns:,} | {posted:,} | {middle:.2f} | {min(seconds):.2f} to {max(seconds):.2f} "
          f"| {turns / middle:,.0f} | {memory / 1024:.0f} MB |", flush=True)


def main():
    stopwatch, program, folder, runs = *sys.argv[1:4], int(sys.argv[4])
    print("| Days | Cores | Turns | Entries | Seconds | From and to | Turns a second | Most memory |")
    print("|---|---|---|---|---|---|---|---|")
    for cores in CORES:
        for turns in EMPTY:
            measure(stopwatch, program, folder, cores, f"empty_{turns}", empty(turns), (1, turns, 0, 1), runs)
        for days in FULL[cores]:
            load = (3 * days, 4 * days, 3 * BATCH * days, days)
            measure(stopwatch, program, folder, cores, f"full_{days}", full(days), load, runs)


main()
