"""Kills the console at random moments, opens the file again, and compares what is there with what was acknowledged.

Words: the program, the file, how many rounds, and the seed of the random moments.
"""
import collections
import pathlib
import random
import subprocess
import sys

import batches
import file
from rounds import Mismatch, Outside, acknowledged, killed, long_script, require

TURNS = 400

# So few slots in each bank that the console makes a checkpoint in each eighth turn.
SLOTS = 8


def run(program, path, script, *words):
    """What the program prints for a script on the file."""
    words = [program, "--device", path, *words]
    return subprocess.run(words, input=script, stdout=subprocess.PIPE, check=True).stdout


def recovered(program, path):
    """How many batches a new run of the program finds, whose balances have to be those of just these."""
    told = run(program, path, b"open 3 000 100\nbalances\n")
    require(told.startswith(b"opened 3 next "), f"the file isn't opened: {told[:40]}")
    count = int(told.split()[3])
    require(told == batches.shown(count), f"the balances aren't those of {count} batches")
    return count


def one_round(program, path, first, moments):
    """Kills one run, and gives how many batches were acknowledged and recovered, and what stood of the next one."""
    script, printed = long_script(first, TURNS)
    source = path.with_suffix(".script")
    source.write_bytes(script)
    read = killed(program, path, source, moments.randint(1, TURNS - 50), moments.uniform(0, 2))
    answered = acknowledged(read, first, printed)
    found = recovered(program, path) - first
    require(answered <= found <= TURNS, f"{answered} turns acknowledged, {found} recovered, of {TURNS}")
    if found > answered:
        return answered, found, "all"
    return answered, found, file.under_way(path, first + found)


def all_rounds(program, path, count, moments):
    """The outcomes of so many rounds, on one file, and how many runs ended before their moment and were repeated."""
    outcomes, first, outside = [], 0, 0
    while len(outcomes) < count:
        try:
            answered, found, stood = one_round(program, path, first, moments)
        except Outside:
            outside += 1
            require(outside < count, "too many runs ended before their moment")
            first = recovered(program, path)
            continue
        first += found
        outcomes.append((answered, found, stood))
        print(f"round {len(outcomes)}: {answered} acknowledged, {found} recovered; of the turn under way stood {stood}")
    return outcomes, outside


def require_refused(program, path):
    """That a batch of which a part is missing would show: one more, which the live bank then holds."""
    last = recovered(program, path)
    run(program, path, long_script(last, 1)[0])
    torn = path.with_suffix(".torn")
    torn.write_bytes(file.without_last_entry(path, last))
    try:
        recovered(program, torn)
    except Mismatch as told:
        print(f"with the last entry of the last batch missing: {told}")
    else:
        raise Mismatch("a missing entry isn't told")


def main():
    program, path = sys.argv[1], pathlib.Path(sys.argv[2])
    count, seed = int(sys.argv[3]), int(sys.argv[4])
    print(f"seed {seed}: {count} rounds on one file, each of {TURNS} turns with 6 entries, ended at a random moment")
    run(program, path, f"format {SLOTS}\n".encode(), "--sectors", str(4 * SLOTS + 39))
    try:
        outcomes, outside = all_rounds(program, path, count, random.Random(seed))
        require_refused(program, path)
    except Mismatch as told:
        sys.exit(str(told))
    answers, batches_found = (sum(outcome[place] for outcome in outcomes) for place in (0, 1))
    print(f"{outside} runs ended before their moment, and were repeated")
    for stood, times in collections.Counter(outcome[2] for outcome in outcomes).most_common():
        print(f"of the turn under way stood {stood}: {times} rounds")
    told = f"{answers} turns acknowledged, {batches_found} batches recovered"
    print(f"{count} rounds, {told}: each time all acknowledged ones, and whole ones alone")


main()
