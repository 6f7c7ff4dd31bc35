"""Checks a trace of turns on a ledger's file, and that the check refuses the same trace with two calls swapped.

Words: the trace, the name of the ledger's file, how many turns were taken, and how many slots each bank has.
"""
import sys

from calls import read_trace
from order import Disorder, turns_in_order


def swapped(calls, one):
    """The calls with this one and the next in the other order."""
    place = next(place for place, call in enumerate(calls) if call is one)
    return calls[:place] + [calls[place + 1], one] + calls[place + 2:]


def refusals(calls, ledger, slots, turn):
    """Why the trace is refused with two neighbouring calls of a turn swapped, for each such pair."""
    for one in turn[:-1]:
        try:
            turns_in_order(swapped(calls, one), ledger, slots)
        except Disorder as told:
            yield str(told)
        else:
            sys.exit(f"not refused where {one.text()} comes after the next call")


def show(told, calls, ledger, slots, turn):
    """Prints a turn's calls, and why the trace is refused with two of them swapped."""
    print(f"{told}:")
    for call in turn:
        print(f"  {call.text()}")
    said = list(refusals(calls, ledger, slots, turn))
    swaps = f"{len(said)} of {len(turn) - 1} traces with two neighbouring calls of this turn swapped are refused"
    print(f"{swaps}, the first ones:")
    for refusal in said[:3]:
        print(f"  {refusal}")


def main():
    trace, ledger, turns, slots = sys.argv[1], sys.argv[2], int(sys.argv[3]), int(sys.argv[4])
    calls = read_trace(trace)
    try:
        posted, empty = turns_in_order(calls, ledger, slots)
    except Disorder as told:
        sys.exit(f"not in order: {told}")
    if len(posted) + empty != turns:
        sys.exit(f"{len(posted)} and {empty} turns are printed, of {turns}")
    replacing = posted[slots::slots]
    if replacing:
        show("one turn with a checkpoint", calls, ledger, slots, replacing[len(replacing) // 2])
    else:
        show("one turn", calls, ledger, slots, posted[len(posted) // 2])
    print(f"{empty} turns without an accepted entry, none with a call on the file")
    print(f"{len(posted)} turns, {len(replacing)} of them with a checkpoint, each in order")


main()
