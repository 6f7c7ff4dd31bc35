"""Runs through all of a kind: python3 checks/calls/exhaustive.py [--every N] TEST_CONSOLE [NAME..]

Each run prints a line, and the status is 1 if one fails. With names only those run whose names have one of them. With
`--every N` each takes one of N cases, and doesn't compare how many there are: that is for a program that wasn't built to
be fast."""
import argparse
import sys

import changed_images
import days
import faults
import images
import looks
import offices
import replaced_bytes
import stops
from console import Console, Mismatch

RUNS = (
    stops.at_each_call,
    stops.at_each_call_with_old_bytes,
    faults.in_the_first_sync_of_a_turn,
    faults.at_each_call,
    faults.at_each_two_calls,
    faults.with_a_power_loss,
    faults.with_a_later_stop,
    offices.behind_each_fault,
    days.that_stop_at_each_call,
    days.that_fail_at_each_call,
    images.cut_short,
    images.damaged_at_one_place,
    replaced_bytes.each_in_two_images,
    changed_images.at_several_places,
    looks.amid_a_checkpoint,
)


def holds(run, name, program, every):
    """Whether the run holds, which is told."""
    console = Console(program)
    try:
        count = run(console, every)
        console.close()
    except (Mismatch, OSError, ValueError, IndexError) as told:
        print(f"{name}: {told if isinstance(told, Mismatch) else repr(told)}", flush=True)
        return False
    finally:
        console.end()
    print(f"{name}: {count} outcomes, as they must be", flush=True)
    return True


def main():
    words = argparse.ArgumentParser()
    words.add_argument("--every", type=int, default=1)
    words.add_argument("program")
    words.add_argument("names", nargs="*")
    said = words.parse_args()
    named = [(run, f"{run.__module__} {run.__name__}") for run in RUNS]
    chosen = [(run, name) for run, name in named if not said.names or any(it in name for it in said.names)]
    held = [holds(run, name, said.program, said.every) for run, name in chosen]
    if not held or not all(held):
        sys.exit(f"{held.count(False)} of {len(held)} runs failed")


main()
