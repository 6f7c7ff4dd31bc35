"""Runs each case in a folder of its own, and prints a line for each: what failed, or how often the program ran.

    python3 checks/drawings/check.py DERBYFIG LIBRARY FOLDER
"""
import pathlib
import subprocess
import sys

HERE = pathlib.Path(__file__).parent
# These have runs in which a call fails, and write the sectors of a ledger.
sys.path += [str(HERE.parent / "faults"), str(HERE.parent / "calls")]

import banks
import cells
import cut_off
import slots
from failing import Mismatch
from pictures import Drawing

CASES = (
    cells.each_of_its_kind,
    cells.of_each_bank_as_it_is,
    cells.of_no_layout,
    cells.joined_where_no_layout_is,
    cells.joined_in_slots,
    cells.with_captions,
    banks.that_have_a_wrong_superblock,
    banks.that_have_wrong_heads,
    banks.that_have_wrong_snapshots,
    slots.of_the_live_bank,
    slots.of_older_layouts,
    cut_off.at_each_reading,
    cut_off.at_a_full_output,
)


def holds(case, program, library, work):
    """Whether the case holds. A line says so."""
    name = f"{case.__module__} {case.__name__}"
    drawing = Drawing(program, library, work / name.replace(" ", "_"))
    try:
        case(drawing)
    except (Mismatch, OSError, ValueError, IndexError, subprocess.SubprocessError) as told:
        print(f"{name}: {told if isinstance(told, Mismatch) else repr(told)}", flush=True)
        return False
    print(f"{name}: as it must be, runs: {drawing.runs}", flush=True)
    return True


def main():
    program, library, work = sys.argv[1], pathlib.Path(sys.argv[2]), pathlib.Path(sys.argv[3])
    held = [holds(case, program, library, work) for case in CASES]
    if not all(held):
        sys.exit(f"{held.count(False)} cases failed")


main()
