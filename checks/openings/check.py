"""Runs each case in a folder of its own, and prints a line for each: what failed, or how often a program ran.

    python3 checks/openings/check.py CONSOLE DERBYFIG FOLDER
"""
import pathlib
import subprocess
import sys

HERE = pathlib.Path(__file__).parent
# These write the bytes of a ledger and of its records.
sys.path += [str(HERE.parent / "files"), str(HERE.parent / "calls")]

import disks
import growths
import ledgers
import looks
import transfers
from noted import Mismatch, Programs

CASES = (
    growths.of_a_new_file,
    growths.of_an_old_file,
    growths.of_a_file_that_has_them_all,
    growths.that_have_a_cause,
    growths.in_a_folder_that_may_not_be_read,
    growths.in_parts,
    growths.in_the_folder_of_the_name,
    growths.with_closed_streams,
    growths.that_never_cut,
    growths.of_an_older_ledger,
    transfers.of_what_is_moved_in_parts,
    transfers.of_writes_that_fail_within,
    transfers.of_reads_that_fail_within,
    transfers.behind_a_failed_sync,
    looks.that_only_read,
    looks.that_fail,
    looks.that_are_copied,
    ledgers.that_grow_once_they_are_looked_at,
    ledgers.that_a_script_works_on,
    disks.of_which_a_step_fails,
    disks.that_have_a_cause,
    disks.that_hold_a_ledger_or_nothing,
    disks.that_are_written_over,
    disks.that_are_mounted,
    disks.that_have_a_number,
    disks.that_are_too_small_for_a_ledger,
)


def holds(case, console, derbyfig, work):
    """Whether the case holds. A line says so."""
    name = f"{case.__module__} {case.__name__}"
    programs = Programs(console, derbyfig, work, work / name.replace(" ", "_"))
    programs.anew()
    try:
        case(programs)
    except (Mismatch, OSError, ValueError, IndexError, subprocess.SubprocessError) as told:
        print(f"{name}: {told if isinstance(told, Mismatch) else repr(told)}", flush=True)
        return False
    print(f"{name}: as it must be, runs: {programs.runs}", flush=True)
    return True


def main():
    console, derbyfig, work = sys.argv[1], sys.argv[2], pathlib.Path(sys.argv[3])
    held = [holds(case, console, derbyfig, work) for case in CASES]
    if not all(held):
        sys.exit(f"{held.count(False)} cases failed")


main()
