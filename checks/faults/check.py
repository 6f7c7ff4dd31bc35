"""Runs each case on a folder of its own, and tells of those that fail: python3 checks/faults/check.py DERBYFIG LIBRARY FOLDER"""
import pathlib
import sys

import exports
import makings
import names
import offices
import sources
from failing import Failing, Mismatch

CASES = (
    makings.of_a_new_ledger,
    makings.of_copies,
    makings.over_what_is_there,
    makings.of_an_archive,
    makings.that_have_no_room,
    makings.that_cant_be_told,
    names.of_a_file_that_cant_be_read,
    names.of_what_has_the_name_by_then,
    sources.that_cant_be_read,
    sources.without_memory,
    offices.of_a_new_ledger,
    offices.of_copies,
    offices.of_copies_without_memory,
    offices.of_an_archive,
    exports.that_cant_be_read,
    exports.at_a_full_output,
    exports.of_what_changes,
    exports.without_memory,
)


def holds(case, program, library, folder):
    """Whether the case holds, which is told."""
    name = f"{case.__module__} {case.__name__}"
    try:
        case(Failing(program, library, folder / name.replace(" ", "_")))
    except (Mismatch, OSError, ValueError, IndexError, KeyError) as told:
        print(f"{name}: {told if isinstance(told, Mismatch) else repr(told)}", flush=True)
        return False
    print(f"{name}: as it must be", flush=True)
    return True


def main():
    program, library, folder = sys.argv[1], pathlib.Path(sys.argv[2]), pathlib.Path(sys.argv[3])
    held = [holds(case, program, library, folder) for case in CASES]
    if not all(held):
        sys.exit(f"{held.count(False)} cases failed")


main()
