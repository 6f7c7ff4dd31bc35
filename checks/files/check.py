"""Runs each case on a folder of its own, and tells of those that fail."""
import argparse
import pathlib
import random
import sys

import copies
import counters
import erasures
import holdings
import likenesses
import makings
import parts
from programs import Mismatch, Programs

CASES = (
    parts.a_first_run,
    parts.every_prefix,
    parts.a_ledger_of_600_deposits,
    parts.a_whole_ledger_grows,
    parts.earlier_versions,
    holdings.of_other_programs,
    holdings.of_nothing,
    holdings.that_cant_be_opened,
    holdings.that_another_program_has,
    makings.a_mistyped_path,
    makings.by_a_command_of_its_own,
    makings.as_many_sectors_as_needed,
    makings.without_room,
    makings.killed,
    copies.of_ledgers,
    copies.that_are_no_ledgers,
    copies.of_earlier_versions,
    copies.that_are_refused,
    copies.that_leave_the_new_file,
    counters.before_a_copy_is_a_ledger,
    counters.of_a_refused_copy,
    counters.of_nobody,
    likenesses.by_copy,
    likenesses.by_a_counter,
    likenesses.by_archive_and_restore,
    likenesses.by_migrate,
    likenesses.by_format,
    erasures.of_what_a_disk_holds,
    erasures.of_who_uses_a_disk,
    erasures.of_files_that_begin_with_zeros,
    erasures.of_real_disks,
)


def attempt(words, work):
    """Whether the case holds, which is told."""
    folder = words.folder / work.__name__
    folder.mkdir()
    folder.chmod(0o755)
    try:
        work(Programs(words.console, words.derbyfig, folder), random.Random(words.seed))
    except (Mismatch, OSError, ValueError) as told:
        print(f"{work.__module__} {work.__name__}: {told if isinstance(told, Mismatch) else repr(told)}")
        return False
    print(f"{work.__module__} {work.__name__}: as it must be")
    return True


def main():
    parser = argparse.ArgumentParser(description=__doc__)
    parser.add_argument("console", help="the turn_console that was built")
    parser.add_argument("derbyfig", help="the derbyfig that was built")
    parser.add_argument("folder", type=pathlib.Path, help="a folder, in which full/ may be a file system without room")
    parser.add_argument("--seed", type=int, default=random.SystemRandom().randrange(1_000_000))
    words = parser.parse_args()
    held = [attempt(words, work) for work in CASES]
    if not all(held):
        sys.exit(f"{held.count(False)} cases failed, with the seed {words.seed}")


main()
