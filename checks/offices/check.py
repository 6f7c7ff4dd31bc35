"""Runs each case of the office on a folder of its own, and tells of those that fail. Words: check.py --help tells them."""
import argparse
import functools
import pathlib
import random
import shutil
import signal
import sys

import archives
import asking
import coming
import earlier
import folders
import kills
import locks
import names
import order
import pieces
import reading
import refusals
import retries
import talking
import told
import waiting
from office import Case, Mismatch

CASES = (
    talking.one_after_another,
    talking.all_at_once,
    talking.behind_a_checkpoint,
    talking.said_before_it_opens,
    asking.references_far_above_the_last,
    asking.each_is_told_what_it_asked,
    asking.a_search_tells_of_one_moment,
    coming.hangs_up_and_comes_back,
    coming.says_and_never_listens,
    coming.never_ends_a_line,
    coming.close_at_once,
    coming.closed_from_outside,
    coming.tells_how_it_stands,
    coming.close_amid_postings,
    coming.many_stations,
    pieces.said_at_a_counter,
    pieces.said_at_a_terminal,
    pieces.read_from_a_script,
    pieces.left_by_another_client,
    refusals.counters_that_are_none,
    refusals.a_ledger_that_is_there,
    refusals.wrong_words,
    refusals.a_device_that_fails,
    refusals.an_exhausted_journal,
    refusals.without_threads,
    refusals.closed_streams,
    order.syncs_before_it_tells,
    reading.reads_its_ledger_once,
    waiting.asks_for_nothing,
    waiting.asks_questions_alone,
    waiting.late_threads,
    waiting.at_a_terminal,
    waiting.input_that_ends,
    archives.keeps_each_posting,
    archives.without_an_archive,
    archives.makes_copies,
    archives.an_archive_that_fails,
    folders.in_folders_that_cant_be_used,
    folders.behind_kills,
    folders.where_the_name_is_taken,
    folders.on_a_full_disk,
    folders.an_archive_with_a_gap,
    retries.never_twice,
    retries.unknown_at_most,
    retries.out_of_sight,
    retries.in_the_archive,
    earlier.over_several_files,
    earlier.begun_late,
    earlier.in_a_long_file,
    earlier.in_many_batches_at_once,
    earlier.amid_a_fault,
    earlier.amid_a_fault_of_a_long_ledger,
    earlier.before_hello,
    locks.beside_an_open_office,
    locks.beside_who_adds_to_an_archive,
    locks.without_locks,
    told.exactly_as_far,
    told.wishes_under_load,
    told.wishes_amid_a_recess,
    told.close_of_one_that_goes_on,
    told.behind_what_a_killed_one_left,
    told.what_came_late,
    names.in_any_order,
    names.refused_names,
    names.anew,
    names.only_what_offices_posted,
    names.killed_before_a_script,
    names.an_older_ledger,
    names.taken_along,
    names.loses_its_name,
)


def attempt(words, name, work):
    """What the case gives, on a folder of its own, or nothing where it fails, which is told."""
    folder = words.folder / name
    folder.mkdir()
    case = Case(words.program, folder, words)
    try:
        return work(case) or 0
    except (Mismatch, OSError, ValueError, IndexError) as fault:
        print(f"{name}: {fault if isinstance(fault, Mismatch) else repr(fault)}")
        return None
    finally:
        case.end()
        shutil.rmtree(folder)


def told_of(words, work):
    """The same, where one that holds is told too."""
    outcome = attempt(words, work.__name__, work)
    if outcome is not None:
        print(f"{work.__module__} {work.__name__}: as it must be", flush=True)
    return outcome


def all_kills(words):
    """The outcomes of all kills, each of a file of its own, half of them with checkpoints."""
    moments = random.Random(words.seed)
    outcomes = []
    for number in range(words.kills):
        for name, slots in (("kill", kills.SLOTS), ("kill_amid_checkpoints", kills.FEW_SLOTS)):
            work = functools.partial(kills.one_kill, first=1_000_000 * number, moments=moments, slots=slots)
            outcomes.append(attempt(words, f"{name}_{number}", work))
    return outcomes


def main():
    parser = argparse.ArgumentParser(description=__doc__)
    parser.add_argument("program", help="the derbyfig that was built")
    parser.add_argument("folder", type=pathlib.Path, help="an empty folder")
    parser.add_argument("--kills", type=int, default=5, help="how often it is killed, without checkpoints and with them")
    for name, number, told in (("clients", 4, "how many clients repeat what they weren't told"),
                               ("postings", 60, "how much each of them posts"),
                               ("retries", 12, "how often they or their office are killed"),
                               ("few", 3, "slots of banks that don't hold all of it")):
        parser.add_argument(f"--{name}", type=int, default=number, help=told)
    parser.add_argument("--seed", type=int, default=random.SystemRandom().randrange(1_000_000))
    parser.add_argument("--only", default="", help="the cases whose names have this")
    words = parser.parse_args()
    # so that an end from outside ends what was started too
    signal.signal(signal.SIGTERM, lambda *_: sys.exit("it was ended from outside"))
    cases = [work for work in CASES if words.only in work.__name__]
    outcomes = [told_of(words, work) for work in cases]
    killed = all_kills(words) if words.only in "kills" else []
    if None in outcomes + killed:
        sys.exit(f"{(outcomes + killed).count(None)} cases failed, with the seed {words.seed}")
    told = f"{len(killed)} kills with the seed {words.seed}, of {sum(killed)} postings that were told"
    print(f"{len(cases)} cases hold; {told} none is lost, and none is there that wasn't asked")


main()
