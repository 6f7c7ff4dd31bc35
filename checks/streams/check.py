"""Runs each case in a folder of its own, and prints what was seen, or what is wrong."""
import argparse
import pathlib
import subprocess
import sys
import time

for folder in ("faults", "files", "offices"):
    sys.path.append(str(pathlib.Path(__file__).parent.parent / folder))

import closing
import cuts
import damages
import days
import failing
import office
import readers
import serving
import words as words_of_programs
import writers
from runs import Programs

CASES = (
    cuts.a_script_is_cut_after_each_byte,
    readers.one_that_fails_at_each_call,
    readers.one_that_fails_although_it_gave_bytes,
    readers.a_script_of_the_limit,
    readers.one_that_is_called_no_more,
    readers.one_that_pauses,
    writers.one_that_takes_a_byte_a_call_and_fails,
    writers.one_that_takes_all_and_fails,
    writers.one_that_is_interrupted,
    writers.one_that_takes_nothing,
    writers.no_call_for_nothing,
    writers.lines_are_gathered,
    writers.a_wrong_line_behind_others,
    days.they_are_written_at_once,
    days.one_whose_sync_fails,
    days.one_that_cant_begin,
    days.when_its_line_became_legitimate,
    damages.an_exhausted_journal,
    damages.refusals_have_their_numbers,
    damages.refusals_of_a_device_that_fails,
    words_of_programs.those_of_the_console,
    words_of_programs.those_of_derbyfig,
    words_of_programs.sectors_of_a_file,
    words_of_programs.a_script_in_memory,
    closing.an_office_may_take_60_seconds,
    serving.each_word_has_its_effect,
    serving.counters_anew,
)


def holds(words, case):
    """Whether the case holds, which is told."""
    name, began = f"{case.__module__} {case.__name__}", time.monotonic()
    folder = words.folder / name.replace(" ", "_")
    folder.mkdir()
    try:
        seen = case(Programs(words.console, words.derbyfig, words.stream, words.fail, folder))
    except (failing.Mismatch, office.Mismatch) as told:
        print(f"{name}: {told}", flush=True)
        return False
    except (OSError, ValueError, LookupError, subprocess.SubprocessError) as told:
        print(f"{name}: {told!r}", flush=True)
        return False
    print(f"{name}: {seen}", flush=True)
    if words.times:
        print(f"    {time.monotonic() - began:.1f} seconds", flush=True)
    return True


def main():
    parser = argparse.ArgumentParser(description=__doc__)
    parser.add_argument("console", help="the turn_console that was built")
    parser.add_argument("derbyfig", help="the derbyfig that was built")
    parser.add_argument("stream", help="the library that holds up calls on a stream")
    parser.add_argument("fail", help="the library that fails calls on a file")
    parser.add_argument("folder", type=pathlib.Path, help="an empty folder")
    parser.add_argument("--only", default="", help="the cases whose names have this")
    parser.add_argument("--times", action="store_true", help="tell how long each case takes")
    words = parser.parse_args()
    held = [holds(words, case) for case in CASES if words.only in f"{case.__module__} {case.__name__}"]
    if not all(held):
        sys.exit(f"{held.count(False)} cases failed")


main()
