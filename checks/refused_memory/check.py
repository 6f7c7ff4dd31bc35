"""Refuses each request for memory, and for a thread, of the program, and those of a test that makes flags.

Words: the program, the tests of `test_examples`, and a folder with the library that refuses.
"""
import re
import sys
from itertools import zip_longest
from pathlib import Path

from refusing import Refuser, requests_beside

DEPOSIT = b"format 4\nopen 3 000 100\npost 0 deposit 1 500\nturn 0\nbalances\ncrash\nopen 3 111 110\nbalances\n"
DAY = Path("examples/three_stations")
# A file of layout 1 with four slots, of which the first holds a deposit of 500 to account 1.
OLDER = b"".join(bytes.fromhex(sector).ljust(512, b"\0") for sector in (
    "544c4447 0001 0000 0000000000000004",
    "544c4231 0000 0001" + 24 * "00" + "01000000 00000000 00000001 00000000 00000000000001f4 0000000000000003",
    "a5", "", "", "", "", "", ""))
# A sector's bytes, and how many sectors a file gets.
SECTOR = 512
SECTORS = 600
# How long a day is waited for. The stations of one whose thread was refused ask 100,000,000 times before they give up.
SECONDS_OF_A_DAY = 5
# All else ends at once, and is waited for longer than any machine needs.
SECONDS = 300
# The test of flags, and what it prints where it had no memory for them.
FLAGS, TOLD_OF_FLAGS = "flags::flags_are_made", b"told HeldFlags in an Arc"
IN_A_LINE = re.compile(rb"^(refused|station \d+) (Memory|Device)$")


def fail(said):
    sys.exit(f"refused memory: {said}")


def first_other_line(printed, whole):
    """The first line that isn't the one that stands there in the whole output."""
    lines = zip_longest(printed.splitlines(), whole.splitlines(), fillvalue=b"")
    return next((line for line, wanted in lines if line != wanted), b"")


def is_lawful(run, whole, has_day):
    """Whether a run in which a request was refused may print so much less than a whole one, or something else.

    The first line that is another tells of want of memory. A day tells it at its end, behind what it couldn't do.
    """
    if run.status == 1 and run.told == b"out of memory\n":
        return whole.printed.startswith(run.printed)
    if (run.status, run.told) != (whole.status, whole.told):
        return False
    lines = run.printed.splitlines() if has_day else [first_other_line(run.printed, whole.printed)]
    return run.printed == whole.printed or any(IN_A_LINE.match(line) for line in lines)


def try_program(refuser, name, words, given):
    """The program ends as it may in each run."""
    ledger = refuser.folder / "ledger"

    def fresh():
        ledger.unlink(missing_ok=True)

    fresh()
    whole = refuser.run(words, "REQUEST", 0, given)
    kinds = {"REQUEST": 0, "THREAD": 0}
    in_vain, has_day = 0, b"day " in given
    seconds = SECONDS_OF_A_DAY if has_day else SECONDS
    for kind in kinds:
        for number, run in refuser.each(words, kind, given, seconds, fresh):
            kinds[kind] += 1
            if run.status is None and has_day:
                in_vain += 1
            elif not is_lawful(run, whole, has_day):
                fail(f"{name}, {kind} {number}: status {run.status}\n{run.printed.decode()}{run.told.decode()}")
    print(f"the program, {name}: {kinds['REQUEST']} requests and {kinds['THREAD']} threads refused, {in_vain} waited in vain")


def try_file(refuser, name, program, before):
    """A file is made, or grows to all its sectors. Nothing is made and nothing grows while a request up to its opening is
    refused; behind that it has them all. Then the same command is as if none had been refused."""
    ledger = refuser.folder / "ledger"
    words, given, whole = [program, "--device", "ledger", "--sectors", str(SECTORS)], b"bits\n", bytes(SECTORS * SECTOR)

    def fresh():
        ledger.unlink(missing_ok=True)
        if before is not None:
            ledger.write_bytes(before)

    def found():
        return ledger.read_bytes() if ledger.exists() else None

    held = []
    for number, run in refuser.each(words, "REQUEST", given, before=fresh):
        of = f"{name}, request {number}: status {run.status}\n{run.printed.decode()}{run.told.decode()}"
        if run.status == 1 and run.told == b"out of memory\n":
            held.append(found())
            if held[-1] not in (before, whole) or held[-1] == before and whole in held:
                fail(f"{of}the file has {len(held[-1] or b'')} bytes")
        elif run.status != 0 or run.told:
            fail(of)
        again = refuser.run(words, "REQUEST", 0, given)
        if (again.status, again.told, found()) != (0, b"", whole):
            fail(f"{of}the same again: status {again.status}\n{again.told.decode()}")
    if before not in held or whole not in held:
        fail(f"{name}: nobody told of want of memory on both sides of the opening")
    print(f"{name}: {len(held)} requests were refused in turn")


def try_flags(refuser, tests):
    """The test that makes the flags of a held call passes whichever request is refused. In one run it tells that it had no
    memory for them, and made them again."""
    told = []
    for number, run in refuser.each([tests, FLAGS], "REQUEST"):
        if run.status != 0:
            fail(f"{FLAGS}, request {number}: status {run.status}\n{run.printed.decode()}{run.told.decode()}")
        told += [number] * run.printed.splitlines().count(TOLD_OF_FLAGS)
    if len(told) != 1:
        fail(f"{FLAGS}: want of memory was told {len(told)} times")
    print(f"flags are made: request {told[0]} of the test was refused, and told")


def main(program, tests, folder):
    for made in (program, tests):
        if others := requests_beside(made):
            fail(f"{made} takes memory by {', '.join(others)} too")
    refuser = Refuser(folder)
    try_flags(refuser, tests)
    try_program(refuser, "a deposit", [program], DEPOSIT)
    try_program(refuser, "a deposit in a file", [program, "--device", "ledger"], DEPOSIT)
    try_file(refuser, "a file is made", program, None)
    try_file(refuser, "a file is grown", program, bytes(3 * SECTOR))
    (refuser.folder / "older").write_bytes(OLDER)
    upgrade = [program, "--migrate", "older", "--device", "ledger", "--slots", "4"]
    try_program(refuser, "an upgrade", upgrade, b"open 2 00 10\nbalances\n")
    try_program(refuser, "a day", [program], DAY.read_bytes())
    try_program(refuser, "wrong words", [program, "--frob"], b"")
    try_program(refuser, "help", [program, "--help"], b"")


main(*sys.argv[1:])
