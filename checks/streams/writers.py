"""Outputs that take little, pause or fail. What was written is the beginning of what is printed otherwise, and no call
is made behind one that failed."""
import errno

from failing import require_same
from runs import ERRORS, OUTPUT, Stream, require_ended, require_prefix
from scripts import BALANCES, PRINTED, SCRIPT

# How often in a row a writer may be interrupted.
PAUSES = 1_000

# How many bytes of lines are gathered before they are written.
GATHERED = 65_536

# This line prints eight bytes, so that some number of such lines gathers to just that many bytes.
CRASH, CRASHED = b"crash\n", b"crashed\n"
FULL = GATHERED // len(CRASHED)


def one_that_takes_a_byte_a_call_and_fails(programs):
    """Whichever call fails, the output has the bytes of the calls before it."""
    printed = PRINTED.encode()
    for fails in range(1, len(printed) + 1):
        run = programs.run(SCRIPT.encode(), Stream(OUTPUT, fails=fails, most=1))
        of = f"an output whose call {fails} fails"
        require_prefix(run, printed, of)
        require_same((len(run.printed), run.calls), (fails - 1, fails), f"bytes and calls of {of}")
    whole = programs.run(SCRIPT.encode(), Stream(OUTPUT, most=1))
    require_ended(whole, 0, PRINTED, "", "an output of one byte a call")
    require_same(whole.calls, len(printed), "calls of an output of one byte a call")
    return f"{len(printed)} calls fail in turn, and what was written is the beginning of the whole"


def one_that_takes_all_and_fails(programs):
    """An output takes the lines up to the end of the day in one call, and the others in a second one. Each call fails,
    by errors of several kinds."""
    printed = PRINTED.encode()
    day = PRINTED.removesuffix(BALANCES)
    pieces = (len(day), len(BALANCES))
    whole = programs.run(SCRIPT.encode(), Stream(OUTPUT))
    require_ended(whole, 0, PRINTED, "", "an output that takes all")
    require_same(whole.moved, pieces, "the pieces")
    for error in (errno.EIO, errno.ENOSPC, errno.EAGAIN, errno.EPIPE):
        for fails in (1, 2):
            run = programs.run(SCRIPT.encode(), Stream(OUTPUT, fails=fails, error=error))
            of = f"an output whose call {fails} fails with {errno.errorcode[error]}"
            require_prefix(run, printed, of)
            require_same((run.moved, run.calls), (pieces[:fails - 1], fails), f"pieces and calls of {of}")
    run = programs.run(SCRIPT.encode(), Stream(OUTPUT, fails=2), program=[programs.derbyfig, "run"])
    require_ended(run, 3, day, "write failed", "the same of derbyfig")
    return "2 calls fail in turn, by each of 4 errors, and what was written is the beginning of the whole"


def one_that_is_interrupted(programs):
    """A writer may be interrupted so often in a row, before each byte anew."""
    run = programs.run(CRASH, Stream(OUTPUT, pauses=PAUSES, most=1))
    require_ended(run, 0, CRASHED.decode(), "", f"{PAUSES} pauses before each byte")
    require_same(run.calls, len(CRASHED) * (PAUSES + 1), f"calls with {PAUSES} pauses before each byte")
    run = programs.run(CRASH, Stream(OUTPUT, pauses=PAUSES + 1, most=1))
    require_ended(run, 1, "", "write failed", f"{PAUSES + 1} pauses")
    require_same(run.calls, PAUSES + 1, f"calls with {PAUSES + 1} pauses")
    return f"{PAUSES} times in a row, and no more"


def one_that_takes_nothing(programs):
    """A call that takes no byte ends the writing."""
    run = programs.run(CRASH, Stream(OUTPUT, most=0))
    require_ended(run, 1, "", "write failed", "an output that takes nothing")
    require_same(run.calls, 1, "calls of an output that takes nothing")
    return "it is called once, and that is told"


def no_call_for_nothing(programs):
    """A writer isn't called if there is nothing to hand over: for a script that prints nothing, and at the end of one
    whose last line was written at once."""
    opened = "format 4\nopen 2 00 10\n"
    for script, calls in (("", 0), ("# a remark\n", 0), (f"{opened}turn 0\n", 1), (f"{opened}day 1\n", 1),
                          (f"{opened}turn 0\nturn 1\nbits\n", 3)):
        run = programs.plain(script.encode())
        require_same((run.status, run.calls, 0 in run.moved), (0, calls, False), f"status and calls of {script!r}")
    return "0, 0, 1, 1 and 3 calls, each with lines"


def lines_are_gathered(programs):
    """Lines are written once they are as many bytes as are gathered, and the rest is written at the end."""
    for count, pieces in ((FULL - 1, (GATHERED - 8,)), (FULL, (GATHERED,)), (FULL + 1, (GATHERED, 8)),
                          (2 * FULL + 3, (GATHERED, GATHERED, 24))):
        run = programs.plain(CRASH * count)
        require_same((run.status, run.printed == CRASHED * count), (0, True), f"{count} lines")
        require_same(run.moved, pieces, f"the pieces of {count} lines")
    # no number of lines of 17 bytes makes just as many
    refused = b"refused NoOffice\n"
    least = -(-GATHERED // len(refused))
    run = programs.plain(b"bits\n" * (least + 2))
    require_same(run.moved, (least * len(refused), 2 * len(refused)), "the pieces of longer lines")
    return f"{GATHERED} bytes of lines are written in a call, and the rest at the end"


def a_wrong_line_behind_others(programs):
    """What earlier lines printed is written before a wrong line is told. If it can't be written, that is told instead.
    If nothing can be told, the status is the same."""
    script, told = CRASH + b"frob\n", "line 2: unknown command"
    require_ended(programs.plain(script), 1, CRASHED.decode(), told, "a wrong line")
    run = programs.run(script, Stream(OUTPUT, fails=1))
    require_ended(run, 1, "", "write failed", "a wrong line behind what can't be written")
    for most, fails in ((None, 1), (0, 0)):
        run = programs.run(script, Stream(ERRORS, fails=fails, most=most))
        require_ended(run, 1, CRASHED.decode(), "", "errors that can't be told")
    return "its status stays, whatever can't be written"
