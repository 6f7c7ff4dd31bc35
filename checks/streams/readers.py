"""Scripts that come in pieces, with pauses, or not to their end. Nothing runs of a script that can't be read whole."""
import errno

from failing import require_same
from runs import INPUT, Stream, require_ended
from scripts import PRINTED, SCRIPT

# The most bytes of a script, and the most calls by which it may be read.
LIMIT = 16_777_216
CALLS = 33_554_432

# The most bytes that a call is asked for.
PIECE = 65_536

# What the last line of a long script prints, which shows that it was read to its end.
LAST, LAST_PRINTS = b"\nbits", "refused NoOffice\n"


def one_that_fails_at_each_call(programs):
    """A script comes one byte a call. Whichever call fails, it is told as unread: also if that is the call that would
    tell its end."""
    for fails in range(1, len(SCRIPT) + 2):
        run = programs.run(SCRIPT.encode(), Stream(INPUT, fails=fails, most=1))
        require_ended(run, 1, "", "read failed", f"a script whose call {fails} fails")
        require_same(run.calls, fails, f"calls of a script whose call {fails} fails")
    whole = programs.run(SCRIPT.encode(), Stream(INPUT, most=1))
    require_ended(whole, 0, PRINTED, "", "a script of one byte a call")
    require_same(whole.calls, len(SCRIPT) + 1, "calls of a script of one byte a call")
    return f"{len(SCRIPT) + 1} calls fail in turn, and nothing runs of what was read"


def one_that_fails_although_it_gave_bytes(programs):
    """A reader fails behind no byte, behind one, and behind more than a call gives, in lines that would print
    something."""
    given = (b"", b"#", b"crash\n" * 16_667)
    for script in given:
        calls = -(-len(script) // PIECE) + 1
        for error in (errno.EIO, errno.EISDIR, errno.EAGAIN):
            run = programs.run(script, Stream(INPUT, fails=calls, error=error))
            of = f"{len(script)} bytes, and {errno.errorcode[error]}"
            require_ended(run, 1, "", "read failed", of)
            require_same((sum(run.moved), run.calls), (len(script), calls), f"bytes and calls of {of}")
    run = programs.run(given[1], Stream(INPUT, fails=2), program=[programs.derbyfig, "run"])
    require_ended(run, 3, "", "read failed", "the same of derbyfig")
    return f"{', '.join(str(len(script)) for script in given)} bytes, and read failed"


def a_script_of_the_limit(programs):
    """A script of the most bytes is read and run. One more byte is told as too many, also if the call behind it would
    fail."""
    script = b"#".ljust(LIMIT - len(LAST), b"x") + LAST
    pieces = LIMIT // PIECE
    run = programs.run(script, Stream(INPUT))
    require_ended(run, 0, LAST_PRINTS, "", f"a script of {len(script)} bytes")
    require_same(run.moved, (PIECE,) * pieces + (0,), "what the calls gave")
    for fails in (0, pieces + 2):
        run = programs.run(script + b"\n", Stream(INPUT, fails=fails))
        require_ended(run, 1, "", "script too long", f"one more byte, where call {fails} fails")
    run = programs.run(script, Stream(INPUT, fails=pieces + 1))
    require_ended(run, 1, "", "read failed", "an end that can't be read")
    run = programs.run(script + b"\n", Stream(INPUT), program=[programs.derbyfig, "run"])
    require_ended(run, 1, "", "script too long", "the same of derbyfig")
    return f"{LIMIT} bytes are read, and {LIMIT + 1} are told as too long"


def one_that_is_called_no_more(programs):
    """A reader is interrupted before the call that gives the script, and before the one that tells its end. The last
    call that may be made still tells the end; a later one isn't made."""
    script, pauses = LAST[1:], CALLS // 2 - 1
    run = programs.run(script, Stream(INPUT, pauses=pauses))
    require_ended(run, 0, LAST_PRINTS, "", f"a script that is read in {CALLS} calls")
    require_same((run.calls, run.moved), (CALLS, (len(script), 0)), "its calls")
    run = programs.run(script, Stream(INPUT, pauses=pauses + 1))
    require_ended(run, 1, "", "read failed", "a script that would need two calls more")
    require_same((run.calls, run.moved), (CALLS, (len(script),)), "the calls of that one")
    return f"{CALLS} calls are made at most"


def one_that_pauses(programs):
    """A reader that is interrupted before each byte gives the same script."""
    for pauses in (1, 2_000):
        run = programs.run(SCRIPT.encode(), Stream(INPUT, pauses=pauses, most=1))
        of = f"a script with {pauses} pauses before each byte"
        require_ended(run, 0, PRINTED, "", of)
        require_same(run.calls, (pauses + 1) * (len(SCRIPT) + 1), f"calls of {of}")
    return "interrupted calls are made again"
