"""Days of station threads, whichever thread runs when: when their lines are written, what a day does on a device that
fails, and from when on its line was legitimate."""
import re

import images
from failing import Fault, require, require_same
from runs import OUTPUT, Stream, require_ended

# With so many slots an opening reads the bank in several pieces, and the day's opening reads all of them again.
SLOTS = 200

# The syncs of a file, by their numbers. The first comes before the script is read. Each opening has one, and a turn
# that posts has two.
OPENING, DAYS_OPENING, BODY, GATE = 2, 3, 4, 5

# Of a day whose line never became legitimate.
NEVER = None


def empty_ledger():
    return images.made(SLOTS, images.Holding(0, {}, frozenset()))


def on_a_ledger(programs):
    """Runs of the console of which each finds an empty ledger."""
    failing = programs.failing()
    failing.anew()
    (failing.folder / "ledger").write_bytes(empty_ledger())
    failing.keep()
    return failing


def words_of(failing):
    """The words for the ledger, which isn't grown."""
    return "--device", str(failing.folder / "ledger"), "--sectors", str(images.sectors_of(SLOTS))


def run_script(failing, script, fault=None):
    """A run on the ledger as it is now, of whose calls on it some fail."""
    return failing.run(words_of(failing), fault, failing.folder / "ledger", said=script)


def require_printed(run, printed, of):
    """That a script ends well and prints this."""
    require_same((run.status, run.printed, run.told), (0, printed, ""), of)


FAULTY_DAY = """open 3 100 100
post 1 deposit 1 5
post 1 deposit 1 6
post 2 deposit 2 6
day 8
post 1 deposit 1 1
post 2 deposit 2 7
day 1
turn 0
balances
"""

BEFORE_THE_ENDS = """opened 3 next 0 total 0
held 1 1
held 1 2
held 2 1
day 0 legitimate at 0
"""

AFTER_THE_ENDS = """answer 1 0 undecided
answer 1 1 undecided
held 1 1
held 2 2
refused Faulted
refused Faulted
total 0
"""

# The end of a station beside the one that met the fault: it is stopped, or finds the fault itself.
BESIDE = ("Stopped", "Faulted")


def one_whose_sync_fails(programs):
    """Station 1 has the privilege and meets the fault. Its answers are undecided, and the next opening tells what they
    are. What the others held stays held, and no later line reaches the device."""
    failing = on_a_ledger(programs)
    lawful = [f"{BEFORE_THE_ENDS}station 0 {first}\nstation 1 Device\nstation 2 {last}\n{AFTER_THE_ENDS}"
              for first in BESIDE for last in BESIDE]
    for at, opened in ((BODY, "next 0 total 0"), (GATE, "next 1 total 11")):
        failing.anew()
        run = run_script(failing, FAULTY_DAY, Fault("sync", at=at))
        require(run.failed, f"sync {at} isn't made")
        require((run.status, run.told) == (0, "") and run.printed in lawful, f"a day whose sync {at} fails: {run}")
        run = run_script(failing, "open 2 00 10\n")
        require_printed(run, f"opened 2 {opened}\n", f"what is opened behind sync {at}")
    return "undecided at the station that met it, and held at the others"


def one_that_cant_begin(programs):
    """A reading fails as the day's office is opened, and so does the reading that is made in its place. There is no
    office any more, what was held is dropped, and the device may be opened again. If the sync fails there, only the
    next program can open the device."""
    failing = on_a_ledger(programs)
    posting = "open 2 00 10\npost 0 deposit 1 5\n"
    script = f"{posting}day 4\nturn 0\n{posting}turn 0\n"
    opened, posted = "opened 2 next 0 total 0\nheld 0 1\n", "turn 0 station 0 Bottom posted 0\nentry 0 ok\n"
    failed, closed = "refused Device\n", "refused NoOffice\n"
    # of the first opening, and of the day's
    lawful = [f"{failed}{closed * 3}{opened}{posted}", f"{opened}{failed}{closed}{opened}{posted}"]
    found = []
    # the first reading is made before the script is read
    for this, run in failing.each(words_of(failing), Fault("read", at=2, count=2), failing.folder / "ledger", script):
        require_same((run.status, run.told), (0, ""), f"{this}: {run}")
        found.append(run.printed)
    kinds = [printed for at, printed in enumerate(found) if at == 0 or printed != found[at - 1]]
    require_same(kinds, lawful, "what is printed where each reading fails in turn")
    failing.anew()
    run = run_script(failing, script, Fault("sync", at=DAYS_OPENING))
    require_printed(run, f"{opened}{failed}{closed}{failed}{closed * 2}", "a day whose first sync fails")
    require_printed(run_script(failing, "open 2 00 10\n"), "opened 2 next 0 total 0\n", "the next program")
    return f"{len(found)} readings fail in turn, and nothing is held any more"


def legitimate_at(programs, line, turns):
    """How many turns a day of so many took before its line was legitimate."""
    script = f"format 4\nopen {line}\nday {turns}\n"
    run = programs.plain(script.encode())
    require_same((run.status, run.told), (0, ""), f"the end of {script!r}")
    found = re.findall(rf"^day {turns} legitimate (?:at (\d+)|never)$", run.printed.decode(), re.MULTILINE)
    require_same(len(found), 1, f"lines of a day in {run.printed!r}")
    return int(found[0]) if found[0] else NEVER


def when_its_line_became_legitimate(programs):
    """Whichever station moves first, one privilege alone is left after so many turns, or after 7 of 26 at most."""
    table = (("3 011 110", 5, (1,)), ("4 0111 1110", 5, (2,)), ("5 01111 11110", 4, (3,)),
             ("5 01111 11110", 2, (NEVER,)), ("4 0101 1000", 1, (NEVER,)), ("4 0101 1000", 26, range(8)))
    for line, turns, lawful in table:
        found = legitimate_at(programs, line, turns)
        require(found in lawful, f"day {turns} of the line {line} is legitimate at {found}")
    return f"{len(table)} days"


def they_are_written_at_once(programs):
    """The lines of a turn and of a day are handed to the writer before the next line runs, in a call of their own. So a
    writer of which the second call fails has them. If the first one fails, the turn of the next line isn't taken."""
    begin = "format 4\nopen 2 00 10\npost 0 deposit 1 5\n"
    for rest, last in (("turn 0\nbalances\n", "posted 0\nentry 0 ok\n"),
                       ("day 1\nbits\n", "station 1 Reached\nanswer 0 0 posted 0\n"),
                       ("turn 1\nbalances\n", "held 0 1\nrefused NotPrivileged\n")):
        run = programs.run(f"{begin}{rest}".encode(), Stream(OUTPUT, fails=2))
        require_same((run.status, run.told), (1, "write failed"), f"the end of {rest!r}")
        require(run.printed.decode().endswith(last), f"of {rest!r} is written {run.printed!r}")
    ledger = programs.folder / "ledger"
    for taken in ("turn 0\n", "day 1\n"):
        ledger.write_bytes(empty_ledger())
        script = f"open 2 00 10\npost 0 deposit 1 5\n{taken}post 1 deposit 1 6\nturn 1\n"
        run = programs.run(script.encode(), Stream(OUTPUT, fails=1), "--device", str(ledger))
        require_ended(run, 1, "", "write failed", f"an output that fails behind {taken!r}")
        balances = programs.derbyfig_said("balances", ledger, "--as", "csv")[1].splitlines()[1:]
        require_same(balances, ["1,5,false", "total,5,"], f"what is posted where {taken!r} isn't acknowledged")
    return "a turn and a day, before the next line"
