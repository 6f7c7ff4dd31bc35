"""Files that are only read: the steps of each command that reads a ledger, and what is printed if a step fails."""
import errno
import re

from formats import body, deposit
from images import made
from noted import FAILS, SECTOR, failing_at, require, require_same
from transfers import NOTHING, SECTORS, empty

LOCKED = ("open file to read", "lock file shared", "look at file")
READ = (f"read {SECTOR * SECTORS} at 0",)
UNLOCKED = "ledger: it isn't locked, so what is printed may be torn"

COMMANDS = (("check",), ("journal",), ("balances",), ("map",))


def require_look(programs, command, unlocked, wanted):
    words = [programs.derbyfig, *command, programs.path, *(["--unlocked"] if unlocked else [])]
    run = programs.run(words)
    require_same((run.status, run.told), (0, UNLOCKED if unlocked else ""), f"{words[1:]}")
    require_same(run.steps, wanted, f"the steps of {words[1:]}")
    require_same(programs.held() == empty(), True, f"the bytes behind {words[1:]}")


def that_only_read(programs):
    """A reading command shares its lock, or takes none. It asks where a disk ends. It syncs and writes nothing."""
    programs.holds(empty())
    for command in COMMANDS:
        require_look(programs, command, False, (*LOCKED, *READ))
        require_look(programs, command, True, (LOCKED[0], LOCKED[2], *READ))
    programs.disk = "7:1"
    require_look(programs, ("check",), False, (*LOCKED, "end of file", *READ))
    require_look(programs, ("check",), True, (LOCKED[0], LOCKED[2], "end of file", *READ))


CAUSES = (
    (0, errno.ENOENT, "ledger: there is no such file"),
    (0, errno.EACCES, "ledger: it may not be read; its owner can allow that"),
    (0, errno.ENOMEM, "out of memory"),
    (1, errno.EWOULDBLOCK, "ledger: another program has it; end that one first"),
    (2, errno.EIO, f"ledger: {FAILS}"),
)


def that_fail(programs):
    """If a step fails, it is the last one, and its cause is printed."""
    programs.holds(empty())
    for fails, error, told in CAUSES:
        for command in COMMANDS:
            run = programs.run([programs.derbyfig, *command, programs.path], failing_at(fails, error=error))
            require_same(run.ended(), (3, "", told), f"{command}, step {fails} with {errno.errorcode[error]}")
            require_same(run.steps, LOCKED[:fails + 1], f"the steps of {command} up to {fails}")


# So many records have more sectors than a buffer.
RECORDS = 300

READ_AT = re.compile(r"read (\d+) at \d+")


def that_are_copied(programs):
    """A ledger that is copied is recovered once: that looks at each of its records twice. Nothing is written to it."""
    records = [body(0, number, deposit(1, 500)).ljust(SECTOR, b"\0") for number in range(RECORDS)]
    ledger = made(RECORDS, NOTHING, records=records)
    programs.holds(ledger)
    run = programs.run([programs.derbyfig, "copy", programs.path, "new", "--slots", "4"])
    require_same(run.ended(), (0, "copied 4\n", ""), "a copy")
    read = sum(int(READ_AT.fullmatch(step)[1]) for step in run.steps if step.startswith("read"))
    times = read / (SECTOR * 2 * RECORDS)
    require(1.9 < times < 2.5, f"the records of a ledger that is copied are read {times:.2f} times")
    require_same([step for step in run.steps if step.startswith("write")], [], "what is written to the ledger")
    require_same(programs.held() == ledger, True, "the bytes behind a copy")
