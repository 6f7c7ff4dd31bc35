"""Refuses each request for memory of a call in turn: python3 checks/calls/memory.py TEST_CONSOLE

Looks at what the call answers then, that all is as before, and that the same call answers as it has to once there is
memory again. Prints a line for each call, and the status is 1 if one fails."""
import dataclasses
import fcntl
import os
import pathlib
import subprocess
import sys
import tempfile

import day_memory
import office_memory
from console import Console, Mismatch, require, require_same

# The file descriptor on which the library tells that it refused a request.
TELLS = 9

# More requests than a call makes.
MOST = 500

LIBRARY = pathlib.Path(__file__).parents[1] / "refused_memory" / "refuse.c"

# What a refused growth is answered as: by the name of its refusal. A device fault is one where the device's own record
# of its calls can't grow.
MEMORY, ALONE, FAULT = "Memory", "AllocError", "Device"


class Refusing(Console):
    """A console of which requests for memory are refused, up to the answer to a line."""

    def __init__(self, program, library):
        ends = os.pipe()
        self.tells, says = (fcntl.fcntl(end, fcntl.F_DUPFD, TELLS + 1) for end in ends)
        os.dup2(says, TELLS)
        for end in (*ends, says):
            if end != TELLS:
                os.close(end)
        os.set_blocking(self.tells, False)
        environment = {**os.environ, "LD_PRELOAD": str(library)}
        self.process = subprocess.Popen([program], stdin=subprocess.PIPE, stdout=subprocess.PIPE, bufsize=0, env=environment,
                                        pass_fds=[TELLS])
        os.close(TELLS)
        self.said = []

    def refuse(self, number, line, kind=""):
        """The answer to a line while the request of that number is refused, and whether so many were made. The kind `thread `
        is for threads."""
        answer = self.hear(f"refuse {kind}{number}\n{line}\nmark answered\n", 1)[0]
        try:
            return answer, bool(os.read(self.tells, 1 << 10))
        except BlockingIOError:
            return answer, False


@dataclasses.dataclass(frozen=True)
class Row:
    """A call: its name, what comes before, the line, what it has to answer, as what it may be refused, and the lines whose
    answers stay the same if it is."""

    name: str
    before: tuple
    line: str
    answer: tuple
    refusals: tuple = (MEMORY,)
    stay: tuple = ()
    # What is looked at instead behind a device fault, and the answers that are lawful then.
    behind_fault: tuple = ()
    lawful: tuple = ()
    # Whether the call asks for all its memory before it calls the device.
    is_first: bool = False


FORMATTED = ("device 55", "format 4")
OPEN = (*FORMATTED, "clerk 2 00 10")
POSTED = (*OPEN, "turn 0 deposit 1 500 3", "close")

# Layout 1: a superblock of 4 slots, and a record of one deposit of 500 behind an open gate.
LAYOUT_1 = ("device 9", "put 0 0 544c4447" "0001" "0000" "0000000000000004",
            "put 1 0 544c4231" "0000" "0001" "0000000000000000" + 16 * "00"
            + "01000000" "00000000" "00000001" "00000000" "00000000000001f4" "0000000000000003", "put 2 0 a5")


def writes(count):
    return tuple(f"write {at} 07" for at in range(count))


def behind(count):
    return f", behind {count} others" if count else ""


DEPOSIT = "Deposit { to: 1, amount: %d, reference: 0 }"

ROWS = (
    Row("a device is made", (), "device 55", (), (ALONE,)),
    Row("a ledger is made", (), "ledger", (), (ALONE,)),
    # the device's record of its calls grows at some of them
    *(Row(f"a sector is written{behind(count)}", ("device 20", *writes(count)), f"write {count} 07", (), ("DeviceFault",),
          ("pending", f"sector {count}")) for count in (0, 4, 8, 16)),
    *(Row(f"a device is synced{behind(count)}", ("device 20", *writes(count)), "sync", (), ("DeviceFault",),
          ("pending", "sector 0")) for count in (0, 4, 8, 16)),
    Row("a device is formatted", ("device 55",), "format 4", (), (FAULT,)),
    Row("a ledger is recovered", POSTED, "recover", ("next 1 total 500 1=500",), (MEMORY, FAULT), ("pending", "sector 20"),
        is_first=True),
    Row("a clerk is opened", POSTED, "clerk 2 00 10", ("next 1 total 500 1=500",), (MEMORY, FAULT), ("pending", "sector 20"),
        is_first=True),
    *(Row(f"a turn is taken, behind {count} others", (*OPEN, *(f"turn {at % 2} deposit 1 5 0" for at in range(count))),
          f"turn {count % 2} deposit 1 5 0",
          (f"turn {count} station {count % 2} {('Bottom', 'Top')[count % 2]} posted {count} ok",), (MEMORY, FAULT),
          ("ledger", "line", "history", "faulted"), ("close", "clerk 2 00 10"),
          tuple(f"next {next} total {5 * next}" + f" 1={5 * next}" * (next > 0) for next in (count, count + 1)))
      for count in range(4)),
    Row("events are run",
        (*FORMATTED, "clerk 3 000 100", "event 0 deposit 1 500 3", "event 2", "event 1 withdraw 1 600 4"), "run",
        ("turn 0 station 0 Bottom posted 0 ok", "refused NotPrivileged: it is not the station's turn",
         "turn 1 station 1 Raise empty Short"),
        (MEMORY, ALONE, FAULT), (), ("close", "clerk 2 00 10"), ("next 0 total 0", "next 1 total 500 1=500")),
    Row("a ledger is copied", ("device 55", "other", *POSTED), "copy 4", (), ("Source(Memory)", "Source(Device)", "Target"),
        ("pending", "sector 20"), is_first=True),
    Row("an older ledger is migrated", ("device 55", "other", *LAYOUT_1), "migrate 4", (),
        ("Source(Memory)", "Source(Device)", "Target"), ("pending", "sector 1"), is_first=True),
    Row("a ledger is listed", POSTED, "listing", ("at, end, left (0, 1, 1)",), (MEMORY, FAULT), ("pending", "sector 20"),
        is_first=True),
    Row("a seam is made", (*POSTED, "listing", "next"), "behind", (), (ALONE,), ("numbers", "ledger")),
    Row("a record is added to an archive", ("device 43", "other", *POSTED, "listing"), "add 1", (), ("Target",)),
    Row("a desk is made", (), "desk 2", (), (ALONE,)),
    Row("a desk is reconciled",
        ("desk 2", "submit deposit 1 5 0 deposit 1 6 0", "gather", "give_up", "answer", "submit deposit 1 7 0"), "reconcile",
        ("submitted, collected (3, 1)", f"[Answer {{ ticket: 1, entry: {DEPOSIT % 6}, outcome: Undecided }}]",
         f"[Ask {{ ticket: 2, entry: {DEPOSIT % 7} }}]"), (ALONE,), ("gather",)),
)


def name_of(answer):
    """The names of the refusals among an answer's lines."""
    return [line.removeprefix("refused ").partition(":")[0] for line in answer if line.startswith("refused ")]


def refuse_each(console, row):
    """Refuses the first request, then the second, until the call makes no more. How many it made."""
    for number in range(1, MOST):
        console.ask(["nothing", "other", "nothing", *row.before])
        stays = console.ask(row.stay)
        console.ask(["calls"] if row.is_first else [])
        answer, is_refused = console.refuse(number, row.line)
        of = f"{row.name}, request {number}"
        if not is_refused:
            require_same(tuple(answer), row.answer, of)
            return number - 1
        told = [name for name in name_of(answer) if name not in name_of(row.answer)]
        require(told and set(told) <= set(row.refusals), f"{of}: {answer}")
        if told[0] == FAULT and row.behind_fault:
            require(console.ask(row.behind_fault)[-1] in row.lawful, f"{of}: what is found behind a fault")
            continue
        if row.is_first and told[0] in (MEMORY, "Source(Memory)"):
            require_same(console.ask(["calls"]), ["calls []"], f"{of}: what the device was called for")
        require_same(console.ask(row.stay), stays, f"{of}: what it leaves")
        # of a run one reply may tell it, and the others stand
        if len(answer) == 1 and told[0] not in (FAULT, "Target"):
            require_same(tuple(console.ask([row.line])), row.answer, f"{of}: the same call again")
    raise ValueError(f"{row.name}: more than {MOST} requests")


def main():
    program = os.path.realpath(sys.argv[1])
    with tempfile.TemporaryDirectory(dir=os.environ.get("BENCH_FOLDER", "/var/tmp")) as folder:
        library = pathlib.Path(folder) / "refuse.so"
        subprocess.run(["cc", "-O1", "-Wall", "-shared", "-fPIC", "-o", library, LIBRARY, "-ldl"], check=True)
        console = Refusing(program, library)
        try:
            for row in ROWS:
                print(f"{row.name}: {refuse_each(console, row)} requests were refused in turn", flush=True)
            print(f"an office works: {office_memory.refuse_each(console)} requests were refused in turn", flush=True)
            print(f"what a station holds is kept: {day_memory.refuse_kept(console)} requests were refused in turn", flush=True)
            memory, threads = day_memory.refuse_each(console)
            print(f"a day is had: {memory} requests and {threads} threads were refused in turn", flush=True)
        except Mismatch as told:
            sys.exit(str(told))
        finally:
            console.end()


main()
