"""Sectors that the system moves in parts, and calls that fail in the middle of one, in a turn on four slots."""
from formats import Bank, body, deposit
from images import OPEN, Holding, made, sectors_of
from noted import FAILS, SECTOR, Limits, failing_at, require_same

SLOTS = 4
SECTORS = sectors_of(SLOTS)
NOTHING = Holding(0, {}, frozenset())

# How many bytes a call moves at most: of one sector, and of a piece of many sectors.
PART, PIECE = 100, 1000

OPENING = "open 2 00 10\n"
TURN = "post 0 deposit 1 500\nturn 0\n"
OPENED = "opened 2 next 0 total 0\n"
POSTED = "held 0 1\nturn 0 station 0 Bottom posted 0\nentry 0 ok\n"


def empty():
    """A ledger without a record."""
    return made(SLOTS, NOTHING)


def with_a_deposit():
    """A ledger with the record that the turn makes. An entry's reference is the number of its line in the script."""
    return made(SLOTS, NOTHING, records=[body(0, 0, deposit(1, 500, 2)).ljust(SECTOR, b"\0")])


def parts(verb, at, count, most):
    """The calls by which bytes are read or written if each moves only a part."""
    return tuple(f"{verb} {count - moved} at {at + moved}" for moved in range(0, count, most))


def turn_steps(most):
    """The calls of a turn: it writes its body, and then its gate."""
    sector = Bank(3, SLOTS, 0).body(0)
    return (*parts("write", SECTOR * sector, SECTOR, most), "sync data",
            *parts("write", SECTOR * (sector + 1), SECTOR, most), "sync data")


def opening_steps(most):
    """The calls by which the file is opened."""
    return ("open file to write", "open folder to read", "lock file alone", "look at file",
            *parts("read", 0, SECTOR, most), "sync file", "sync folder")


def read_steps(most):
    """The calls by which the ledger is read: a sync, and a piece that has all sectors."""
    return "sync data", *parts("read", 0, SECTOR * SECTORS, most)


def of_what_is_moved_in_parts(programs):
    """If a call moves only a part, the next one asks for the rest. The ledger has the bytes of its format."""
    for most in (0, PART, PIECE):
        programs.holds(None)
        run = programs.script(SECTORS, Limits(most=most), f"format {SLOTS}\n{OPENING}{TURN}")
        require_same(run.ended(), (0, f"formatted {SLOTS}\n{OPENED}{POSTED}", ""), f"a ledger, {most} bytes a call")
        record = body(0, 0, deposit(1, 500, 3)).ljust(SECTOR, b"\0")
        require_same(programs.held() == made(SLOTS, NOTHING, records=[record]), True, f"its bytes, {most} bytes a call")
        programs.holds(empty())
        most = most or SECTOR * SECTORS
        run = programs.script(SECTORS, Limits(most=most), OPENING + TURN)
        require_same(run.ended(), (0, OPENED + POSTED, ""), f"a turn, {most} bytes a call")
        wanted = (*opening_steps(most), *read_steps(most), *turn_steps(most))
        require_same(run.steps, wanted, f"the steps of a turn, {most} bytes a call")
        require_same(programs.held() == with_a_deposit(), True, f"the bytes behind a turn, {most} bytes a call")


def of_writes_that_fail_within(programs):
    """If a call of a turn fails, it is the last one, and the turn is refused."""
    before = (*opening_steps(PART), *read_steps(PART))
    steps = turn_steps(PART)
    for fails in range(len(steps)):
        programs.holds(empty())
        run = programs.script(SECTORS, failing_at(len(before) + fails, most=PART), OPENING + TURN + "turn 0\n")
        wanted = OPENED + "held 0 1\nrefused Device\nrefused Faulted\n"
        require_same(run.ended(), (0, wanted, ""), f"a turn of which call {fails} fails")
        require_same(run.steps, before + steps[:fails + 1], f"the steps of a turn of which call {fails} fails")
        gate = programs.held()[SECTOR * (Bank(3, SLOTS, 0).body(0) + 1)]
        require_same(gate == OPEN[0], fails > 7, f"whether the record's gate is open if call {fails} fails")


def of_reads_that_fail_within(programs):
    """If a part of a piece can't be read, the wanted sector is read alone. If that fails too, at any part, the device
    failed. An office is refused if the first sector of its file can't be read."""
    before, piece = opening_steps(PIECE), read_steps(PIECE)
    for fails in range(1, len(piece)):
        programs.holds(empty())
        run = programs.script(SECTORS, failing_at(len(before) + fails, most=PIECE), OPENING)
        require_same(run.ended(), (0, OPENED, ""), f"an opening of which part {fails} fails")
        wanted = (*before, *piece[:fails + 1], *parts("read", 0, SECTOR, PIECE), *piece[1:])
        require_same(run.steps, wanted, f"the steps of an opening of which part {fails} fails")
    before, alone = (*opening_steps(PART), *read_steps(PART)[:2]), parts("read", 0, SECTOR, PART)
    for fails in range(len(alone)):
        run = programs.script(SECTORS, failing_at(len(before) - 1, len(before) + fails, most=PART), OPENING)
        require_same(run.ended(), (0, "refused Device\n", ""), f"a sector alone of which part {fails} fails")
        require_same(run.steps, before + alone[:fails + 1], f"the steps of a sector alone of which part {fails} fails")
    office = [programs.derbyfig, "serve", programs.path, "--terminal", "--counters-anew"]
    for fails in range(len(alone)):
        run = programs.run(office, failing_at(4 + fails, most=PART), "close\n")
        require_same(run.ended(), (3, "", f"ledger: {FAILS}"), f"a first sector of which part {fails} fails")
        require_same(run.steps[4:], alone[:fails + 1], f"the steps of a first sector of which part {fails} fails")


def behind_a_failed_sync(programs):
    """After a failed sync no call reaches the file any more. After a failed write the ledger can be opened again."""
    whole = SECTOR * SECTORS
    before, steps = (*opening_steps(whole), *read_steps(whole)), turn_steps(SECTOR)
    for fails, again in ((0, OPENED), (1, "refused Device\n"), (3, "refused Device\n")):
        programs.holds(empty())
        run = programs.script(SECTORS, failing_at(len(before) + fails), f"{OPENING}{TURN}crash\n{OPENING}")
        wanted = f"{OPENED}held 0 1\nrefused Device\ncrashed\n{again}"
        require_same(run.ended(), (0, wanted, ""), f"behind a turn of which call {fails} fails")
        reached = read_steps(whole) if again == OPENED else ()
        wanted = before + steps[:fails + 1] + reached
        require_same(run.steps, wanted, f"the steps behind a turn of which call {fails} fails")
