"""Scripts on ledgers that are made byte by byte, and on devices that fail: what is refused, and by which name."""
import images
from days import OPENING, on_a_ledger, require_printed, run_script
from failing import Fault, require, require_same
from images import SECTOR, word

SLOTS = 20

# What is the next number where none is left.
NO_NUMBER = 2**64 - 1


def entry(kind, source=0, target=0, amount=0, reference=0):
    """A place of a record."""
    return word(kind, 1) + bytes(3) + word(source, 4) + word(target, 4) + bytes(4) + word(amount) + word(reference)


def body(sequence, places, station=0):
    head = b"TLB1" + word(station, 2) + word(len(places), 2) + word(sequence) + bytes(16)
    return (head + b"".join(places)).ljust(SECTOR, b"\0")


def gate_of(slot):
    """The sector of a slot's gate, in the first bank."""
    return 21 + 2 * slot


def ledger(records, following=0, balances=None):
    """A ledger of 20 slots whose snapshot holds these balances, and which has these records behind it."""
    return images.made(SLOTS, images.Holding(following, balances or {}, frozenset()), records=records)


def told_of(programs, image, script):
    """What a script prints on a ledger with these bytes: the same by both programs."""
    path = programs.folder / "ledger"
    told = []
    for program in ([programs.console, "--device"], [programs.derbyfig, "run"]):
        path.write_bytes(image)
        run = programs.plain(script.encode(), str(path), program=program)
        require_same((run.status, run.told), (0, ""), f"the end of {program[0]}")
        told.append(run.printed.decode())
    require_same(told[1], told[0], "what derbyfig prints, beside turn_console")
    return told[0]


def an_exhausted_journal(programs):
    """No sequence number is left. What would be posted is refused and stays held, and turns without entries go on."""
    image, path = ledger([], NO_NUMBER), programs.folder / "ledger"
    opened = f"opened 2 next {NO_NUMBER} total 0\n"
    lawful = [f"{opened}held 0 1\nrefused Exhausted\nday 0 legitimate at 0\nstation 0 Exhausted\nstation 1 {end}\n"
              "held 0 2\nbits 00/10 privileges 1\n" for end in ("Stopped", "Tries")]
    path.write_bytes(image)
    script = b"open 2 00 10\npost 0 deposit 1 5\nturn 0\nday 2\npost 0 withdraw 1 5\nbits\n"
    run = programs.plain(script, "--device", str(path))
    require((run.status, run.told) == (0, "") and run.printed.decode() in lawful, f"an exhausted journal: {run}")
    found = told_of(programs, image, "open 2 00 10\nturn 0\npost 0 deposit 1 5\nturn 1\nbits\n")
    turns = "turn 0 station 0 Bottom empty\nheld 0 1\nturn 1 station 1 Top empty\nbits 11/10 privileges 1\n"
    require_same(found, f"{opened}{turns}", "turns without entries")
    require_same(path.read_bytes()[:len(image)] == image, True, "the bytes of an exhausted journal")
    return "Exhausted, what was to be posted stays held, and turns without entries go on"


def damages():
    """Ledgers, and by what opening them is refused: a name, and behind it the slot, and in that the place."""
    one = entry(1, target=1, amount=1)
    sound = [body(number, [one]) for number in range(SLOTS)]
    version, tail = bytearray(ledger([])), bytearray(ledger(sound))
    version[4:6] = b"\xff\xff"
    tail[SECTOR * gate_of(2)] = 0
    # account 1 holds 33 by then
    short = entry(2, source=1, amount=34)
    return (
        (version, "Version 65535"),
        (ledger([*sound[:3], body(3, [])]), "Damaged 3 Header"),
        (ledger([sound[0], body(2, [one])]), "Damaged 1 Sequence"),
        (tail, "Damaged 3 Tail"),
        (ledger([sound[0], body(1, [one, entry(9)])]), "Damaged 1 Entry 1"),
        (ledger([*sound[:19], body(19, [one] * 14 + [short])]), "Damaged 19 Verdict 14"),
        (ledger([], balances={5: 10**18, 6: 1}), "Damaged 0 Bank"),
        (ledger(sound)[:-SECTOR], "Size"),
    )


def refusals_have_their_numbers(programs):
    """The numbers behind a name are those of the damage."""
    told = []
    for image, name in damages():
        printed = f"refused {name}\nrefused NoOffice\n"
        require_same(told_of(programs, image, "open 2 00 10\nbits\n"), printed, f"what is {name}")
        told.append(name)
    return ", ".join(told)


def refusals_of_a_device_that_fails(programs):
    """A device that fails is told where it is formatted, opened and written, and in an office from then on. Behind a
    failed sync it can't be opened by the same program."""
    failing = on_a_ledger(programs)
    formatting, opening = "format 4\n" * 2, "open 2 00 10\n" * 2
    posting = "open 2 00 10\npost 0 deposit 1 5\nturn 0\nturn 0\nday 1\ncrash\nopen 2 00 10\n"
    failed, opened = "refused Device\n", "opened 2 next 0 total 0\n"
    faulted = f"{opened}held 0 1\n{failed}refused Faulted\nrefused Faulted\ncrashed\n"
    for script, fault, printed in (
        (formatting, Fault("write"), f"{failed}formatted 4\n"),
        (formatting, Fault("sync", at=OPENING), failed * 2),
        (opening, Fault("sync", at=OPENING), failed * 2),
        (opening, Fault("read", at=2, count=2), f"{failed}{opened}"),
        (posting, Fault("write"), f"{faulted}{opened}"),
        (posting, Fault("sync", at=OPENING + 1), f"{faulted}{failed}"),
    ):
        failing.anew()
        run = run_script(failing, script, fault)
        require(run.failed, f"{fault}: no call failed")
        require_printed(run, printed, f"{script!r}, {fault}")
    return "Device at six calls, and Faulted behind two"
