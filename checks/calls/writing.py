"""Sectors of layout 3 as docs/FORMATS.md has them, and where they stand."""

SECTOR = 512
ZERO = bytes(SECTOR)
OPEN = b"\xa5".ljust(SECTOR, b"\0")

# Where a bank has its head, its balances, its marks and its slots, counted from its gate.
HEAD, BALANCES, MARKS, SLOTS = 1, 2, 18, 19

# The gate of the first bank.
FIRST = 1

DEPOSIT, WITHDRAWAL, TRANSFER, SEAL = 1, 2, 3, 4


def second(slots):
    """The gate of the second bank, with so many slots in each."""
    return 20 + 2 * slots


def body_at(bank, slot):
    return bank + SLOTS + 2 * slot


def gate_at(bank, slot):
    return body_at(bank, slot) + 1


def sectors_needed(slots):
    return 39 + 4 * slots


def number(value, size=8):
    return value.to_bytes(size, "big")


def superblock(slots):
    return (b"TLDG" + number(3, 2) + bytes(2) + number(slots)).ljust(SECTOR, b"\0")


def head(epoch, base):
    return (b"TLBK" + bytes(4) + number(epoch) + number(base)).ljust(SECTOR, b"\0")


def balances(amounts):
    """A sector of balances, of which the first are these."""
    return b"".join(map(number, amounts)).ljust(SECTOR, b"\0")


def marks(sealed):
    """A sector of marks in which these accounts are sealed."""
    return sum(1 << account - 1 for account in sealed).to_bytes(SECTOR, "little")


def place(kind, source, target, amount, reference):
    """The place of an entry, which takes from a source and brings to a target, where it has them."""
    return bytes([kind, 0, 0, 0]) + number(source, 4) + number(target, 4) + bytes(4) + number(amount) + number(reference)


def deposit(target, amount, reference=1):
    return place(DEPOSIT, 0, target, amount, reference)


def transfer(source, target, amount, reference=3):
    return place(TRANSFER, source, target, amount, reference)


def body(station, sequence, places):
    front = b"TLB1" + number(station, 2) + number(len(places), 2) + number(sequence)
    return (front.ljust(32, b"\0") + b"".join(places)).ljust(SECTOR, b"\0")
