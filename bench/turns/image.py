"""Writes a ledger's file as it stands after many turns, by the layout alone, and tells what it holds."""
import dataclasses
import random
import struct

SECTOR = 512
ACCOUNTS = 1_024
PLACES = 15
PLACE = 32
PAYLOADS = 64
OPEN = b"\xa5" + bytes(SECTOR - 1)

# The sectors of a bank before its slots: its gate, its head, sixteen of balances, and one of marks.
FRONT = 19


@dataclasses.dataclass(frozen=True)
class Layout:
    """What differs between the layouts with two banks."""

    version: int
    accounts: int
    mark_sectors: int


SECOND, PRESENT = Layout(2, 64, 0), Layout(3, ACCOUNTS, 1)


def bank_sectors(slots):
    return FRONT + 2 * slots


def sectors_needed(slots):
    """How many sectors the superblock and two banks of so many slots take."""
    return 1 + 2 * bank_sectors(slots)


def live_bytes(slots):
    """How many bytes the superblock and the first bank take."""
    return SECTOR * (1 + bank_sectors(slots))


def place(kind, source, target, amount, reference):
    return struct.pack(">B3xIIIQQ", kind, source, target, 0, amount, reference)


def payload(words, accounts):
    """Fifteen entries that take only what some of them brought, and what they change in each account."""
    places, changes = [], {}
    for reference in range(0, PLACES, 3):
        account, other = words.sample(range(1, accounts + 1), 2)
        brought = words.randint(3, 999)
        moved, taken = words.randint(1, brought - 2), 1
        places.append(place(1, 0, account, brought, reference))
        places.append(place(3, account, other, moved, reference + 1))
        places.append(place(2, account, 0, taken, reference + 2))
        changes[account] = changes.get(account, 0) + brought - moved - taken
        changes[other] = changes.get(other, 0) + moved
    return b"".join(places), changes


def deposit(words, accounts):
    """One entry, a deposit, and what it changes."""
    account, brought = words.randint(1, accounts), words.randint(1, 999)
    return place(1, 0, account, brought, 0).ljust(PLACES * PLACE, b"\0"), {account: brought}


def balances(payloads, accounts, batches):
    """What each account holds after so many batches, which take the payloads in turns."""
    held = dict.fromkeys(range(1, accounts + 1), 0)
    for number, (_, changes) in enumerate(payloads):
        times = len(range(number, batches, len(payloads)))
        for account, change in changes.items():
            held[account] += times * change
    return held


def front(layout, epoch, base, held):
    """A bank's gate, open, its head, and its snapshot of what each account holds, none of them sealed."""
    head = struct.pack(">4s4xQQ", b"TLBK", epoch, base)
    snapshot = struct.pack(f">{layout.accounts}Q", *held.values()) + bytes(SECTOR * layout.mark_sectors)
    return OPEN + head.ljust(SECTOR, b"\0") + snapshot


def rows(payloads, first, count, places):
    """The bodies and gates of so many slots, from this sequence on."""
    for sequence in range(first, first + count):
        header = struct.pack(">4sHHQ16x", b"TLB1", (0, 1, 2, 1)[sequence % 4], places, sequence)
        yield header + payloads[sequence % PAYLOADS][0] + OPEN


def write(path, slots, layout=PRESENT, places=PLACES):
    """Writes the file of a ledger after twice as many batches of 15 entries, or of one, as a bank has slots: the second
    bank has the first half of them, the first one, which is live, the balances after it and the other half. Gives the
    lines that `open 3 000 100` and `balances` print on it.
    """
    words = random.Random(1)
    some = payload if places == PLACES else deposit
    payloads = [some(words, layout.accounts) for _ in range(PAYLOADS)]
    with open(path, "wb") as file:
        file.write(struct.pack(">4sHHQ", b"TLDG", layout.version, 0, slots).ljust(SECTOR, b"\0"))
        for epoch, base in ((2, slots), (1, 0)):
            file.write(front(layout, epoch, base, balances(payloads, layout.accounts, base)))
            file.writelines(rows(payloads, base, slots, places))
    held = balances(payloads, layout.accounts, 2 * slots)
    total = sum(held.values())
    lines = [f"opened 3 next {2 * slots} total {total}"]
    lines += [f"account {account} {balance}" for account, balance in held.items() if balance]
    return lines + [f"total {total}"]
