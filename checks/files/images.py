"""The bytes that a ledger of layout 3 has once it is made, and the numbers that `check` then tells of it."""
import dataclasses

SECTOR = 512
OPEN = b"\xa5".ljust(SECTOR, b"\0")
CLOSED = bytes(SECTOR)
ACCOUNTS = 1024


def word(number, length=8):
    return number.to_bytes(length, "big")


@dataclasses.dataclass(frozen=True)
class Holding:
    """What a ledger stands for: the number of its next batch, what accounts hold, and which of them are sealed."""

    next: int
    balances: dict
    sealed: frozenset

    def total(self):
        return sum(self.balances.values())


def sectors_of(slots):
    return 39 + 4 * slots


def snapshot(holding):
    """The sectors of the balances, and the one of the marks."""
    held = b"".join(word(holding.balances.get(account, 0)) for account in range(1, ACCOUNTS + 1))
    marks = bytearray(SECTOR)
    for account in holding.sealed:
        marks[(account - 1) // 8] |= 1 << (account - 1) % 8
    return held + marks


def made(slots, holding, before=b"", records=()):
    """A ledger that was made in a file with these bytes: what isn't written keeps its bytes. The first bank is live, has
    that number as its base, and these records, body and gate."""
    image = bytearray(before.ljust(SECTOR * sectors_of(slots), b"\0"))

    def put(sector, bytes_there):
        image[SECTOR * sector:SECTOR * sector + len(bytes_there)] = bytes_there

    put(0, (b"TLDG" + word(3, 2) + bytes(2) + word(slots)).ljust(SECTOR, b"\0"))
    put(1, OPEN)
    put(2, (b"TLBK" + bytes(4) + word(0) + word(holding.next)).ljust(SECTOR, b"\0"))
    put(3, snapshot(holding))
    for slot in range(slots):
        put(21 + 2 * slot, CLOSED)
    for slot, body in enumerate(records):
        put(20 + 2 * slot, body + OPEN)
    put(20 + 2 * slots, CLOSED)
    return bytes(image)


def bodies(image, slots, first, count):
    """The bodies of records from that number on, wherever they are in the two banks of a ledger."""
    found = {}
    for bank in (1, 20 + 2 * slots):
        for slot in range(slots):
            at = SECTOR * (bank + 19 + 2 * slot)
            body, gate = image[at:at + SECTOR], image[at + SECTOR]
            if gate == 0xa5:
                found[int.from_bytes(body[8:16], "big")] = body
    return [found[number] for number in range(first, first + count)]


def numbers(slots, bank, epoch, base, holding):
    """What `check` tells."""
    free = slots - (holding.next - base)
    return (f"layout 3\nslots {slots}\nlive bank {bank}\nepoch {epoch}\nbase {base}\nnext {holding.next}\nfree slots {free}\n"
            f"total {holding.total()}\n")
