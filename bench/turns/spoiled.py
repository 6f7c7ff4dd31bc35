"""Changes a ledger's file as damage would, mostly where a bank begins."""
import struct

from image import ACCOUNTS, FRONT, SECTOR, bank_sectors, sectors_needed

LAST = 2**64 - 1

# Where the marks of a snapshot begin, and their bytes; those behind them have to be zero.
MARKS, MARK_BYTES = SECTOR * (FRONT - 1), ACCOUNTS // 8


def slots_of(image):
    """The slots of each bank, where the file is so long."""
    slots = int.from_bytes(image[8:16])
    return slots if 1 <= slots and SECTOR * sectors_needed(slots) <= len(image) else 1


def bank_at(image, bank):
    """Where a bank begins."""
    return SECTOR * (1 + bank * bank_sectors(slots_of(image)))


def slot_at(image, bank, slot):
    """Where the body of a slot begins; its gate is in the next sector."""
    return bank_at(image, bank) + SECTOR * (FRONT + 2 * slot)


def epoch_of(image):
    """The greatest epoch of an open bank, 0 where there is none."""
    places = [bank_at(image, bank) for bank in (0, 1)]
    return max((number(image, place + SECTOR + 8) for place in places if image[place:place + 1] == b"\xa5"), default=0)


def number(image, place):
    return int.from_bytes(image[place:place + 8])


def some_byte(words, image):
    """Any byte of the superblock, of the first bank's front, or of one of the sectors behind it."""
    sector = words.choice((0, 0, 1, 2, 2 + words.randrange(17), *range(FRONT + 1, FRONT + 9)))
    place = words.choice((0, 5, 7, 15, 20, 32, 40, 55, 127, 128, 511))
    return (SECTOR * sector + place) % len(image), bytes([words.randint(0, 255)])


def bank_gate(words, image):
    return bank_at(image, words.randint(0, 1)), words.choice((b"\xa5", b"\0", b"\xa4"))


def slot_gate(words, image):
    slot = words.randrange(slots_of(image))
    return slot_at(image, words.randint(0, 1), slot) + SECTOR, words.choice((b"\xa5", b"\0"))


def body(words, image):
    """One byte of a body, in its header or in its first place."""
    slot, place = words.randrange(slots_of(image)), words.choice((0, 5, 7, 15, 16, 32, 33, 43, 48, 55, 63, 511))
    at = slot_at(image, words.randint(0, 1), slot) + place
    return at, bytes([words.choice((0, 1, 2, 16, 255))])


def head(words, image):
    """One byte of a head, its epoch, or its base: small ones, the other bank's, and the last ones that there are."""
    bank, other = words.choice(((0, 1), (1, 0)))
    place, beside = bank_at(image, bank) + SECTOR, bank_at(image, other) + SECTOR
    field = words.choice((8, 8, 16))
    value = words.choice((0, 1, 2, number(image, beside + field), LAST, LAST - 1, LAST - 2, LAST - 3))
    byte = words.choice((0, 3, 4, 7, 8, 15, 16, 23, 24, 511)), bytes([words.randint(0, 255)])
    at, change = words.choice((byte, (field, struct.pack(">Q", value)), (field, struct.pack(">Q", value))))
    return place + at, change


def balance(words, image):
    """A balance: a small one, or one with which all are near the limit, at it, or over it."""
    place = bank_at(image, words.randint(0, 1)) + 2 * SECTOR + 8 * words.randrange(ACCOUNTS)
    return place, struct.pack(">Q", words.choice((0, 1, 300, 10**18 - 1000, 10**18, 10**18 + 1, LAST)))


def marks(words, image):
    """A byte of the marks, or one behind them."""
    place = words.choice((0, MARK_BYTES - 1, MARK_BYTES, words.randrange(SECTOR), SECTOR - 1))
    return bank_at(image, words.randint(0, 1)) + MARKS + place, bytes([words.choice((0, 1, 128, 255))])


def spoil(words, paths):
    """Changes the same bytes in each file, and opens a bank's gate at times too."""
    image = next(iter(paths)).read_bytes()
    kinds = (some_byte, bank_gate, slot_gate, body, body, head, head, balance, marks)
    changes = [words.choice(kinds)(words, image)]
    if words.random() < 0.3:
        changes.append((bank_at(image, words.randint(0, 1)), b"\xa5"))
    for path in paths:
        changed = bytearray(path.read_bytes())
        for place, change in changes:
            if place + len(change) <= len(changed):
                changed[place:place + len(change)] = change
        path.write_bytes(changed)
