"""What a ledger's file holds of a batch."""
import dataclasses

SECTOR = 512
PLACE = 32

# The sectors of a bank before its slots.
FRONT = 19


@dataclasses.dataclass
class Bank:
    """Where a bank begins, whether it is open, and what its head tells."""

    at: int
    is_open: bool
    epoch: int
    base: int


def slots_of(image):
    return int.from_bytes(image[8:16])


def bank_of(image, number):
    """The first bank, or the second one."""
    at = SECTOR * (1 + number * (FRONT + 2 * slots_of(image)))
    epoch, base = (int.from_bytes(image[at + SECTOR + place:at + SECTOR + place + 8]) for place in (8, 16))
    return Bank(at, image[at] == 0xA5, epoch, base)


def banks(image):
    """The live bank and the other one."""
    first, second = bank_of(image, 0), bank_of(image, 1)
    if not second.is_open or first.is_open and first.epoch > second.epoch:
        return first, second
    return second, first


def body_at(bank, sequence):
    """Where the body begins that has this sequence in the bank."""
    return bank.at + SECTOR * (FRONT + 2 * (sequence - bank.base))


def under_way(path, sequence):
    """What stands of the batch behind the last one, which has this sequence."""
    image = path.read_bytes()
    live, other = banks(image)
    if sequence - live.base == slots_of(image):
        is_renewed = other.epoch == live.epoch + 1 and other.base == sequence
        return "a part of a checkpoint" if is_renewed or live.epoch > 0 and not other.is_open else "nothing"
    body = image[body_at(live, sequence):][:16]
    if body[:4] == b"TLB1" and int.from_bytes(body[8:]) == sequence:
        return "the body alone"
    return "a checkpoint alone" if sequence == live.base > 0 else "nothing"


def without_last_entry(path, sequence):
    """The bytes of the file with a part missing: the last entry of a batch in the live bank."""
    image = bytearray(path.read_bytes())
    at = body_at(banks(image)[0], sequence)
    count = image[at + 7]
    image[at + 7] = count - 1
    last = at + PLACE * count
    image[last:last + PLACE] = bytes(PLACE)
    return bytes(image)
