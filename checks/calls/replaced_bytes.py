"""Two images of which each byte is replaced, beside reading.py."""
from console import is_told, require, require_same
from images import after_one_deposit, behind_a_checkpoint, make
from reading import read
from writing import BALANCES, FIRST, HEAD, MARKS, SECTOR, ZERO, body_at, gate_at, second

# The values that each byte takes, and that are counted. In a sector that isn't all zeros a byte takes each value, and so
# does the first byte of any sector, which may be that of a gate.
COUNTED = (0x00, 0x01, 0xA5, 0xFF)

IMAGES = 2_414_524

# How many images are asked for at once.
AT_ONCE = 1_000

# How many images are refused with a byte as 00, 01, a5 and ff, by FORMATS. A byte that has to be zero is refused with
# three of them, and so is one that has to be 01 or a5; one that has to be another with all four.

# The magic 4; the version 00 03; zeros in 2 and 496 bytes; and of the number of slots seven zeros, and last a 04, which
# may be 01, or else a 01, which may be that alone.
SUPERBLOCK = 4 * 4 + (3 + 4) + 3 * 2 + (3 * 7 + 3) + 3 * 496

# The magic, zeros in 4 and 488 bytes, and of the base each byte, since the first record has another sequence then.
LIVE_HEAD = 4 * 4 + 3 * 4 + 3 * 8 + 3 * 488

# Both epochs are the same with one byte of either.
SAME_EPOCH = 1

# The head of an open bank that isn't live: its base isn't looked at.
OTHER_HEAD = 4 * 4 + 3 * 4 + SAME_EPOCH + 3 * 488

# The highest byte of each account: a5 and ff are more than all accounts may hold.
HELD = 2 * 64

# The zeros in 384 bytes behind the marks. The deposit's account, 1, is sealed by the lowest bit of the first byte, which
# 01, a5 and ff have.
MARKED = 3 * 384 + 3

# The kind 01, 3 zeros, no account to take from, an account from 00 00 00 01 to 00 00 04 00, 4 zeros, and an amount whose
# highest byte is 00 or 01. The reference may be anything.
PLACE = 3 + 3 * 3 + 3 * 4 + (3 * 2 + 2 + 1) + 3 * 4 + 2

# The magic; a station, 00 and then at most 3f; the count 00 01; each byte of the sequence; 16 zeros; the first place, and
# zeros in those behind it.
BODY = 4 * 4 + (3 + 2) + (3 + 3) + 3 * 8 + 3 * 16 + PLACE + 3 * 32 * 14

# The amount 5 is 0 with its lowest byte as 00; the amount 500 isn't.
NO_AMOUNT = 1

# Three close a gate without which there is no ledger; one opens a gate behind which there is nothing sound.
CLOSED, OPENED = 3, 1

# How many images are refused from this sector on, up to that of the next row. With 4 slots a bank, after one deposit, bank
# 0 is live, and slot 0 has its record. Without its gate that slot is closed.
AFTER_ONE_DEPOSIT = {
    0: SUPERBLOCK, FIRST: CLOSED, FIRST + HEAD: LIVE_HEAD, FIRST + BALANCES: HELD, FIRST + MARKS: MARKED,
    body_at(FIRST, 0): BODY, gate_at(FIRST, 0): 0, gate_at(FIRST, 1): OPENED, body_at(FIRST, 2): 0,
    gate_at(FIRST, 2): OPENED, body_at(FIRST, 3): 0, gate_at(FIRST, 3): OPENED, second(4): OPENED, second(4) + HEAD: 0,
}

# With 1 slot a bank, behind a checkpoint, bank 1 is live. Without its gate bank 0 is, whose own is open.
BEHIND_A_CHECKPOINT = {
    0: SUPERBLOCK, FIRST: 0, FIRST + HEAD: OTHER_HEAD, FIRST + BALANCES: 0, second(1): 0,
    second(1) + HEAD: LIVE_HEAD + SAME_EPOCH, second(1) + BALANCES: HELD, second(1) + MARKS: MARKED,
    body_at(second(1), 0): BODY + NO_AMOUNT, gate_at(second(1), 0): 0,
}


def refused_at(table, at):
    return table[max(first for first in table if first <= at)]


def replaced(sound, every):
    """The place and the value of each byte that is replaced, of each so many."""
    tried = [(place, value) for place in range(SECTOR)
             for value in (COUNTED if sound == ZERO and place else range(256))]
    return tried[::every]


def asked(at, sound, some):
    """Puts each value to its place, and recovers. At the end the sector is as it was."""
    lines, last = [], some[0][0]
    for place, value in some:
        if place != last:
            lines.append(f"put {at} {last} {sound[last]:02x}")
        lines += f"put {at} {place} {value:02x}", "recover"
        last = place
    return [*lines, f"put {at} {last} {sound[last]:02x}"]


def replace_in(console, image, at, every):
    """Replaces each byte of a sector: how many images there are, and how many of the counted ones are refused."""
    sound, refused = image[at], 0
    tried = replaced(sound, every)
    for begin in range(0, len(tried), AT_ONCE):
        some = tried[begin : begin + AT_ONCE]
        for (place, value), answer in zip(some, console.ask(asked(at, sound, some)), strict=True):
            image[at] = sound[:place] + bytes((value,)) + sound[place + 1 :]
            wanted = read(image)
            if not is_told(answer, wanted):
                require(False, f"sector {at} byte {place} as {value:02x}: {answer!r} and not {wanted!r}")
            refused += value in COUNTED and wanted.startswith("refused")
    image[at] = sound
    return len(tried), refused


def replace_each(console, scene, table, every):
    """Replaces each byte of an image, and compares how many images of each sector are refused."""
    image, images = make(console, scene), 0
    for at in range(len(image)):
        count, refused = replace_in(console, image, at, every)
        if every == 1:
            require_same(refused, refused_at(table, at), f"how many are refused with a byte in sector {at}")
        images += count
        console.ask(["crash"])
    return images


def each_in_two_images(console, every):
    """Each image is read as FORMATS says."""
    images = replace_each(console, after_one_deposit(), AFTER_ONE_DEPOSIT, every)
    images += replace_each(console, behind_a_checkpoint(), BEHIND_A_CHECKPOINT, every)
    if every == 1:
        require_same(images, IMAGES, "images")
    return images
