"""Two images, and what is told of them where they are cut short or damaged at one place."""
from console import is_told, require, require_same
from reading import read
from writing import (
    BALANCES, FIRST, HEAD, MARKS, OPEN, SECTOR, ZERO, balances, body, body_at, deposit, gate_at, head, marks, second,
    sectors_needed, superblock,
)


def image_of(slots, sectors):
    """An image with so many slots in each bank, of these sectors by their places, and zeros in all others."""
    return [{0: superblock(slots), **sectors}.get(at, ZERO) for at in range(sectors_needed(slots))]


def after_one_deposit():
    """With 4 slots a bank, after one deposit of 500: the lines that make it, and its sectors."""
    lines = ["device 55", "format 4", "clerk 2 00 10", "turn 0 deposit 1 500 1", "close"]
    return lines, image_of(4, {
        FIRST: OPEN,
        FIRST + HEAD: head(0, 0),
        body_at(FIRST, 0): body(0, 0, [deposit(1, 500)]),
        gate_at(FIRST, 0): OPEN,
    })


def behind_a_checkpoint():
    """With 1 slot a bank and a mark on account 2, after two deposits of 5, of which the second made a checkpoint."""
    made = ["device 43", "format 1", f"put {FIRST + MARKS} 0 02"]
    taken = ["clerk 2 00 10", "turn 0 deposit 1 5 1", "turn 1 deposit 1 5 1", "close"]
    live = second(1)
    return made + taken, image_of(1, {
        FIRST: OPEN,
        FIRST + HEAD: head(0, 0),
        FIRST + MARKS: marks([2]),
        body_at(FIRST, 0): body(0, 0, [deposit(1, 5)]),
        gate_at(FIRST, 0): OPEN,
        live: OPEN,
        live + HEAD: head(1, 1),
        live + BALANCES: balances([5]),
        live + MARKS: marks([2]),
        body_at(live, 0): body(1, 1, [deposit(1, 5)]),
        gate_at(live, 0): OPEN,
    })


def make(console, scene):
    """Makes a device of this image, by the library. Its sectors, each as FORMATS has it."""
    lines, image = scene
    console.ask(lines)
    told = console.ask([f"sector {at}" for at in range(len(image))])
    for at, (line, bytes) in enumerate(zip(told, image, strict=True)):
        require_same(line, bytes.rstrip(b"\0").hex(), f"sector {at}")
    return list(image)


def put(at, bytes, before=ZERO):
    """The line that puts these bytes into a sector, of which it holds others: from the first that differs to the last.
    There is none if they are the same."""
    differ = int.from_bytes(bytes, "big") ^ int.from_bytes(before, "big")
    if not differ:
        return []
    first = SECTOR - (differ.bit_length() + 7) // 8
    behind = SECTOR - ((differ & -differ).bit_length() - 1) // 8
    return [f"put {at} {first} {bytes[first:behind].hex()}"]


def require_read_as(console, image, wanted, of):
    """That recovery tells this of an image, on a device that has just its sectors, and so does reading.py."""
    device = [f"device {len(image)}", *(line for at, bytes in enumerate(image) for line in put(at, bytes))]
    answer, = console.ask([*device, "recover"])
    require(is_told(answer, wanted), f"{of}: {answer!r} and not {wanted!r}")
    require_same(read(image), wanted, f"{of}, by reading.py")


def cut_short(console, every):
    """Of fewer sectors than its slots need no image is a ledger."""
    _, image = after_one_deposit()
    for sectors in range(56):
        wanted = {0: "refused Unformatted", 55: "next 1 total 500 1=500"}.get(sectors, "refused Size")
        require_read_as(console, image[:sectors], wanted, f"{sectors} sectors")
    return 56


def damaged_at_one_place(console, every):
    """Of the first bank's gate, its head, its balances, the record's body and its gate, and the second bank's gate: the
    sector, bytes from one place on, and what is told."""
    damages = (
        (1, 0, b"\x00", "refused Damaged { slot: 0, cause: Bank }"),
        (2, 4, b"\x01", "refused Damaged { slot: 0, cause: Bank }"),
        (3, 0, b"\xff" * SECTOR, "refused Damaged { slot: 0, cause: Bank }"),
        (20, 8, b"\xff", "refused Damaged { slot: 0, cause: Sequence }"),
        (21, 0, b"\x00", "next 0 total 0"),
        (28, 0, b"\xa5", "refused Damaged { slot: 1, cause: Bank }"),
    )
    for at, place, bytes, wanted in damages:
        _, image = after_one_deposit()
        image[at] = image[at][:place] + bytes + image[at][place + len(bytes) :]
        require_read_as(console, image, wanted, f"sector {at}")
    return len(damages)
