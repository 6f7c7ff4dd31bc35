"""What a crash may leave of a turn that is under way, and what recovery gives."""
from pathlib import Path

from console import Console
from drawing import line, picture, rectangle, text

SECTOR, PLACE = 512, 32
SLOTS = 3
# the sectors of a bank before its slots: its gate, its head, sixteen of balances, and one of marks
FRONT = 19
SECTORS = 1 + 2 * (FRONT + 2 * SLOTS)
# the sectors that are drawn: the superblock, and the slots of the first bank
DRAWN = [0, *range(1 + FRONT, 1 + FRONT + 2 * SLOTS)]
# the body and the gate of the last slot
BODY = 1 + FRONT + 2 * (SLOTS - 1)
GATE = BODY + 1
BOX, GAP, LEFT, TOP, ROW = 26, 5, 143, 78, 40


def turn(station, entries):
    """A turn of 15 entries, so that they fill the places of a body."""
    return [*(f"post {station} {entry}" for entry in entries), f"turn {station}"]


def two_images(program, folder):
    """The bytes of a ledger's file after two turns, and after a third one."""
    console = Console(program, "--device", folder / "ledger", "--sectors", SECTORS)
    console.lines([f"format {SLOTS}", "open 3 000 100", *turn(0, ["deposit 1 20"] * 15), *turn(1, ["transfer 1 2 10"] * 15)])
    two = (folder / "ledger").read_bytes()
    console.lines(["open 3 110 110", *turn(2, ["withdraw 2 5"] * 15)])
    return two, (folder / "ledger").read_bytes()


def sector(image, number):
    return image[SECTOR * number:SECTOR * (number + 1)]


def with_sector(image, number, held):
    return image[:SECTOR * number] + held + image[SECTOR * (number + 1):]


def torn(old, new):
    """A sector of which every third place was still the old one."""
    places = range(SECTOR // PLACE)
    return b"".join((old if place % 3 == 1 else new)[PLACE * place:PLACE * (place + 1)] for place in places)


def left_images(two, three):
    """Images that a crash may leave, from before the third turn to its answer: each with its moment, and the sector that it
    tears. A torn gate may have any bytes, and its first one says whether it is open.
    """
    body = sector(three, BODY)
    closed = torn(bytes([0x77]) * SECTOR, bytes(SECTOR))
    return [
        ("two turns were", "answered", two, None),
        ("crash while the", "body is written", with_sector(two, BODY, torn(sector(two, BODY), body)), BODY),
        ("crash while the", "gate is written", with_sector(three, GATE, closed), GATE),
        ("the same, but with", "its first byte open", with_sector(three, GATE, sector(three, GATE)[:1] + closed[1:]), GATE),
        ("crash after", "the answer", three, None),
    ]


def recovered(program, folder, image):
    """What the program prints of an image: the number of the next record, and the total of the accounts."""
    (folder / "left").write_bytes(image)
    opened = Console(program, "--device", folder / "left", "--sectors", len(image) // SECTOR).lines(["open 3 010 100"])[0].split()
    if opened[0] != "opened":
        raise SystemExit(f"an image was refused: {' '.join(opened)}")
    return int(opened[3]), int(opened[5])


def box_at(number):
    return LEFT + number * (BOX + GAP) + (number + 1) // 2 * GAP


def drawn_sector(number, y, held, is_torn):
    """A box with a stripe for each 32 bytes that aren't all zero."""
    x, stripe = box_at(DRAWN.index(number)), BOX / 16 * 1.25
    yield rectangle(x, y, BOX, stripe * 16 + 3, "bare", 2)
    for place in range(16):
        if any(held[PLACE * place:PLACE * (place + 1)]):
            yield rectangle(x + 3, y + 2 + stripe * place, BOX - 6, stripe * 0.72, "mark" if is_torn else "full")


def heading():
    yield text(16, 46, "A body, a sync, its gate, a sync: then the turn is answered.", "faint")
    yield text(box_at(0) + BOX, TOP - 9, "superblock", "faint", 11, "end")
    for slot in range(SLOTS):
        middle = (box_at(2 * slot + 1) + box_at(2 * slot + 2) + BOX) / 2
        yield text(middle, TOP - 9, f"record {slot}", "faint", 11, "middle")
    yield text(464, TOP - 9, "recovered", "faint", 11, "end")
    yield text(16, 325, "A box is a sector, a stripe 32 of its bytes that aren't all zero.", "faint", 11)
    yield rectangle(374, 317, 20, 3, "full")
    yield text(398, 325, "written", "faint", 11)
    yield text(16, 340, "Left out: the bank's gate, head and snapshot; the other bank.", "faint", 11)
    yield rectangle(374, 332, 20, 3, "mark")
    yield text(398, 340, "torn", "faint", 11)


def row(place, moment, image, torn_sector, found):
    y = TOP + place * (ROW + 6)
    records, total = found
    yield text(16, y + 15, moment[0])
    yield text(16, y + 30, moment[1])
    for number in DRAWN:
        yield from drawn_sector(number, y, sector(image, number), number == torn_sector)
    yield text(464, y + 15, f"records 0–{records - 1}", "good", anchor="end", weight="600")
    yield text(464, y + 30, f"total {total}", anchor="end")
    if place == 0:
        yield line(16, y + ROW + 1, 464, y + ROW + 1, "frame-line")


def crash_picture(program, folder):
    two, three = two_images(program, folder)
    parts = list(heading())
    for place, (first, second, image, torn_sector) in enumerate(left_images(two, three)):
        parts += row(place, (first, second), image, torn_sector, recovered(program, folder, image))
    told = ("Rows of sectors: the superblock, and of one bank a body and a gate for each record. Of a third turn, whatever a crash leaves, recovery gives"
            " records 0 and 1, or all three.")
    return picture("A crash leaves a turn whole or not at all", told, parts)
