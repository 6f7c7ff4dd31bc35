"""What a crash may leave of a checkpoint from the first bank into the second one, and what recovery gives."""
from console import Console
from crash import SECTOR, recovered, sector, torn, with_sector
from drawing import line, picture, rectangle, text

# the parts of a bank with one slot that are drawn, by its sectors: gate, head, balances, and a body and its gate
GATE, HEAD, BALANCES, BODY, SLOT_GATE, SECTORS_OF_BANK = 0, 1, 2, 19, 20, 21
PARTS = (GATE, HEAD, BALANCES, BODY, SLOT_GATE)
BANKS = ("first bank", "second bank")
BOX, GAP, LEFT, TOP, ROW = 22, 4, 136, 78, 40


def number_of(bank, part):
    return 1 + bank * SECTORS_OF_BANK + part


def two_images(program, folder):
    """The bytes of a ledger's file after a turn that fills its first bank, and after one that had to make a checkpoint."""
    console = Console(program, "--device", folder / "banks", "--sectors", 1 + 2 * SECTORS_OF_BANK)
    console.lines(["format 1", "open 2 00 10", *(f"post 0 deposit {account} 20" for account in range(1, 16)), "turn 0"])
    full = (folder / "banks").read_bytes()
    console.lines(["open 2 10 10", "post 1 deposit 1 20", "turn 1"])
    return full, (folder / "banks").read_bytes()


def left_images(full, after):
    """Images that a crash may leave of the checkpoint, each with its moment and the sector that it tears. The record that
    needs the checkpoint isn't written yet.
    """
    gate, balances, ready = number_of(1, GATE), number_of(1, BALANCES), full
    for part in range(HEAD, BODY):
        ready = with_sector(ready, number_of(1, part), sector(after, number_of(1, part)))
    halfway = torn(sector(full, balances), sector(after, balances))
    torn_gate = torn(bytes([0x77]) * SECTOR, bytes(SECTOR))
    return [
        ("the first bank", "is full", full, None),
        ("crash while the", "second is written", with_sector(ready, balances, halfway), balances),
        ("crash while its", "gate is written", with_sector(ready, gate, torn_gate), gate),
        ("the same, but with", "its first byte open", with_sector(ready, gate, sector(after, gate)[:1] + torn_gate[1:]), gate),
    ]


def box_at(bank, place):
    return LEFT + (bank * len(PARTS) + place) * (BOX + GAP) + bank * 2 * GAP


def drawn_sector(x, y, held, is_torn):
    """A box with a stripe for each 32 bytes that aren't all zero."""
    stripe = (ROW - 8) / 16
    yield rectangle(x, y, BOX, ROW - 5, "bare", 2)
    for place in range(16):
        if any(held[32 * place:32 * (place + 1)]):
            yield rectangle(x + 3, y + 2 + stripe * place, BOX - 6, stripe * 0.72, "mark" if is_torn else "full")


def row(place, moment, image, torn_sector, total):
    y = TOP + place * (ROW + 6)
    live = int(sector(image, number_of(1, GATE))[0] == sector(image, number_of(0, GATE))[0])
    yield text(16, y + 15, moment[0])
    yield text(16, y + 30, moment[1])
    for bank in (0, 1):
        for at, part in enumerate(PARTS):
            number = number_of(bank, part)
            yield from drawn_sector(box_at(bank, at), y, sector(image, number), number == torn_sector)
    yield text(464, y + 15, ("first", "second")[live], "good", anchor="end", weight="600")
    yield text(464, y + 30, f"{total}", anchor="end")
    if place == 0:
        yield line(16, y + ROW + 1, 464, y + ROW + 1, "frame-line")


def heading():
    yield text(16, 46, "All of the second bank, a sync, its gate, a sync: then it is live.", "faint")
    for bank, name in enumerate(BANKS):
        middle = (box_at(bank, 0) + box_at(bank, len(PARTS) - 1) + BOX) / 2
        yield text(middle, TOP - 9, name, "faint", 11, "middle")
    yield text(464, TOP - 9, "live, total", "faint", 11, "end")
    yield text(16, 285, "Of each bank: gate, head, first balances; a slot's body and gate.", "faint", 11)
    yield rectangle(390, 277, 20, 3, "full")
    yield text(414, 285, "written", "faint", 11)
    yield text(16, 300, "Left out: other balances, marks, and the superblock.", "faint", 11)
    yield rectangle(390, 292, 20, 3, "mark")
    yield text(414, 300, "torn", "faint", 11)


def checkpoint_picture(program, folder):
    parts = list(heading())
    for place, (first, second, image, torn_sector) in enumerate(left_images(*two_images(program, folder))):
        _, total = recovered(program, folder, image)
        parts += row(place, (first, second), image, torn_sector, total)
    told = ("Rows of sectors of two banks, while a checkpoint goes from the first into the second. Whatever a crash leaves, one bank or the"
            " other is live, and both stand for the same ledger.")
    return picture("A checkpoint never leaves less than the ledger", told, parts, 314)
