"""Damage before the slots: where it is found in a superblock, a bank's head and a snapshot."""
from cells import BANK, NO_LEDGER
from ledgers_written import changed, ledger
from pictures import Place

SIZE = "its number of slots is out of range, or it is too short for them"


def require_found(drawing, layout, table, cause=BANK):
    """That the damage of each row is found in its bank, sector and byte."""
    for changes, bank, sector, byte in table:
        place = Place(sector, byte, bank=bank)
        drawing.require_damage(changed(ledger(layout), changes), cause, place, f"layout {layout} with {changes}")


def that_have_a_wrong_superblock(drawing):
    """It is found at the first byte that no superblock has, or where the version or the number of slots begins."""
    require_found(drawing, 3, (
        ([(0, 0, 0)], None, 0, 0), ([(0, 2, 0)], None, 0, 2), ([(0, 16, 1), (0, 7, 1)], None, 0, 7),
        ([(0, 511, 1)], None, 0, 511)), NO_LEDGER)
    require_found(drawing, 3, (([(0, 5, 9), (0, 6, 1)], None, 0, 4),), "its ledger has version 9, which isn't known")
    require_found(drawing, 3, (([(0, 15, 5)], None, 0, 8), ([(0, 15, 0)], None, 0, 8)), SIZE)
    require_found(drawing, 2, (([(0, 15, 5)], None, 0, 8),), SIZE)
    require_found(drawing, 1, (([(0, 15, 5)], None, 0, 8), ([(0, 8, 1)], None, 0, 8)), SIZE)


def that_have_wrong_heads(drawing):
    """It is found at the first byte that no head has. Bytes 0 to 7 are a magic and zeros, and zeros follow byte 23.
    Bank 0 is looked at first, unless it is closed. If no bank is open, its gate is wrong. If both banks have the same
    epoch, its epoch is wrong."""
    require_found(drawing, 3, (
        ([(2, 4, 1)], 0, 2, 4),
        ([(2, 24, 1), (2, 7, 1)], 0, 2, 7),
        ([(29, 0, 0), (2, 300, 1)], 0, 2, 300),
        ([(1, 0, 0), (2, 0, 0), (29, 5, 1)], 1, 29, 5),
        ([(1, 0, 0), (28, 0, 0)], 0, 1, 0),
        ([(29, 15, 0)], 0, 2, 8)))
    require_found(drawing, 2, (
        ([(2, 7, 1)], 0, 2, 7),
        ([(13, 30, 1)], 1, 13, 30),
        ([(1, 0, 0), (12, 0, 0)], 0, 1, 0)))


def that_have_wrong_snapshots(drawing):
    """If the balances exceed the limit, the damage is found at their first byte. Behind the marks it is the first byte
    that isn't zero. The snapshot of the bank that isn't live may have any bytes."""
    require_found(drawing, 3, (
        ([(30, 0, 0x20)], 1, 30, 0), ([(45, 504, 0x20)], 1, 30, 0),
        ([(46, 200, 1), (46, 128, 1)], 1, 46, 128), ([(46, 511, 1)], 1, 46, 511)))
    require_found(drawing, 2, (([(14, 0, 0x20)], 1, 14, 0), ([(14, 504, 0x20)], 1, 14, 0)))
    image = changed(ledger(3), [(3, 0, 0x20), (19, 128, 1), (20, 0, 1)])
    drawing.require_cells(image, None, [0, 1, 2, 34, 2, 4, 6, 6, 0, 0], "a bank that isn't live")
