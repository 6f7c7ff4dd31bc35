"""The cells of a picture, counted by their kinds, and its captions."""
from failing import require, require_same
from ledgers_written import RECORDS, SECTOR, changed, ledger
from pictures import Place

HEADER = "the body of an open slot is no record"
TAIL = "a slot is open behind a closed one"
BANK = "a bank isn't sound, or none is live"
NO_LEDGER = "it holds no ledger"


def each_of_its_kind(drawing):
    """Layout 3 has a superblock, and in each bank a gate, a head, 17 sectors of its snapshot, and four slots of two
    sectors each. Two of the eight slots are open. In layout 2 a snapshot has one sector. Layout 1 has nine sectors, and
    two of its four slots are open. An open gate behind a closed one is damage; its body is drawn as a record."""
    for layout, changes, told, counts in (
            (3, [], None, [0, 1, 2, 34, 2, 4, 6, 6, 0, 0]),
            (3, [(47, 0, 0)], f"{HEADER} (bank 1, slot 0, sector 47, byte 24064)", [1, 1, 2, 34, 1, 4, 6, 6, 0, 0]),
            (3, [(54, 0, 0xa5)], f"{TAIL} (bank 1, slot 3, sector 54, byte 27648)", [1, 1, 2, 34, 3, 4, 5, 5, 0, 0]),
            (3, [(29, 5, 1)], f"{BANK} (bank 1, sector 29, byte 14853)", [1, 1, 1, 34, 2, 4, 6, 6, 0, 0]),
            (3, [(46, 511, 1)], f"{BANK} (bank 1, sector 46, byte 24063)", [1, 1, 2, 33, 2, 4, 6, 6, 0, 0]),
            (2, [], None, [0, 1, 2, 2, 2, 4, 6, 6, 0, 0]),
            (2, [(22, 0, 0xa5)], f"{TAIL} (bank 1, slot 3, sector 22, byte 11264)", [1, 1, 2, 2, 3, 4, 5, 5, 0, 0]),
            (1, [], None, [0, 1, 0, 0, 2, 2, 2, 2, 0, 0]),
            (1, [(8, 0, 0xa5)], f"{TAIL} (slot 3, sector 8, byte 4096)", [1, 1, 0, 0, 3, 2, 1, 1, 0, 0])):
        drawing.require_cells(changed(ledger(layout), changes), told, counts, f"layout {layout} with {changes}")
    drawing.require_cells(ledger(3, sectors=60), None, [0, 1, 2, 34, 2, 4, 6, 6, 5, 0], "five sectors behind a ledger")


def of_each_bank_as_it_is(drawing):
    """A slot of a closed bank is drawn as its gate says. If both banks are closed, the gate of bank 0 is damaged."""
    image = changed(ledger(3), [(28, 0, 0), (54, 0, 0xa5)])
    drawing.require_cells(image, None, [0, 1, 2, 34, 3, 4, 5, 6, 0, 0], "a closed second bank")
    image = changed(ledger(3), [(1, 0, 0), (28, 0, 0)])
    told = f"{BANK} (bank 0, sector 1, byte 512)"
    drawing.require_cells(image, told, [1, 1, 2, 34, 2, 2, 6, 7, 0, 0], "two closed banks")


def of_no_layout(drawing):
    """If a file has no layout, its sectors are drawn as unknown. A wrong number of slots is enough for that."""
    for byte, value, told, wrong in (
            (0, 0, NO_LEDGER, 0), (5, 9, "its ledger has version 9, which isn't known", 4), (16, 1, NO_LEDGER, 16),
            (15, 5, "its number of slots is out of range, or it is too short for them", 8)):
        told = f"{told} (sector 0, byte {wrong})"
        drawing.require_cells(changed(ledger(3), [(0, byte, value)]), told, [1, *[0] * 8, 54], f"a wrong byte {byte}")


def joined_where_no_layout_is(drawing):
    """If no layout is known, up to 4,096 sectors have a cell each. With 4,097 sectors a cell is two of them, and the
    last sector is alone. With 8,193 a cell is three. The first cell is the damaged one."""
    told = f"{NO_LEDGER} (sector 0, byte 0)"
    drawing.require_cells(b"", NO_LEDGER, [0] * 10, "an empty file")
    for sectors, cells in ((1, 1), (4_096, 4_096), (4_097, 2_049), (8_193, 2_731)):
        drawing.require_cells(bytes(SECTOR * sectors), told, [1, *[0] * 8, cells - 1], f"{sectors} sectors of zeros")
    picture = drawing.picture(bytes(SECTOR * 4_097), told)
    require_same(picture.titles("damaged"), ["sectors 0 to 1"], "the damaged cell of 4,097 sectors")
    require_same(picture.titles("unknown")[-2:], ["sectors 4094 to 4095", "sector 4096"], "the last of 4,097 sectors")
    require("no known layout, 4097 sectors of 512 bytes; a cell is 2 sectors" in picture.captions, "what a cell is")


def joined_in_slots(drawing):
    """2,060 slots of layout 1 use 4,121 sectors, so a cell is one slot. Two slots hold a record. The 100 sectors behind
    the ledger are drawn in one row, which has at most 64 cells. With 1,100 slots in each bank of layout 3 a cell is a
    slot too, and what stands before the slots is drawn sector by sector."""
    image = ledger(1, slots=2_060, sectors=4_221)
    for changes, told, counts in (
            ([], None, [0, 1, 0, 0, 2, 0, 2_058, 0, 50, 0]),
            ([(1_000, 0, 0xa5)], f"{TAIL} (slot 499, sector 1000, byte 512000)", [1, 1, 0, 0, 2, 0, 2_057, 0, 50, 0]),
            ([(3, 0, 0)], f"{HEADER} (slot 1, sector 3, byte 1536)", [1, 1, 0, 0, 1, 0, 2_058, 0, 50, 0])):
        drawing.require_cells(changed(image, changes), told, counts, f"2,060 slots with {changes}")
    picture = drawing.picture(image)
    require_same(picture.titles("record"), ["sectors 1 to 2", "sectors 3 to 4"], "the cells of two records")
    caption = "4221 sectors of 512 bytes; a cell of slots is 2 sectors, shown as a record if one is"
    require(f"layout 1, 2060 slots, {caption}" in picture.captions, f"what a cell of slots is: {picture.captions}")
    drawing.require_cells(ledger(3, slots=1_100), None, [0, 1, 2, 34, 2, 2, 2_198, 0, 0, 0], "1,100 slots in each bank")


def require_captions(drawing, image, told, captions, bars):
    """That a picture has each of these captions once, and this number of bars for the live bank."""
    picture = drawing.picture(image, told)
    for caption in captions:
        require_same(picture.captions.count(caption), 1, f"the caption {caption!r}")
    require_same(picture.bars, bars, f"the bars of the live bank, {told}")
    return picture


def with_captions(drawing):
    """Captions tell the layout, the parts and the damage. A bar stands in the legend, and two beside the live bank."""
    image = changed(ledger(3, (*RECORDS, RECORDS[0])), [(51, 3, 0)])
    place = Place(51, 3, bank=1, slot=2)
    picture = require_captions(drawing, image, f"{HEADER} {place.in_a_line()}", (
        "Sectors of a device", "bank 0, not live", "bank 1, live", "slots of bank 0, not live",
        "slots of bank 1, live", "layout 3, 4 slots in each bank, 55 sectors of 512 bytes",
        "damage: sector 51, byte 3, bank 1, slot 2; byte 26115 of the file"), 3)
    require_same(picture.cells[-1], ("closed", "sector 54"), "the last cell")
    none = changed(ledger(3), [(1, 0, 0), (28, 0, 0)])
    told = f"{BANK} {Place(1, 0, bank=0).in_a_line()}"
    require_captions(drawing, none, told, ("bank 0, not live", "bank 1, not live"), 1)
    second = ("layout 2, 4 slots in each bank, 23 sectors of 512 bytes", "bank 1, live")
    require_captions(drawing, ledger(2), None, second, 3)
    row = ("layout 1, 4 slots, 12 sectors of 512 bytes", "slots", "behind the ledger")
    require_captions(drawing, ledger(1, sectors=12), None, row, 1)
    require_captions(drawing, bytes(SECTOR), f"{NO_LEDGER} (sector 0, byte 0)", ("no known layout",), 1)
