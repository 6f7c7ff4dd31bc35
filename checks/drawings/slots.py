"""Damage of slots, in the live bank.

In layout 3 sector 47 is the body of slot 0, with one place, bytes 32 to 63. Sector 49 is the body of slot 1, with two
places, of which the second one has bytes 64 to 95.
"""
from cells import HEADER, TAIL
from ledgers_written import changed, ledger
from pictures import Place

SEQUENCE = "the record of a slot has another sequence number"


def no_entry(place):
    return f"place {place} of a record is no entry"


def broken_rule(place):
    return f"the entry at place {place} of a record breaks a rule of the ledger"


def require_found(drawing, layout, table):
    """That the damage of each row has its cause, and is found in its slot, sector and byte."""
    for changes, cause, slot, sector, byte in table:
        place = Place(sector, byte, bank=1 if layout > 1 else None, slot=slot)
        drawing.require_damage(changed(ledger(layout), changes), cause, place, f"layout {layout} with {changes}")


def of_the_live_bank(drawing):
    """If the count is 1, the second place is unused, and its first byte, the kind 3, is wrong. The sequence has bytes 8
    to 15. The gate of slot 3 is sector 54. A seal, kind 4, has zeros where a deposit has its account. A transfer of 200
    is more than its account holds, and one of 0 breaks a rule too."""
    require_found(drawing, 3, (
        ([(49, 7, 1)], HEADER, 1, 49, 64),
        ([(47, 0, 0)], HEADER, 0, 47, 0),
        ([(47, 5, 64)], HEADER, 0, 47, 5),
        ([(47, 7, 16)], HEADER, 0, 47, 7),
        ([(47, 7, 0)], HEADER, 0, 47, 7),
        ([(47, 16, 1), (47, 31, 1)], HEADER, 0, 47, 16),
        ([(47, 14, 1)], SEQUENCE, 0, 47, 14),
        ([(49, 15, 9)], SEQUENCE, 1, 49, 15),
        ([(54, 0, 0xa5)], TAIL, 3, 54, 0),
        ([(49, 32, 4)], no_entry(0), 1, 49, 43),
        ([(47, 32, 9)], no_entry(0), 0, 47, 32),
        ([(47, 39, 1)], no_entry(0), 0, 47, 39),
        ([(49, 65, 1)], no_entry(1), 1, 49, 65),
        ([(49, 87, 200)], broken_rule(1), 1, 49, 64),
        ([(47, 55, 0)], broken_rule(0), 0, 47, 32)))


def of_older_layouts(drawing):
    """An older layout has no seals, and no account above 64. The body of slot 0 and the gate of slot 3 are sectors 15
    and 22 in layout 2, and 1 and 8 in layout 1, which has no banks."""
    for layout, body, gate in ((2, 15, 22), (1, 1, 8)):
        require_found(drawing, layout, (
            ([(body, 6, 1)], HEADER, 0, body, 6),
            ([(body, 15, 9)], SEQUENCE, 0, body, 15),
            ([(gate, 0, 0xa5)], TAIL, 3, gate, 0),
            ([(body, 32, 4), (body, 43, 0)], no_entry(0), 0, body, 32),
            ([(body, 43, 65)], broken_rule(0), 0, body, 32)))
