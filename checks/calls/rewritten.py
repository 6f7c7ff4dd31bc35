"""What is told if somebody else writes a sector between two readings of it."""
from formats import OPEN, Bank, balances, body, deposit, head, put, sectors, superblock
from openings import damaged, image, refused
from writing import WITHDRAWAL, ZERO, place

# Two slots in each bank of layout 3.
FIRST, SECOND = Bank(3, 2, 0), Bank(3, 2, 1)

END = 2**64 - 1

CHANGED = "refused Changed: the record is no longer there"


def later(at, held, offset=0):
    """The line that puts these bytes into a sector once it was read."""
    return f"later {at} {offset} {held.hex()}"


def of_a_record_that_is_copied():
    """An older journal reads each body when it is opened, and a second time to post it. Which one is no record any more is
    told by its slot; in layout 2 so is one whose number isn't its own. The last gate is read once."""
    asked, wanted = [f"device {sectors(3, 1)}", "other"], []
    for layout in (1, 2):
        bank = Bank(layout, 4, layout - 1)
        asked += [*image(layout), later(bank.body(3) + 1, ZERO), "migrate 1"]
        for slot in range(3):
            others = [ZERO, body(0, slot, deposit(1, 6)).ljust(512, b"\0")][:layout]
            for other in others:
                asked += [*image(layout), later(bank.body(slot), other), "migrate 1"]
                wanted += refused("migrate", damaged(slot, "Header"))
    return asked, wanted


def of_a_ledger_that_was_found_sound():
    """The record's body reads as zeros the second time, or the balances do, which its withdrawal needs."""
    asked, wanted = [], []
    for at in (FIRST.body(0), FIRST.balances):
        asked += [f"device {sectors(3, 2)}", put(0, superblock(3, 2)), put(FIRST.gate, OPEN), put(FIRST.head, head(0, 0)),
                  put(FIRST.balances, balances(5)), put(FIRST.body(0), body(0, 0, place(WITHDRAWAL, 1, 0, 5, 2))),
                  put(FIRST.body(0) + 1, OPEN), later(at, ZERO), "list"]
        wanted += ["Numbers { version: 3, slots: 2, live_bank: 0, epoch: Some(0), base: 0, next: 1 }", "next 1 total 0",
                   CHANGED, "left 1"]
    return asked, wanted


def of_a_record_that_is_listed():
    """The second entry of a record is none any more, once the listing is opened: the first one is posted by then."""
    at = "at, end, left (2, 3, 1)"
    asked = [*two_postings(), later(SECOND.body(0), bytes([9]), 64), "listing", "ledger", "skip 3", "ledger", "numbers"]
    return asked, [at, "next 2 total 0", CHANGED, "next 2 total 1 1=1", at]


def two_postings():
    """A ledger whose second bank is live, with one record of number 2, which has two deposits with references 7 and 8."""
    return [f"device {sectors(3, 2)}", put(0, superblock(3, 2)), put(FIRST.gate, OPEN), put(FIRST.head, head(0, 0)),
            put(SECOND.gate, OPEN), put(SECOND.head, head(1, 2)),
            put(SECOND.body(0), body(0, 2, deposit(1, 1, 7), deposit(1, 1, 8))), put(SECOND.body(0) + 1, OPEN)]


def picked(reference):
    """That a search for the reference finds it in that record."""
    entry = f"Deposit {{ to: 1, amount: 1, reference: {reference} }}"
    reached = "Further { began: 2, number: 3, end: 3 }"
    return f"SearchStep {{ posting: Some(Posting {{ number: 2, entry: {entry} }}), reached: {reached} }}"


def of_a_record_that_is_searched():
    """A record that is none any more is told, and never taken for one without the reference: its mark, its number, its
    station or its count is another, or a byte isn't zero behind its places. Where a place holds no entry any more, what
    stands before it is still found."""
    asked, wanted = [], []
    for at, byte, found in (
        (0, 0, [CHANGED, CHANGED]),
        (5, 64, [CHANGED, CHANGED]),
        (7, 0, [CHANGED, CHANGED]),
        (15, 1, [CHANGED, CHANGED]),
        (96, 1, [CHANGED, CHANGED]),
        (32, 9, [CHANGED, CHANGED]),
        (64, 9, [picked(7), CHANGED]),
        (0, 0x54, [picked(7), picked(8)]),
    ):
        asked += [*two_postings(), later(SECOND.body(0), bytes([byte]), at), "clerk 2 00 10"]
        asked += [f"find {reference} 0 {END}" for reference in (7, 8)]
        wanted += ["next 3 total 2 1=2", *found]
    return asked, wanted


TESTS = (
    of_a_record_that_is_copied,
    of_a_ledger_that_was_found_sound,
    of_a_record_that_is_listed,
    of_a_record_that_is_searched,
)
