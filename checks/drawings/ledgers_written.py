"""Sound ledgers of each layout, and what is changed in them."""
import formats
from formats import OPEN, Bank
from writing import transfer

SECTOR = 512
SLOTS = 4

# Two records of station 3: a deposit of 5 to account 1; and that with a transfer of 4 from account 1 to account 2.
RECORDS = (
    (3, (formats.deposit(1, 5),)),
    (3, (formats.deposit(1, 5), transfer(1, 2, 4, 0))),
)

# In layouts 2 and 3 the second bank is live, and its first record has this number. In layout 1 that is 0.
BASE = 7


def ledger(layout, records=RECORDS, slots=SLOTS, sectors=None):
    """A ledger with these records, in the sectors that it needs or in more. Bank 0 is open too, with epoch 0.

    - Layout 1 has 9 sectors. Slot k has its body in sector 1 + 2k, and its gate behind that.
    - Layout 2 has 23 sectors. Bank 1 has its gate in 12, its head in 13, its balances in 14, slot k from 15 + 2k on.
    - Layout 3 has 55 sectors. Bank 1 has its gate in 28, its head in 29, its balances in 30 to 45, its marks in 46, and
      slot k from 47 + 2k on.
    """
    image = bytearray(SECTOR * (sectors or formats.sectors(layout, slots)))

    def put(at, held):
        image[SECTOR * at:SECTOR * at + len(held)] = held

    put(0, formats.superblock(layout, slots))
    base, live = (BASE, Bank(layout, slots, 1)) if layout > 1 else (0, Bank(layout, slots, 0))
    if layout > 1:
        other = Bank(layout, slots, 0)
        for bank, epoch, first in ((other, 0, 0), (live, 1, base)):
            put(bank.gate, OPEN)
            put(bank.head, formats.head(epoch, first))
    for slot, (station, places) in enumerate(records):
        put(live.body(slot), formats.body(station, base + slot, *places))
        put(live.body(slot) + 1, OPEN)
    return bytes(image)


def changed(image, changes):
    """The image with other bytes. A change has a sector, a byte of it, and what that becomes."""
    image = bytearray(image)
    for sector, byte, value in changes:
        image[SECTOR * sector + byte] = value
    return bytes(image)
