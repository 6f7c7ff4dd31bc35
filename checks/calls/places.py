"""Where the damage is for which a ledger is refused: a sector, a byte of it, and the bank and the slot that it is of."""
from formats import OPEN, Bank, body, deposit, head, put, sectors, superblock
from writing import transfer

SLOTS = 4

FIRST, SECOND = Bank(3, SLOTS, 0), Bank(3, SLOTS, 1)

TEXTS = {
    "Unformatted": "it holds no ledger",
    "Size": "its number of slots is out of range, or it is too short for them",
    "Bank": "a bank isn't sound, or none is live",
    "Header": "the body of an open slot is no record",
    "Sequence": "the record of a slot has another sequence number",
    "Tail": "a slot is open behind a closed one",
    "Entry(0)": "place 0 of a record is no entry",
    "Entry(1)": "place 1 of a record is no entry",
    "Verdict(0)": "the entry at place 0 of a record breaks a rule of the ledger",
    "Verdict(1)": "the entry at place 1 of a record breaks a rule of the ledger",
}


def sound():
    """The second bank is live. Slot 0 has a deposit of 5 to account 1, slot 1 that and a transfer of 4 to account 2."""
    records = (body(3, 7, deposit(1, 5)), body(3, 8, deposit(1, 5), transfer(1, 2, 4)))
    lines = [f"device {sectors(3, SLOTS)}", put(0, superblock(3, SLOTS)), put(FIRST.gate, OPEN), put(FIRST.head, head(0, 0)),
             put(SECOND.gate, OPEN), put(SECOND.head, head(1, 7))]
    for slot, record in enumerate(records):
        lines += [put(SECOND.body(slot), record), put(SECOND.body(slot) + 1, OPEN)]
    return lines


def place(bank, slot, sector, byte):
    """The answer for a place."""
    told = (f"Some({number})" if number is not None else "None" for number in (bank, slot))
    return "Some(Place {{ bank: {}, slot: {}, sector: {}, byte: {} }})".format(*told, sector, byte)


def rows(table):
    """What is typed for changes of the sound ledger, and what has to be printed: why it is refused, and where that is."""
    asked, wanted = [], []
    for changes, refusal, text, where in table:
        asked += [*sound(), *(put(at, bytes.fromhex(held), offset) for at, offset, held in changes), "recover", "locate"]
        wanted += [f"refused {refusal}: {text}", place(*where)]
    return asked, wanted


def damaged(number, cause):
    """The refusal for a cause at a slot or a bank, and its text."""
    return f"Damaged {{ slot: {number}, cause: {cause} }}", f"damage at {number}: {TEXTS[cause]}"


def a_sound_ledger_has_no_damage():
    """Nor is there a place if the device can't be read, or if it is looked for in vain."""
    return [*sound(), "locate", "fault once any 0", "locate", "device 0", "locate"], ["sound", "None", "None"]


def damage_of_a_superblock_is_found():
    """The magic and zeros have bytes 0 to 3, 6 and 7, the version 4 and 5, the slots 8 to 15; zeros stand behind them."""
    def unformatted(byte):
        return "Unformatted", TEXTS["Unformatted"], (None, None, 0, byte)

    size = "Size", TEXTS["Size"], (None, None, 0, 8)
    return rows([
        ([(0, 1, "00")], *unformatted(1)),
        ([(0, 3, "00"), (0, 2, "00")], *unformatted(2)),
        ([(0, 7, "01"), (0, 16, "01")], *unformatted(7)),
        ([(0, 511, "01")], *unformatted(511)),
        ([(0, 5, "09")], "Version(9)", "its ledger has version 9, which isn't known", (None, None, 0, 4)),
        ([(0, 15, "00")], *size),
        ([(0, 15, "05")], *size),
    ])


def damage_of_a_bank_is_found():
    """Of a head the first byte that none has; two equal epochs in the second head; a snapshot over the limit at its first
    byte; behind the marks the first that isn't zero; without an open bank the first gate."""
    limit = "0de0b6b3a7640000"
    return rows([
        ([(1, 0, "00"), (28, 0, "00")], *damaged(0, "Bank"), (0, None, 1, 0)),
        ([(2, 4, "01")], *damaged(0, "Bank"), (0, None, 2, 4)),
        ([(2, 24, "01"), (2, 7, "01")], *damaged(0, "Bank"), (0, None, 2, 7)),
        ([(29, 300, "01")], *damaged(1, "Bank"), (1, None, 29, 300)),
        ([(29, 15, "00")], *damaged(0, "Bank"), (0, None, 2, 8)),
        ([(30, 0, limit), (31, 0, limit)], *damaged(1, "Bank"), (1, None, 30, 0)),
        ([(46, 128, "01"), (46, 200, "01")], *damaged(1, "Bank"), (1, None, 46, 128)),
    ])


def damage_of_a_slot_is_found():
    """A count of one leaves the second place unused, which begins with its kind. A seal has zeros where the place has an
    account. A transfer of 200 is more than its account holds."""
    return rows([
        ([(49, 7, "01")], *damaged(1, "Header"), (1, 1, 49, 64)),
        ([(47, 0, "00")], *damaged(0, "Header"), (1, 0, 47, 0)),
        ([(47, 14, "01")], *damaged(0, "Sequence"), (1, 0, 47, 14)),
        ([(47, 15, "08"), (47, 8, "01")], *damaged(0, "Sequence"), (1, 0, 47, 8)),
        ([(54, 0, "a5")], *damaged(3, "Tail"), (1, 3, 54, 0)),
        ([(49, 32, "04")], *damaged(1, "Entry(0)"), (1, 1, 49, 43)),
        ([(49, 64, "09")], *damaged(1, "Entry(1)"), (1, 1, 49, 64)),
        ([(49, 87, "c8")], *damaged(1, "Verdict(1)"), (1, 1, 49, 64)),
        ([(47, 43, "00")], *damaged(0, "Verdict(0)"), (1, 0, 47, 32)),
    ])


TESTS = (
    a_sound_ledger_has_no_damage,
    damage_of_a_superblock_is_found,
    damage_of_a_bank_is_found,
    damage_of_a_slot_is_found,
)
