"""Listings of a ledger with two open banks, with each call of the device failed."""
from formats import OPEN, Bank, balances, body, calls, deposit, head, put, reads, sectors, superblock, SYNC

FIRST, SECOND = Bank(3, 2, 0), Bank(3, 2, 1)

NUMBERS = ["Numbers { version: 3, slots: 2, live_bank: 0, epoch: Some(5), base: 4, next: 5 }", "next 5 total 14 1=14"]
RECORDS = [["record (3, 0)", "[Deposit { to: 1, amount: 3, reference: 1 }]"],
           ["record (4, 0)", "[Deposit { to: 1, amount: 4, reference: 1 }]"]]


def bank(at, epoch, sequence, before):
    """An open bank with one record, which deposits its number in account 1; before it that account holds so much."""
    return [put(at.gate, OPEN), put(at.head, head(epoch, sequence)), put(at.balances, balances(before)),
            put(at.body(0), body(0, sequence, deposit(1, sequence, 1))), put(at.body(0) + 1, OPEN)]


def one_and_one():
    """Two slots in each bank: record 3 in the second one leads up to the first one, which is live and has record 4."""
    return [f"device {sectors(3, 2)}", put(0, superblock(3, 2)), *bank(SECOND, 4, 3, 7), *bank(FIRST, 5, 4, 10)]


def slots(at):
    """Reads of the gate and the body of a bank's record, and of the gate behind it."""
    return reads(at.body(0) + 1, at.body(0), at.body(1) + 1)


# What finding the ledger reads; what finding out that the other bank leads up to the live one does; and then, for each
# record, what listing it does.
LOOK = SYNC + reads(0, FIRST.gate, SECOND.gate, FIRST.head, SECOND.head, *FIRST.snapshot()) + slots(FIRST)
BACK = reads(SECOND.gate, SECOND.head, *SECOND.snapshot()) + slots(SECOND) + reads(*FIRST.snapshot(), *SECOND.snapshot())
LISTED = [reads(SECOND.body(0) + 1, SECOND.body(0)), reads(FIRST.body(0))]


def each_fault_is_told():
    """Whichever call fails, nothing is told of what it was to read. A record that wasn't read is listed when it is asked
    for again."""
    (first, second), fault = LISTED, "refused Device: the device failed"
    rounds = [(["refused Device: it can't be read"], LOOK[:at + 1]) for at in range(len(LOOK))]
    rounds += [([*NUMBERS, fault], [*LOOK, *BACK[:at + 1]]) for at in range(len(BACK))]
    rounds += [([*NUMBERS, fault, *RECORDS[0], "left 1"], [*LOOK, *BACK, *first[:at + 1], *first]) for at in range(len(first))]
    rounds.append(([*NUMBERS, *RECORDS[0], fault, "left 1"], [*LOOK, *BACK, *first, *second]))
    rounds.append(([*NUMBERS, *RECORDS[0], *RECORDS[1], "left 0"], [*LOOK, *BACK, *first, *second]))
    assert len(rounds) == 86
    asked, wanted = one_and_one(), []
    for number, (answer, made) in enumerate(rounds):
        asked += [f"fault once any {number}", "list", "calls"]
        wanted += [*answer, calls(*made)]
    return asked, wanted


TESTS = (each_fault_is_told,)
