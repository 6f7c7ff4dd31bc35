"""Searches of many records: what they tell, and what they read. One looks at 256 records at most."""
from formats import Bank, appending, calls, checkpoint, formatting, opening, reads, sectors

SLOTS = 258
STEP = 256
END = 2**64 - 1

BY = ("Bottom", "Top")

FIRST, SECOND = Bank(3, SLOTS, 0), Bank(3, SLOTS, 1)


def posted(turns):
    """A ledger on which the bottom station took the turns with an even number and the top one the others, each with a
    deposit whose reference is the number; what that prints, and which calls of the device it made."""
    asked = [f"device {sectors(3, SLOTS)}", f"format {SLOTS}", "clerk 2 00 10"]
    asked += [f"turn {number % 2} deposit 1 1 {number}" for number in range(turns)]
    wanted = ["next 0 total 0"]
    wanted += [f"turn {number} station {number % 2} {BY[number % 2]} posted {number} ok" for number in range(turns)]
    made = formatting(SLOTS) + opening(SLOTS)
    for number in range(turns):
        slot = number % SLOTS
        if number and slot == 0:
            made += checkpoint(SECOND, is_open=False)
        made += appending(FIRST if number < SLOTS else SECOND, slot)
    return [*asked, "close", "calls"], [*wanted, calls(*made)]


def found(asked, wanted, turns, searches, made):
    """The lines, and behind them a clerk that is opened on the ledger and makes these searches, which read that."""
    calls_asked = [line for line, _ in searches]
    told = [answer for _, answer in searches]
    return ([*asked, "clerk 2 00 10", *calls_asked, "close", "calls"],
            [*wanted, f"next {turns} total {turns} 1={turns}", *told, calls(*made)])


def posting(number, reference):
    """That a step picks this one."""
    entry = f"Deposit {{ to: 1, amount: 1, reference: {reference} }}"
    return f"posting: Some(Posting {{ number: {number}, entry: {entry} }})"


NONE = "posting: None"


def further(began, number, end):
    """That a search goes on."""
    return f"reached: Further {{ began: {began}, number: {number}, end: {end} }}"


def all_from(began, since):
    """That it is over."""
    return f"reached: All {{ began: {began}, since: {since} }}"


def step(picked, reached):
    """What a step tells."""
    return f"SearchStep {{ {picked}, {reached} }}"


def a_search_reads_the_records_of_its_step_alone():
    """Or up to the one that it finds, or to its end. It reads the body of each once and nothing else, once it has seen
    that the other bank's gate is closed."""
    steps = [(0, 256), (256, 257), (250, 256), (2, 258), (0, 6)]
    searches = [
        (f"find 256 0 {END}", step(NONE, further(0, 256, 258))),
        ("find 256 256 257", step(posting(256, 256), further(256, 257, 257))),
        ("find 256 250 256", step(NONE, all_from(250, 0))),
        ("find 300 2 258", step(NONE, all_from(2, 0))),
        (f"find 5 0 {END}", step(posting(5, 5), further(0, 6, 258))),
    ]
    read = [FIRST.body(slot) for first, end in steps for slot in range(first, end)]
    made = opening(SLOTS, SLOTS) + reads(SECOND.gate, *read)
    return found(*posted(SLOTS), SLOTS, searches, made)


def rows(bank, first, end):
    """The gates and the bodies of a bank's slots."""
    return [at for slot in range(first, end) for at in (bank.body(slot) + 1, bank.body(slot))]


def a_latest_posting_is_looked_for_in_steps():
    """How far back records are in sight is found out 256 slots at a time. The latest posting of a station is looked for
    in the same steps, and each record is read once in each."""
    goes_on, is_over = further(0, 256, SLOTS + 1), all_from(256, 0)
    searches = [
        (f"latest 0 {END} 0", step(NONE, "reached: LookingBack")),
        (f"latest 0 {END} 0", step(posting(254, 254), goes_on)),
        (f"latest 0 {END} 256", step(posting(258, 258), is_over)),
        ("latest 1 100 0", step(posting(99, 99), goes_on)),
        ("latest 1 100 256", step(NONE, is_over)),
    ]
    back = [FIRST.gate, FIRST.head, *FIRST.snapshot(), *rows(FIRST, 0, SLOTS), *SECOND.snapshot()]
    looked = [*rows(FIRST, 0, STEP), *rows(FIRST, STEP, SLOTS), SECOND.body(0)]
    begun = ["Sync"] + reads(0, FIRST.gate, SECOND.gate, FIRST.head, SECOND.head, *SECOND.snapshot(), *rows(SECOND, 0, 1),
                             *(SECOND.body(slot) + 1 for slot in range(1, SLOTS)))
    return found(*posted(SLOTS + 1), SLOTS + 1, searches, begun + reads(*back, *looked, *looked))


def a_step_begins_with_the_first_record_in_sight():
    """Records have numbers from 1,000 on, and what was posted before them isn't in sight."""
    asked = [f"device {sectors(3, SLOTS)}", f"format_with {SLOTS} 1000", "clerk 2 00 10"]
    asked += [f"turn {number % 2} deposit 1 1 {number + 1}" for number in range(SLOTS)]
    wanted = ["next 1000 total 0"]
    wanted += [f"turn {number} station {number % 2} {BY[number % 2]} posted {1000 + number} ok" for number in range(SLOTS)]
    first, last = posting(1254, 255), posting(1256, 257)
    searches = [
        (f"find 258 0 {END}", step(NONE, further(1000, 1256, 1258))),
        ("find 258 1256 1258", step(posting(1257, 258), further(1256, 1258, 1258))),
        (f"find 900 1256 {END}", step(NONE, all_from(1256, 1000))),
        ("find 1 0 1000", step(NONE, all_from(1000, 1000))),
        ("find 1 7 1001", step(posting(1000, 1), further(1000, 1001, 1001))),
        (f"latest 0 {END} 0", step(first, further(1000, 1256, 1258))),
        (f"latest 0 {END} 999", step(first, further(1000, 1256, 1258))),
        (f"latest 0 {END} 1256", step(last, all_from(1256, 1000))),
        (f"latest 0 {END} 1003", step(last, all_from(1003, 1000))),
    ]
    return [*asked, *(line for line, _ in searches)], [*wanted, *(answer for _, answer in searches)]


TESTS = (
    a_search_reads_the_records_of_its_step_alone,
    a_latest_posting_is_looked_for_in_steps,
    a_step_begins_with_the_first_record_in_sight,
)
