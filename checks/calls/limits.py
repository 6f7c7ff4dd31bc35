"""Calls beyond any number at which a body might have given up."""
from formats import OPEN, Bank, balances, body, calls, deposit, formatting, head, opening, put, sectors, superblock, writes
from schedules import bits, moved, privileges

TURNS = 300

# How many slots a large device has in each bank, and how many of them an older one.
SLOTS = 2000
OLDER = 1000

# How many records stand in each of two banks.
LISTED = 300

# How many records a ledger has that is made at one go.
FILLED = 900

# How many records are archived, in two parts.
ARCHIVED = 3_000

# How many requests the largest ring holds.
RING = 4_096

# How many moves a long sweep has.
MOVES = 1000

BY = ("Bottom", "Top")


def a_clerk_takes_300_turns_and_a_run_of_300_events():
    """The first turn deposits nothing, and is refused. 299 deposit their number, and the events deposit 1 each."""
    asked = ["device 2439", "format 600", "clerk 2 00 10"]
    asked += [f"turn {number % 2} deposit 1 {number} 1" for number in range(TURNS)]
    asked += ["ledger", *(f"event {number % 2} deposit 1 1 1" for number in range(TURNS)), "run"]
    told = ["turn 0 station 0 Bottom empty ZeroAmount"]
    told += [f"turn {number} station {number % 2} {BY[number % 2]} posted {number - 1} ok" for number in range(1, 2 * TURNS)]
    moves = ", ".join(f"Move {{ station: {number % 2}, rule: {BY[number % 2]} }}" for number in range(2 * TURNS))
    found = "next 599 total 45150 1=45150"
    return ([*asked, "ledger", "history", "moves", "line", "close", "crash z", "recover"],
            ["next 0 total 0", *told[:TURNS], "next 299 total 44850 1=44850", *told[TURNS:], found, *told, f"[{moves}]",
             "00/10 privileges 1", found])


def many_slots_are_formatted():
    """On a device with more sectors than they need. A head, a snapshot, the gates of the slots and of both banks, and the
    superblock are written, and then it is synced once. Each gate of a slot was open before."""
    gates = Bank(3, SLOTS, 0).slot_gates()
    asked = [f"device {sectors(3, SLOTS) + 1000}", *(put(gate, OPEN) for gate in gates), f"format {SLOTS}", "calls",
             "pending", "recover", "calls", "journal", "close"]
    return asked, [calls(*formatting(SLOTS)), "pending []", "next 0 total 0", calls(*opening(SLOTS)),
                   f"base, next, room (0, 0, {SLOTS})", f"bank, epoch, slots (0, 0, {SLOTS})", "faulted false"]


def the_last_of_many_slots_is_looked_at():
    """An open one behind a closed one is told, and a record in each of them is posted."""
    bank = Bank(3, SLOTS, 0)
    asked = [f"device {sectors(3, SLOTS)}", put(0, superblock(3, SLOTS)), put(1, OPEN), put(2, head(0, 0)),
             put(bank.body(SLOTS - 1) + 1, OPEN), "recover"]
    for slot in range(SLOTS):
        asked += [put(bank.body(slot), body(0, slot, deposit(1, 1))), put(bank.body(slot) + 1, OPEN)]
    asked += ["recover", "clerk 2 00 10", "turn 0 deposit 1 1 1", "line"]
    tail = f"Damaged {{ slot: {SLOTS - 1}, cause: Tail }}: damage at {SLOTS - 1}: a slot is open behind a closed one"
    found = f"next {SLOTS} total {SLOTS} 1={SLOTS}"
    return asked, [f"refused {tail}", found, found, f"turn 0 station 0 Bottom posted {SLOTS} ok", "10/10 privileges 1"]


def a_thousand_full_slots_come_over():
    """From the second bank of a full device of layout 2 to as many slots. The other bank is open too, with epoch 0."""
    bank, other = Bank(2, OLDER, 1), Bank(2, OLDER, 0)
    asked = [f"device {sectors(3, OLDER)}", "other", f"device {sectors(2, OLDER)}", put(0, superblock(2, OLDER)),
             put(bank.gate, OPEN), put(bank.head, head(1, 7)), put(bank.balances, balances(9)),
             put(other.gate, OPEN), put(other.head, head(0, 0))]
    for slot in range(OLDER):
        asked += [put(bank.body(slot), body(0, 7 + slot, deposit(1, 5))), put(bank.body(slot) + 1, OPEN)]
    asked += [f"migrate {OLDER}", "other", "recover", "journal"]
    return asked, ["next 1007 total 5009 1=5009", f"base, next, room (1007, 1007, {OLDER})",
                   f"bank, epoch, slots (0, 0, {OLDER})", "faulted false"]


def many_records_are_listed():
    """Those of the bank before come first. Each is of one station, and deposits 1."""
    first, second = Bank(3, LISTED, 0), Bank(3, LISTED, 1)
    asked = [f"device {sectors(3, LISTED)}", put(0, superblock(3, LISTED)), put(first.gate, OPEN), put(first.head, head(0, 0)),
             put(second.gate, OPEN), put(second.head, head(1, LISTED)), put(second.balances, balances(LISTED))]
    wanted = [f"Numbers {{ version: 3, slots: {LISTED}, live_bank: 1, epoch: Some(1), base: {LISTED}, next: {2 * LISTED} }}",
              f"next {2 * LISTED} total {2 * LISTED} 1={2 * LISTED}"]
    for number in range(2 * LISTED):
        at, slot = (first, second)[number // LISTED], number % LISTED
        asked += [put(at.body(slot), body(number % 64, number, deposit(1, 1, number))), put(at.body(slot) + 1, OPEN)]
        wanted += [f"record ({number}, {number % 64})", f"[Deposit {{ to: 1, amount: 1, reference: {number} }}]"]
    return [*asked, "list"], [*wanted, "left 0"]


def filled(records, base):
    """Lines that make a device in hand a ledger of so many records, which deposit 1 each."""
    return [f"fill {records} {base}", *[f"put 0 1 {deposit(1, 1).hex()}"] * records, "finish"]


def a_journal_of_many_records_is_made_with_one_sync():
    """Each account held 9 before. The records are written behind a formatting, each with its gate."""
    bank = Bank(3, FILLED, 0)
    asked = [*(f"account {account} 9 0" for account in range(1, 1025)), *filled(FILLED, 70)]
    asked += ["calls", "journal", "close", "recover"]
    written = writes(*(at for slot in range(FILLED) for at in (bank.body(slot), bank.body(slot) + 1)))
    held = " ".join(f"{account}=9" for account in range(2, 1025))
    return [f"device {sectors(3, FILLED)}", *asked], [
        calls(*formatting(FILLED)[:-1], *written, "Sync"), f"base, next, room (70, {70 + FILLED}, 0)",
        f"bank, epoch, slots (0, 0, {FILLED})", "faulted false",
        f"next {70 + FILLED} total {9 * 1024 + FILLED} 1={9 + FILLED} {held}"]


def an_archive_of_many_records_goes_on_where_it_ended():
    """The first file takes two thirds of the records, and the next one the rest."""
    end, first = 7 + ARCHIVED, ARCHIVED // 3 * 2
    rest = ARCHIVED - first
    asked = [f"device {sectors(3, first)}", "other", f"device {sectors(3, ARCHIVED)}", *filled(ARCHIVED, 7),
             "listing", f"add {first}", "close", "other", "recover", "other",
             "listing", "follow", "numbers", "ledger", f"add {rest}", "close", "other", "recover", "journal"]
    return asked, [
        f"at, end, left (7, {end}, {ARCHIVED})", f"next {7 + first} total {first} 1={first}",
        f"at, end, left (7, {end}, {ARCHIVED})", f"at, end, left ({7 + first}, {end}, {rest})",
        f"next {7 + first} total {first} 1={first}", f"next {end} total {ARCHIVED} 1={ARCHIVED}",
        f"base, next, room ({7 + first}, {end}, 0)", f"bank, epoch, slots (0, 0, {rest})", "faulted false"]


def sixty_four_stations_sweep_a_thousand_moves():
    """Each move is the only privilege there."""
    start = line = (False,) * 64, (True,) + (False,) * 63
    moves = []
    for _ in range(MOVES):
        (move,) = privileges(line)
        moves.append(f"{move[0]} {move[1]}")
        line = moved(line, *move)
    asked = [f"line 64 {bits(start, ' ')}", " ".join(["audit", *moves]), " ".join(["audit", *moves, moves[-1]])]
    late = f"refused NotEnabled {{ index: {MOVES} }}: the station of move {MOVES} may not move by its rule there"
    return asked, [f"{bits(line, '/')} privileges 1", "first legitimate Some(0)", late]


def the_largest_rings_are_answered_fifteen_at_a_time():
    """273 times 15 are all but one of 4,096. One more finds no place."""
    held = [f"Deposit {{ to: 1, amount: 1, reference: {ticket} }}" for ticket in range(RING + 1)]
    asked = [f"desk {RING}", *(f"submit deposit 1 1 {ticket}" for ticket in range(RING + 1)),
             *["gather", "give_up"] * 274, "gather", *["answer"] * RING, "answer"]
    told = [f"Ok({ticket})" for ticket in range(RING)] + [f"Err({held[RING]})"]
    told += [f"[{', '.join(held[first:min(first + 15, RING)])}]" for first in range(0, RING, 15)] + ["[]"]
    told += [f"Some(Answer {{ ticket: {ticket}, entry: {held[ticket]}, outcome: Undecided }})" for ticket in range(RING)]
    return asked, [*told, "None"]


def ended(stations, moves, bottom):
    """A day on which nobody asks for anything, and what it prints: each station ends since all turns are taken. So many
    of the turns are the bottom station's, which are counted in the history."""
    line = (False,) * stations, (True,) + (False,) * (stations - 1)
    asked = ["device 55", "format 4", *["hold"] * stations, f"day {stations} {bits(line, ' ')} {moves}", "history"]
    history = []
    for index in range(moves):
        ((station, rule),) = privileges(line)
        history.append(f"turn {index} station {station} {rule} empty")
        line = moved(line, station, rule)
    told = [*["end Reached", "[]", "[]"] * stations, f"{bits(line, '/')} privileges 1", "first legitimate Some(0)"]
    assert sum(" station 0 " in turn for turn in history) == bottom
    return asked, [*told, *history]


def sixty_four_stations_have_a_day():
    """The bottom one has turns 0 and 126: from it to the top one there are 63 turns, and as many back."""
    return ended(64, 200, 2)


def two_stations_have_a_day_of_two_thousand_turns():
    """Each one takes a thousand."""
    return ended(2, 2_000, 1_000)


TESTS = (
    a_clerk_takes_300_turns_and_a_run_of_300_events,
    many_slots_are_formatted,
    the_last_of_many_slots_is_looked_at,
    a_thousand_full_slots_come_over,
    many_records_are_listed,
    a_journal_of_many_records_is_made_with_one_sync,
    an_archive_of_many_records_goes_on_where_it_ended,
    sixty_four_stations_sweep_a_thousand_moves,
    sixty_four_stations_have_a_day,
    two_stations_have_a_day_of_two_thousand_turns,
    the_largest_rings_are_answered_fifteen_at_a_time,
)
