"""What calls of the library ask of a device, in order, with each of these calls failed: openings of sound and damaged
images, formatting, a checkpoint, and a turn that makes one. Most images break two rules, and the earlier one is told."""
from formats import (OPEN, SYNC, Bank, appending, balances, body, calls, checkpoint, deposit, formatting, head, put, reads,
                     sectors, superblock)

SLOTS = 4

# What follows `recover` or `migrate` if the device fails.
NOT_READ = {"recover": "refused Device: it can't be read",
            "migrate": "refused Source(Device): the old device wasn't read: it can't be read"}

CAUSES = {
    "Header": "the body of an open slot is no record",
    "Sequence": "the record of a slot has another sequence number",
    "Tail": "a slot is open behind a closed one",
    "Bank": "a bank isn't sound, or none is live",
    "Entry(0)": "place 0 of a record is no entry",
    "Verdict(0)": "the entry at place 0 of a record breaks a rule of the ledger",
}

# What a power loss may leave of each sector that is pending.
LETTERS = ("z", "a", "s", "o", "n")


def image(layout, live=1):
    """Three deposits of 5 in four slots. In layouts 2 and 3 they have numbers from 7 on and the live bank's epoch is 1;
    its account 1 held 5. The other bank is open, with epoch 0 and nothing."""
    bank = Bank(layout, SLOTS, live if layout > 1 else 0)
    base = 7 if layout > 1 else 0
    lines = [f"device {sectors(layout, SLOTS)}", put(0, superblock(layout, SLOTS))]
    if layout > 1:
        other = Bank(layout, SLOTS, 1 - live)
        lines += [put(bank.gate, OPEN), put(bank.head, head(1, base)), put(bank.balances, balances(5)),
                  put(other.gate, OPEN), put(other.head, head(0, 0))]
    for slot in range(3):
        lines += [put(bank.body(slot), body(0, base + slot, deposit(1, 5))), put(bank.body(slot) + 1, OPEN)]
    return lines


def damaged(slot, cause):
    """The name and the text of a damage."""
    return f"Damaged {{ slot: {slot}, cause: {cause} }}", f"damage at {slot}: {CAUSES[cause]}"


def refused(word, refusal):
    """What is printed of a refusal with this name and text."""
    name, text = refusal
    if word == "migrate":
        return [f"refused Source({name}): the old device wasn't read: {text}"]
    return [f"refused {name}: {text}"]


def opened(word, lines, before, rows):
    """Each row changes bytes of an image, and says what it is refused as and what is read until then, behind what is
    read of each image. Then whichever call fails is the last one, and told as the device's."""
    asked, wanted = [], []
    for changes, refusal, read in rows:
        asked += [*lines, *(f"put {at} {place} {byte:02x}" for at, place, byte in changes)]
        made = [*SYNC, *before, *reads(*read)]
        answer = refused(word, refusal) if refusal else ["next 10 total 20 1=20"] if word == "recover" else []
        for number in range(len(made) + 1):
            asked += [f"fault once any {number}", f"{word} 1" if word == "migrate" else word, "calls"]
            if number < len(made):
                wanted += [NOT_READ[word], calls(*made[:number + 1])]
            else:
                wanted += [*answer, calls(*made)]
    return asked, wanted


def older(layout, before, rows):
    """The same of an older layout, which is copied to another device."""
    asked, wanted = opened("migrate", image(layout), before, rows)
    return [f"device {sectors(3, 1)}", "other", *asked], wanted


def behind(bank, rows):
    """Rows that name the sectors of the first bank, for one that begins behind it."""
    shift = bank.gate - 1
    for changes, refusal, read in rows:
        yield [(at + shift, place, byte) for at, place, byte in changes], refusal, [at + shift for at in read]


def a_superblock_and_heads_are_refused_first():
    """The superblock before all else. Of two banks both heads are wrong, or both have one epoch."""
    second = Bank(3, SLOTS, 1)
    rows = [
        ([(0, 5, 9), (0, 6, 1)], ("Version(9)", "its ledger has version 9, which isn't known"), [0]),
        ([(0, 15, 5), (1, 0, 0)], ("Size", "its number of slots is out of range, or it is too short for them"), [0]),
        ([(2, 3, 0), (second.head, 3, 0)], damaged(0, "Bank"), [0, 1, second.gate, 2]),
        ([(second.head, 15, 1)], damaged(0, "Bank"), [0, 1, second.gate, 2, second.head]),
    ]
    return opened("recover", image(3, live=0), [], rows)


def a_row_of_layout_1_is_refused_in_order():
    """Slot k has its body in sector 1 + 2k. Each record is read as the row is opened, and once more as it is posted."""
    rows = [
        ([(3, 5, 64), (5, 15, 8)], damaged(1, "Header"), [0, 2, 1, 4, 3]),
        ([(4, 0, 0), (5, 0, 0), (1, 32, 9)], damaged(2, "Tail"), [0, 2, 1, 4, 6]),
        ([(1, 43, 65), (3, 32, 9)], damaged(0, "Verdict(0)"), [0, 2, 1, 4, 3, 6, 5, 8, 1]),
        ([], None, [0, 2, 1, 4, 3, 6, 5, 8, 1, 3, 5]),
    ]
    return older(1, [], rows)


def a_bank_of_layout_2_is_refused_in_order():
    """Sectors of the first bank are named: its balances are sector 3, and slot k has its body in sector 4 + 2k. The
    balances are read once all records are, and then each record once more."""
    second = Bank(2, SLOTS, 1)
    rows = [
        ([(6, 5, 64), (8, 15, 8)], damaged(1, "Header"), [5, 4, 7, 6]),
        ([(3, 0, 13), (3, 504, 13), (4, 32, 9)], damaged(1, "Bank"), [5, 4, 7, 6, 9, 8, 11, 3]),
        ([(6, 32, 9), (8, 43, 65)], damaged(1, "Entry(0)"), [5, 4, 7, 6, 9, 8, 11, 3, 4, 6]),
        ([], None, [5, 4, 7, 6, 9, 8, 11, 3, 4, 6, 8]),
    ]
    return older(2, reads(0, 1, second.gate, 2, second.head), behind(second, rows))


def a_bank_of_layout_3_is_refused_in_order():
    """Sectors of the first bank are named. Its balances and marks are read first; slot k has its body in sector 20 + 2k.
    What is wrong with the snapshot or with an entry is told once all slots were read."""
    second = Bank(3, SLOTS, 1)
    slots = [21, 20, 23, 22, 25, 24, 27]
    rows = [
        ([(20, 15, 8), (22, 0, 0)], damaged(0, "Sequence"), [21, 20]),
        ([(19, 128, 1), (20, 32, 9)], damaged(1, "Bank"), slots),
        ([(19, 0, 1), (22, 32, 9)], damaged(0, "Verdict(0)"), slots),
        ([], None, slots),
    ]
    return opened("recover", image(3), reads(0, 1, second.gate, 2, second.head, *second.snapshot()), behind(second, rows))


def each_call_of_a_formatting_fails():
    """The superblock is written last. The call that fails is the last one."""
    asked, wanted = [], []
    made = formatting(2)
    for number in range(len(made) + 1):
        asked += ["device 60", f"fault once any {number}", "format 2", "calls"]
        wanted += ["refused Device: the device failed"] * (number < len(made)) + [calls(*made[:number + 1])]
    return asked, wanted


def images_that_are_cut_short_are_refused():
    """A ledger with one deposit in four slots, on 0 to 55 sectors."""
    held = {0: superblock(3, SLOTS), 1: OPEN, 2: head(0, 0), 20: body(0, 0, deposit(1, 500)), 21: OPEN}
    asked, wanted = [], []
    for count in range(56):
        asked += [f"device {count}", *(put(at, each) for at, each in held.items() if at < count), "recover"]
        if count == 0:
            wanted.append("refused Unformatted: it holds no ledger")
        elif count < 55:
            wanted.append("refused Size: its number of slots is out of range, or it is too short for them")
        else:
            wanted.append("next 1 total 500 1=500")
    return asked, wanted


DEPOSITS = {0: 5, 1: 6, 2: 7, 3: 9}


def turns(first, last):
    """Turns of two stations on banks of one slot, each with a deposit, of which a checkpoint comes before all but the
    first; and what they print."""
    rules = ("Bottom", "Top")
    asked = [f"turn {number % 2} deposit 1 {DEPOSITS[number]} 1" for number in range(first, last)]
    return asked, [f"turn {number} station {number % 2} {rules[number % 2]} posted {number} ok" for number in range(first, last)]


def held(batches):
    """What a recovery tells once so many batches are posted."""
    total = sum(DEPOSITS[number] for number in range(batches))
    return f"next {batches} total {total} 1={total}"


def each_call_of_a_turn_fails(last):
    """The call of that number fails in a turn that makes a checkpoint first, and then power is lost. The turn's batch
    stands only if its gate was written and is left open. Whichever bank is live then, it has all the others."""
    to = Bank(3, 1, last % 2)
    made = checkpoint(to, is_open=last > 1) + appending(to, 0)
    before, printed = turns(0, last)
    again, _ = turns(last, last + 1)
    asked, wanted = [], []
    for number in range(len(made)):
        for letter in LETTERS:
            asked += [f"device {sectors(3, 1)}", "format 1", "clerk 2 00 10", *before, f"fault once any {number}", *again, *again,
                      "close", "fault none", f"crash {letter}", "recover"]
            stands = number == len(made) - 1 and letter in "an"
            wanted += ["next 0 total 0", *printed, "refused Device: the device failed",
                       "refused Faulted: a device fault was met and the device must be opened again", held(last + stands)]
    return asked, wanted


def each_call_of_a_turn_with_a_first_checkpoint_fails():
    """The gate of the second bank was never written."""
    return each_call_of_a_turn_fails(1)


def each_call_of_a_turn_with_a_later_checkpoint_fails():
    """The gates of both banks were written, and the one that isn't live is closed first."""
    return each_call_of_a_turn_fails(3)


TESTS = (
    a_superblock_and_heads_are_refused_first,
    a_row_of_layout_1_is_refused_in_order,
    a_bank_of_layout_2_is_refused_in_order,
    a_bank_of_layout_3_is_refused_in_order,
    each_call_of_a_formatting_fails,
    images_that_are_cut_short_are_refused,
    each_call_of_a_turn_with_a_first_checkpoint_fails,
    each_call_of_a_turn_with_a_later_checkpoint_fails,
)
