"""A course of five turns on banks of two slots, of which the third and the fifth make a checkpoint first."""
import typing

from console import require, require_same

SLOTS, SECTORS = 2, 47

# What the turns deposit, and what they come to after 0 to 5 of them: no two lists of batches come to the same balance.
AMOUNTS = (1, 2, 4, 8, 16)
BALANCES = (0, 1, 3, 7, 15, 31)

# The line of the two stations after 0 to 3 moves, each by the station whose turn it is; then these come again.
LINES = ("00/10", "10/10", "11/10", "01/10")

# The calls of a course, by FORMATS: reads, writes and syncs, in order. Opening syncs once, and reads the superblock, both
# banks' gates, the head, two slots' gates and the snapshot's 17 sectors. A turn writes and syncs a body, and then a gate.
# A checkpoint reads the other bank's gate, writes its head, its snapshot and two slots' gates, syncs, and writes and syncs
# its gate. The second checkpoint finds that gate open, and first writes it closed and syncs.
SNAPSHOT = 17
OPENING, TURN, PREPARED = "s" + "r" * (6 + SNAPSHOT), "wsws", "w" * (1 + SNAPSHOT + 2) + "s" + "ws"
ORDER = OPENING + TURN + TURN + "r" + PREPARED + TURN + TURN + "r" + "ws" + PREPARED + TURN
CALLS = {"any": len(ORDER), "read": ORDER.count("r"), "write": ORDER.count("w"), "sync": ORDER.count("s")}

NEW = (f"device {SECTORS}", f"format {SLOTS}")


class Course(typing.NamedTuple):
    """After how many turns a course ended, from the first course on, and where it met a fault: in its opening, in a turn,
    or nowhere, which is empty."""

    acknowledged: int
    met: str


def opening(first):
    """Opens a clerk of two stations of which the one is privileged that takes this turn."""
    return f"clerk 2 {first % 2}0 10"


def turns(first):
    """The turns from this one on."""
    return [f"turn {place % 2} deposit 1 {AMOUNTS[place]} 1" for place in range(first, 5)]


def lines(first):
    """A course from this turn on. The device is in hand at its end, if it was opened."""
    return [opening(first), *turns(first), "close"]


def shown(count):
    """A ledger with so many batches, as it is printed."""
    return f"next {count} total {BALANCES[count]}" + (f" 1={BALANCES[count]}" if count else "")


def is_fault(answer):
    return answer.startswith("refused Device:")


def is_faulted(answer):
    return answer.startswith("refused Faulted:")


def taken_turn(first, place):
    """The turn of that place, as a clerk prints it that took the turns from the first on."""
    return f"turn {place - first} station {place % 2} {('Bottom', 'Top')[place % 2]} posted {place} ok"


def course_of(answers, first):
    """The course that opened and took its turns with these answers, which have to be right up to its fault."""
    if is_fault(answers[0]):
        return Course(first, "opening")
    require_same(answers[0], shown(first), "the opening")
    for place in range(first, 5):
        answer = answers[1 + place - first]
        if is_fault(answer):
            behind = answers[2 + place - first : 6 - first]
            require(len(behind) == 4 - place and all(map(is_faulted, behind)), f"behind the fault: {behind}")
            return Course(place, "turn")
        require_same(answer, taken_turn(first, place), "a turn")
    return Course(5, "")


def allowed(course):
    """How many batches may be found after it: what was acknowledged, or that and the batch in flight."""
    return (course.acknowledged, course.acknowledged + 1) if course.met == "turn" else (course.acknowledged,)


def count_of(course, answer):
    """How many batches this ledger has, one of those that may be found after the course."""
    for count in allowed(course):
        if answer == shown(count):
            return count
    require(False, f"{answer!r} is found after {course}")


def in_flight(station, amount):
    """What is told of one deposit of so much in flight, by this station."""
    return f"in flight ({station}, [Deposit {{ to: 1, amount: {amount}, reference: 1 }}])"


def require_stands_still(console, first, place):
    """The device failed in the turn of that place, of those from the first on: all is as the turns before left it, but the
    deposit is in flight and the clerk is faulted. It refuses each turn: of a station that there isn't, and of that
    one, without an entry and with too many."""
    station, taken = place % 2, place - first
    turns = ["turn 9", f"turn {station}", f"turn {station}" + " deposit 1 1 1" * 16]
    told = console.ask(["in_flight", *turns, "ledger", "line", "faulted", "history"])
    require_same(told[0], in_flight(station, AMOUNTS[place]), f"in flight behind turn {place}")
    require(all(map(is_faulted, told[1:4])), f"turns behind a fault in turn {place}: {told[1:4]}")
    line = f"{LINES[(first % 2 + taken) % 4]} privileges 1"
    history = [taken_turn(first, at) for at in range(first, place)]
    require_same(told[4:], [shown(place), line, "true", *history], f"behind a fault in turn {place}")
