"""Days of station threads on devices that fail, and what clients were told. Whatever thread runs when, a day makes the same
calls up to its fault, since one station alone is privileged."""
import re

from console import require, require_same
from course import SNAPSHOT
from power import LEAVINGS, patterns

# On banks of one slot, with one deposit in each of two stations' hands.
SECTORS = 43
NEW = (f"device {SECTORS}", "format 1", "hold deposit 1 1 0", "hold deposit 1 2 0")
DAY = "day 2 00 10 4"

# The calls of such a day. Opening syncs once, and reads the superblock, both banks' gates, the head, one slot's gate and
# the snapshot. Each of two turns that post writes and syncs a body and a gate; before the second one a checkpoint reads
# the other bank's gate, writes its head, its snapshot and one slot's gate, syncs, and writes and syncs its gate.
CALLS = (5 + SNAPSHOT + 1) + (2 * 2 + 3 + SNAPSHOT) + (1 + 2 * 2 + 2)

# Of each pending sector four things may be left, of more than four of the two lowest and the two highest: 256 outcomes at
# calls 32 to 47, in the checkpoint, 119 before them and 15 behind. A day makes no call behind a fault, so a stop has as
# many as a fault.
OUTCOMES = 119 + 16 * 256 + 15

ANSWER = re.compile(r"amount: (\d+), reference: 0 \}, outcome: (Posted\((\d+)\)|Undecided)")


class Told:
    """What clients were told: the sums of the deposits that are posted, and that nobody knows of, and how many batches stand
    at least."""

    ENDS = ("Reached", "Stopped", "Refused(Faulted)", "Refused(Device)")

    def __init__(self, answers):
        self.posted = self.undecided = self.batches = 0
        if answers[0].startswith("refused Opening(Device): "):
            return
        for station in (0, 1):
            self.hear(*answers[3 * station:3 * station + 3])

    def hear(self, end, given, unanswered):
        """How a station ended, its answers, and its requests without one: one of both, and if the device failed in its turn an
        answer."""
        require(end.removeprefix("end ") in self.ENDS, end)
        answers = ANSWER.findall(given)
        require_same(len(answers) + unanswered.count("Ask {"), 1, f"answers and requests: {given} {unanswered}")
        require(not (end == "end Refused(Device)" and not answers), f"no answer of a station whose device failed: {unanswered}")
        for amount, outcome, number in answers:
            if outcome == "Undecided":
                self.undecided += int(amount)
            else:
                self.posted += int(amount)
                self.batches = max(self.batches, int(number) + 1)

    def allows(self, found):
        """All that is posted is there, and what nobody knows of whole or not at all."""
        next, total = map(int, re.match(r"next (\d+) total (\d+)", found).groups())
        return total in (self.posted, self.posted + self.undecided) and self.batches <= next


def lose_power(console, kind, at):
    """A day that fails at this call, and then each power loss: how many there are. The day is had once, and what each power loss
    leaves of its sectors is written as an image, since threads take long where other programs run."""
    answers = console.ask([*NEW, f"fault {kind} any {at}", DAY, "close", "pending"])
    told, pending = Told(answers), [int(number) for number in re.findall(r"\d+", answers[-1])]
    held = console.ask([f"sector {sector}" for sector in range(SECTORS)])
    chosen = list(patterns(answers[-1], LEAVINGS))
    image = [f"device {SECTORS}", *(put(sector, held[sector]) for sector in range(SECTORS) if held[sector])]
    require_same(console.ask(image), [], "an image")
    for pattern, found in zip(chosen, console.ask_each(left(pattern, pending, held) for pattern in chosen)):
        require(told.allows(found[0]), f"{kind} {at}, {pattern} is left: {found[0]} behind {answers}")
    return len(chosen)


def put(sector, digits):
    return f"put {sector} 0 {digits.ljust(1024, '0')}"


def left(pattern, pending, held):
    """What a power loss leaves of the sectors that are pending, and what is found then."""
    leavings = {"z": "", "a": "a5" + 511 * "77", "s": 512 * "77"}
    return [*(put(sector, leavings.get(letter, held[sector])) for sector, letter in zip(pending, pattern)), "recover"]


def behind_each(console, kind, every):
    outcomes = sum(lose_power(console, kind, at) for at in range(0, CALLS, every))
    if every == 1:
        require_same(outcomes, OUTCOMES, "outcomes")
    answers = console.ask([*NEW, f"fault {kind} any {CALLS}", DAY, "close", "pending"])
    told = Told(answers)
    require_same((told.posted, told.undecided, told.batches, answers[-1]), (3, 0, 2, "pending []"), "a day without a fault")
    return outcomes


def that_stop_at_each_call(console, every):
    """What clients were told outlives a stop at each call."""
    return behind_each(console, "stop", every)


def that_fail_at_each_call(console, every):
    """The same behind one fault."""
    return behind_each(console, "once", every)
