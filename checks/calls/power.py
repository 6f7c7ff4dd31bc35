"""Power losses: what is left of the sectors that no sync has made durable."""
import itertools
import re

from console import require, require_same
from course import AMOUNTS, SLOTS, allowed, shown

# What may be left of a sector: zeros, an open gate and noise, noise, what was written; and what stood there before.
LEAVINGS = "zasn"
WITH_OLD = "zason"

NUMBERS = re.compile(r"Numbers \{ version: 3, slots: 2, live_bank: ([01]), epoch: Some\((\d+)\), base: (\d+), next: (\d+) \}")


def patterns(answer, leavings):
    """What a power loss leaves in each sector that this answer tells to be pending: each choice for the two lowest and the
    two highest, and in the others what was written."""
    require(answer.startswith("pending ["), answer)
    pending = len(re.findall(r"\d+", answer))
    at_stake = [place for place in range(pending) if place < 2 or pending <= place + 2]
    for letters in itertools.product(leavings, repeat=len(at_stake)):
        pattern = ["n"] * pending
        for place, letter in zip(at_stake, letters):
            pattern[place] = letter
        yield "".join(pattern)


def lose_power(console, before, answers, course, chosen):
    """Loses power in each of these ways behind lines that have these answers and end in this course, and looks at what is
    left: how many ways there are."""
    chosen = list(chosen)
    told = console.ask_each([*before, "fault none", f"crash {pattern}", "list"] for pattern in chosen)
    for pattern, found in zip(chosen, told, strict=True):
        require_same(found[: len(answers)], answers, f"the same lines again, before {pattern} is left")
        require_lawful(course, pattern, found[len(answers) :])
    return len(chosen)


def require_lawful(course, pattern, answers):
    """That a list is what the course may leave: its ledger, and in sight as many of its last batches as a bank has slots,
    or more. The numbers of the bank are those that checkpoints of two batches each make."""
    after = f"after {course} and {pattern or 'nothing'} left"
    numbers = NUMBERS.fullmatch(answers[0])
    require(numbers and len(answers) > 2, f"{after}: {answers}")
    live, epoch, base, next = map(int, numbers.groups())
    require(answers[1] in map(shown, allowed(course)), f"{after}: {answers[1]}")
    require_same(answers[1], shown(next), f"{after}, before batch {next}")
    require(live == epoch % 2 and base == SLOTS * epoch and 0 <= next - base <= SLOTS, f"{after}: {answers[0]}")
    seen = (len(answers) - 3) // 2
    require(min(SLOTS, next) <= seen <= next, f"{after}: {seen} batches of {next} are in sight")
    wanted = [line for place in range(next - seen, next) for line in listed(place)]
    require_same(answers[2:], [*wanted, "left 0"], f"{after}: what is in sight")


def listed(place):
    """The record of a turn, as it is listed."""
    return f"record ({place}, {place % 2})", "[Deposit { to: 1, amount: %d, reference: 1 }]" % AMOUNTS[place]
