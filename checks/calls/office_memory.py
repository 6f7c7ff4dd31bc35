"""An office of which each request for memory is refused in turn: its opening, and turns through its seats."""
from console import require, require_same

# How many turns are taken.
TURNS = 6

BY = ("Bottom", "Top")

# More requests than an office makes.
MOST = 500

# A turn out of turn, with more entries than a batch has. Then each turn is asked for twice: where the first was refused
# for want of memory, the second one takes it, and else isn't privileged any more, or the limit is reached.
ASKED = ("turn 1" + 16 * " deposit 1 5 0",
         *(f"within {number % 2} {TURNS} deposit 1 5 0" for number in range(TURNS) for _ in range(2)))

DENIED, LATE = "refused Turn(NotPrivileged)", "refused Reached"

# What want of memory, and a device fault where the device's record of its calls can't grow, are told as.
UNOPENED = ("refused Opening(Memory)", "refused Opening(Device)")
WANT = ("refused Memory", "refused Turn(Memory)")
FAULT = "refused Turn(Device)"


def taken(number):
    """What the turn of a number answers."""
    return f"turn {number} station {number % 2} {BY[number % 2]} posted {number} ok"


def whole():
    """The answers where no request is refused, each without its text."""
    twice = [(taken(number), DENIED if number < TURNS - 1 else LATE) for number in range(TURNS)]
    return ["refused NotPrivileged", *(answer for both in twice for answer in both)]


def names(answers):
    """The answers, refusals without their texts."""
    return [line.partition(":")[0] if line.startswith("refused ") else line for line in answers]


def require_all(console, told, of):
    """Want of memory was told once, and the same call again took the turn, so that all are taken."""
    at = next((place for place, (found, wanted) in enumerate(zip(told, whole())) if found != wanted), None)
    require(at is not None, f"{of}: nobody told of it")
    require(told[at] in WANT and at % 2 == (at > 0), f"{of}: {told}")
    rest = whole()
    if at:
        rest[at], rest[at + 1] = told[at], rest[at]
    else:
        rest[0] = told[0]
    require_same(told, rest, of)
    require_same(console.ask(["faulted", "ledger"]), ["false", f"next {TURNS} total 30 1=30"], f"{of}: what stands")


def require_fault(console, told, of):
    """Behind a device fault no turn is taken. What was told stands, and the turn that met it whole or not at all."""
    turns = [line for line in told if line.startswith("turn ")]
    require_same(turns, [taken(number) for number in range(len(turns))], f"{of}: the turns")
    require_same(console.ask(["faulted", "history"]), ["true", *turns], f"{of}: the history")
    next_number = int(console.ask(["close", "recover"])[0].split()[1])
    require(next_number - len(turns) in (0, 1), f"{of}: {next_number} batches behind {len(turns)} turns")


def refuse(console, number):
    """Refuses the request of that number. Whether there is such a one."""
    console.ask(["nothing", "other", "nothing", "device 55", "format 4", "calls", "office 2 00 10", *ASKED])
    answers, is_refused = console.refuse(number, "close")
    told, of = names(answers), f"an office, request {number}"
    if not is_refused:
        require_same(told, [*whole(), "11/10 privileges 1", "first legitimate Some(0)"], of)
        return False
    if told == [UNOPENED[0]]:
        require_same(console.ask(["calls", "recover"]), ["calls []", "next 0 total 0"], f"{of}: what an opening leaves")
    elif told == [UNOPENED[1]]:
        require_same(console.ask(["recover"]), ["next 0 total 0"], f"{of}: what an opening leaves")
    elif FAULT in told:
        require_fault(console, told, of)
    else:
        require_all(console, told[:len(whole())], of)
    return True


def refuse_each(console):
    """How many requests were refused in turn."""
    return next(number for number in range(MOST) if not refuse(console, number + 1))
