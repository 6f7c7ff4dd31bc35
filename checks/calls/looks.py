"""Looks at a station's postings in a ledger that goes on between their steps. A checkpoint amid a look puts records out of
sight that it didn't look at: whenever it comes, the station's first posting is never taken for its last."""
from console import require, require_same

# Of one slot; of one less than a step looks at, of as many, and of one more; and of three steps.
SLOTS = (1, 255, 256, 257, 768)

# More steps than a look takes here.
STEPS = 20

# Looks up to the last posting's reference, and up to any.
LIMITS = (71, 2**64 - 1)

# How many lines are said at once.
MOST = 400

LAST = "Deposit { to: 1, amount: 500, reference: 71 }"


def turns(station, entry):
    """The two turns of two stations in which one of them posts an entry."""
    return [f"turn 0 {entry}", "turn 1"] if station == 0 else ["turn 0", f"turn 1 {entry}"]


def fill(console, slots):
    """Two full banks. Station 0 has posted the first batch of the older one, with the reference 5, and its last batch, with
    71; all others are of station 1."""
    lines = [f"device {39 + 4 * slots}", f"format {slots}", "clerk 2 00 10"]
    own = {0: "deposit 1 1 5", slots - 1: "deposit 1 500 71"}
    for number in range(2 * slots):
        lines += turns(0, own[number]) if number in own else turns(1, "deposit 1 1 1")
    for first in range(0, len(lines), MOST):
        console.ask(lines[first:first + MOST])
    require_same(console.ask(["ledger", "close"])[0].split()[1], str(2 * slots), "batches")


def look(console, begun, limit, moments):
    """What a look tells on a twin of the device in hand, before each of whose steps of these moments station 1 posts a
    batch. The first one is behind a checkpoint."""
    asked = ["twin", "other", "clerk 2 00 10", f"look 0 {limit} {begun}"]
    for step in range(STEPS):
        asked += [*(turns(1, "deposit 1 1 1") if step in moments else []), "step"]
    told = console.ask([*asked, "close", "other"])
    seen = [line for line in told if line.startswith(("LookAnswer ", "refused "))]
    require(seen, f"a look from {begun} on has no end")
    return seen[0]


def look_at_each(console, slots, every):
    """Looks at banks of so many slots: a batch comes before one step, or before each."""
    fill(console, slots)
    known = f"LookAnswer {{ posting: Some(Posting {{ number: {slots - 1}, entry: {LAST} }}), since: 0 }}"
    unknown = f"LookAnswer {{ posting: None, since: {slots} }}"
    for limit in LIMITS:
        for moment in range(0, STEPS, every):
            allowed = {known: moment > 0, unknown: moment < STEPS - 1}
            told = look(console, 0, limit, {moment})
            require(allowed.get(told), f"{slots} slots, a batch before step {moment}: {told}")
        told = look(console, 0, limit, range(STEPS))
        nothing, since = told.rstrip(" }").rsplit(" ", 1)
        require(nothing == "LookAnswer { posting: None, since:" and int(since) >= slots, f"{slots} slots, always a batch: {told}")
        require_same(look(console, slots, limit, ()), unknown, f"{slots} slots, a look from the live bank on")
    return len(LIMITS) * (len(range(0, STEPS, every)) + 2)


def amid_a_checkpoint(console, every):
    """The last posting is told, or that nothing is known before the live bank."""
    return sum(look_at_each(console, slots, every) for slots in SLOTS)
