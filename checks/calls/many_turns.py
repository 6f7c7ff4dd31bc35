"""Many turns in one office."""

BY = ("Bottom", "Top")
CALLERS, MANY = 50, 70_000


def turn(number):
    """A turn without entries of two stations that take turns."""
    return f"turn {number} station {number % 2} {BY[number % 2]} empty"


def two_callers_take_turns():
    """Two seats, each in a thread of its own, ask until each has fifty turns: they come one after the other."""
    asked = ["device 55", "format 4", f"callers 2 00 10 {CALLERS}", "history", "faulted"]
    return asked, ["00/10 privileges 1", "first legitimate Some(0)", *map(turn, range(2 * CALLERS)), "false"]


def seventy_thousand_turns_each():
    """More than 65,536 of each seat, and more of both than 131,072."""
    turns = (f"turn {number % 2}" for number in range(2 * MANY))
    asked = ["device 55", "format 4", "office 2 00 10", *turns, "seat 1", "close", "line"]
    seat = [f"turns {MANY}", "denied, reached (None, 0)", "told None", "faulted false"]
    own = map(turn, range(1, 2 * MANY, 2))
    last = ["00/10 privileges 1", "first legitimate Some(0)", "00/10 privileges 1"]
    return asked, [*map(turn, range(2 * MANY)), *seat, *own, *last]


TESTS = (two_callers_take_turns, seventy_thousand_turns_each)
