"""Courses on a device that fails once or twice and works again: they go on from what they find, to the end."""
import course
from console import require, require_same, within
from course import CALLS, NEW, Course, count_of, course_of, in_flight, is_fault, is_faulted
from power import LEAVINGS, WITH_OLD, lose_power, patterns

# How many later places there are for all places of the first fault: as many as calls that reach the device from the first
# fault on to the end.
PAIRS = 9442


def take(console, first):
    """The course from this turn on."""
    answers = console.ask([course.opening(first), *course.turns(first)])
    met = course_of(answers, first)
    if met.met == "turn":
        course.require_stands_still(console, first, met.acknowledged)
    if met.met != "opening":
        console.say(["close"])
    return met


def look(console, met):
    """How many batches an opening finds after the course, or None if it fails."""
    answer, *_ = console.ask([course.opening(0)])
    if is_fault(answer):
        return None
    console.say(["close"])
    return count_of(met, answer)


def to_the_end(console, fault):
    """The course, and after each of two faults at most once more from what is found then, to all five batches. What is found
    is lawful each time. Where the faults lay, in order."""
    console.say([*NEW, fault])
    met = take(console, 0)
    faults = [met.met]
    for _ in range(2):
        if met.met == "":
            break
        found = look(console, met)
        if found is None:
            faults.append("opening")
            continue
        met = take(console, found)
        faults.append(met.met)
    require_same(met, Course(5, ""), "the end")
    return [fault for fault in faults if fault]


def at_each_call(console, every):
    """One call of a kind fails: no turn moves with it, and the course goes on to its end."""
    count = 0
    for kind, calls in CALLS.items():
        for at in range(0, calls, every):
            with within(f"a fault at {kind} {at}"):
                require_same(len(to_the_end(console, f"fault once {kind} {at}")), 1, "faults that are met")
            count += 1
        require_same(to_the_end(console, f"fault once {kind} {calls}"), [], f"faults at {kind} {calls}, which isn't made")
    return count


def pairs_behind(console, first, every):
    """Where both faults lie, of all pairs with this first place. From some later place on only the first fault is met."""
    met = []
    for between in range(0, 1000, every):
        with within(f"a fault at {first}, and one behind {between} more calls"):
            faults = to_the_end(console, f"fault twice any {first} {between}")
            require(faults, "none is met")
        if len(faults) < 2:
            return met
        met.append(faults)
    require(False, f"a course of more than 1000 calls behind a fault at {first}")


def at_each_two_calls(console, every):
    """Two calls fail, and the course goes on to its end all the same."""
    met = [pair for first in range(0, CALLS["any"], every) for pair in pairs_behind(console, first, every)]
    require({"opening", "turn"} <= {place for pair in met for place in pair}, "faults lie in openings and in turns")
    if every == 1:
        require_same(len(met), PAIRS, "pairs of faults")
    return len(met)


def with_a_power_loss(console, every):
    """One call of a kind fails, and then the power is lost, before anything else is done."""
    outcomes = 0
    for kind, at in [(kind, at) for kind, calls in CALLS.items() for at in range(0, calls, every)]:
        before = [*NEW, f"fault once {kind} {at}", *course.lines(0), "pending"]
        answers = console.ask(before)
        with within(f"a fault at {kind} {at}"):
            met = course_of(answers, 0)
            require(met.met, "it is never met")
            outcomes += lose_power(console, before, answers, met, patterns(answers[-1], LEAVINGS))
    return outcomes


def stops_behind(console, first, every):
    """A call fails, the course goes on from what it finds, and stops at each of its calls: how many outcomes there are of
    power losses that leave the same of each sector."""
    before = [*NEW, f"fault once any {first}", *course.lines(0), course.opening(0), "close"]
    *answers, found = console.ask(before)
    with within(f"a fault at {first}"):
        turn, outcomes = count_of(course_of(answers, 0), found), 0
    for at in range(0, 1000, every):
        again = [*before, f"fault stop any {at}", *course.lines(turn), "pending"]
        told = console.ask(again)
        with within(f"a fault at {first}, and a stop at call {at} of the next course"):
            met = course_of(told[len(answers) + 1 :], turn)
            if not met.met:
                return outcomes
            outcomes += lose_power(console, again, told, met, WITH_OLD)
    require(False, f"a course of more than 1000 calls behind a fault at {first}")


def with_a_later_stop(console, every):
    """One call fails, the course goes on and stops at a later one, and then the power is lost."""
    return sum(stops_behind(console, first, every) for first in range(0, CALLS["any"], every))


def in_the_first_sync_of_a_turn(console, every):
    """A turn of three stations, whose body isn't synced: the turn is in flight, and doesn't stand."""
    console.say(["device 55", "format 4", "fault once sync 1"])
    opening, turn, *told = console.ask(["clerk 3 000 100", "turn 0 deposit 1 5 1", "ledger", "line", "faulted", "in_flight",
                                        "turn 9", "turn 0", "turn 0" + " deposit 1 1 1" * 16, "close"])
    require(opening == "next 0 total 0" and is_fault(turn), f"the opening and the turn: {opening!r}, {turn!r}")
    require_same(told[:3], ["next 0 total 0", "000/100 privileges 1", "true"], "what stands behind the fault")
    require_same(told[3], in_flight(0, 5), "what is in flight")
    require(len(told) == 7 and all(map(is_faulted, told[4:])), f"turns behind the fault: {told[4:]}")
    require_same(console.ask(["recover"]), ["next 0 total 0"], "what is found")
    return 1
