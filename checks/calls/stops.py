"""Courses on a device that stops at one of its calls, and then loses power."""
from console import require_same, within
from course import CALLS, NEW, ORDER, course_of, lines
from power import LEAVINGS, WITH_OLD, lose_power, patterns


def outcomes_of(choices):
    """How many outcomes of a power loss there are for all stops, with so many choices for each sector that was written
    since the last sync, or for the two lowest and the two highest."""
    written = (len(ORDER[:at].rpartition("s")[2].replace("r", "")) for at in range(len(ORDER)))
    return sum(choices ** min(count, 4) for count in written)


def stop(console, at, leavings):
    """Stops at this call, and loses power in each way: the course, and how many ways there are."""
    before = [*NEW, f"fault stop any {at}", *lines(0), "pending"]
    answers = console.ask(before)
    with within(f"a stop at call {at}"):
        course = course_of(answers, 0)
        return course, lose_power(console, before, answers, course, patterns(answers[-1], leavings))


def each_stop(console, leavings, every):
    outcomes = 0
    for at in range(0, CALLS["any"], every):
        course, count = stop(console, at, leavings)
        require_same(course.met != "", True, f"whether call {at} is made")
        outcomes += count
    course, _ = stop(console, CALLS["any"], leavings)
    require_same(course.met, "", "where a course stops that makes all its calls")
    if every == 1:
        require_same(outcomes, outcomes_of(len(leavings)), "how many outcomes there are")
    return outcomes


def at_each_call(console, every):
    """No stop loses what was acknowledged, whatever it leaves of the sectors at stake."""
    return each_stop(console, LEAVINGS, every)


def at_each_call_with_old_bytes(console, every):
    """The same, and a sector at stake may also keep what stood in it before."""
    return each_stop(console, WITH_OLD, every)
