"""The course through an office, whose two seats one thread has in hand, and its closing behind one fault."""
from console import require, require_same
from course import CALLS, LINES, NEW, course_of, shown, taken_turn, turns

# What an office is asked, behind the turns: by both seats for one turn more than there were, and what they have noted.
ASKED = (*turns(0), "within 0 5", "within 1 5", "seat 0", "seat 1")
OFFICE = ("office 2 00 10", *ASKED, "close")

BEHIND = ("faulted", "history", "fault none", "close", "recover")


def seat(station, course):
    """What a seat has noted: its turns, and whether it was told of the fault."""
    own = [taken_turn(0, place) for place in range(station, course.acknowledged, 2)]
    return own, ("true" if course.met else "false")


def require_seats(answers, course):
    """What both seats tell, one behind the other; how many lines that are."""
    at = 0
    for station in (0, 1):
        own, is_faulted = seat(station, course)
        require_same(answers[at], f"turns {len(own)}", f"the turns of seat {station} after {course}")
        require_same(answers[at + 3], f"faulted {is_faulted}", f"seat {station} after {course}")
        require_same(answers[at + 4:at + 4 + len(own)], own, f"the turns of seat {station} after {course}")
        at += 4 + len(own)
    return at


def course_through(console, answers):
    """The course that an office answers so, which is closed."""
    course = course_of([shown(0), *answers], 0)
    refusal = "refused Turn(Faulted): " if course.met else "refused Reached: "
    require(all(answer.startswith(refusal) for answer in answers[5:7]), f"one turn more after {course}: {answers[5:7]}")
    at = 7 + require_seats(answers[7:], course)
    line = LINES[course.acknowledged % 4]
    require_same(answers[at:], [f"{line} privileges 1", "first legitimate Some(0)"], f"the audit after {course}")
    history = [taken_turn(0, place) for place in range(course.acknowledged)]
    found = console.ask(BEHIND)
    require_same(found[:-1], ["true" if course.met else "false", *history], f"the clerk after {course}")
    lawful = (course.acknowledged, course.acknowledged + 1) if course.met else (5,)
    require(found[-1] in map(shown, lawful), f"what is found after {course}: {found[-1]}")
    return course


def behind_each_fault(console, every):
    """An office closes behind a fault in a turn, whichever call fails; behind one in its opening the next office has none."""
    for at in range(0, CALLS["any"] + 1, every):
        answers = console.ask([*NEW, f"fault once any {at}", *OFFICE])
        if answers[0].startswith("refused Opening(Device): "):
            require_same(len(answers), 1, "the answers of an office that isn't opened")
            require_same(course_through(console, console.ask(OFFICE)).met, "", "behind a fault of an opening")
            continue
        course = course_through(console, answers)
        require_same(course.met == "turn", at < CALLS["any"], f"whether a fault is met at call {at}")
    return CALLS["any"] + 1
