"""A day of two stations in threads, of which each request for memory is refused in turn, and then each thread. Want of memory
is told. A thread that isn't had is not told: stations run one after another, and one that waits in vain gives up."""
import re

from console import require, require_same
from days import Told

NEW = ("nothing", "other", "nothing", "device 55", "format 4")
HELD = ("hold deposit 1 1 0", "hold deposit 1 2 0")
HOLDS_NOTHING = "hold"
DAY = "day 2 00 10 4"

# How often a station tries in a row, so that one that waits in vain soon gives up.
TRIES = 20_000

# More requests than a day makes.
MOST = 500

# What want of memory is told as: by a day, by a station's turn, and where the device's record of its calls can't grow. One
# for a thread is not told.
WANT = {"refused Memory", "refused Opening(Device)", "end Refused(Memory)", "end Refused(Device)"}
IN_VAIN = "end Tries"

# How many batches and which total stand behind a day of which only want of memory is told.
LEFT = ((0, 0), (1, 1), (2, 3))


class Heard(Told):
    """What clients were told of a day in which a request was refused."""

    ENDS = (*Told.ENDS, IN_VAIN.removeprefix("end "), "Refused(Memory)")

    def hear(self, end, given, unanswered):
        """As of other days. A station whose turn ran out of memory still holds its deposit."""
        require(end != "end Refused(Memory)" or given == "[]", f"an answer of a turn that had no memory: {given}")
        super().hear(end, given, unanswered)


def found(console):
    """How many batches the device has, and their total."""
    answer = console.ask(["close", "recover"])[0]
    return tuple(map(int, re.match(r"next (\d+) total (\d+)", answer).groups()))


def go_on(console, held, of):
    """A day in which nothing is refused: all that stations hold then is posted."""
    _, before = found(console)
    answers = console.ask([*held, DAY])
    wanted = before + sum(int(line.split()[3]) for line in held if line != HOLDS_NOTHING)
    require_same((answers[0:6:3], answers[2:6:3]), (2 * ["end Reached"], 2 * ["[]"]), f"{of}: how it ends once nothing is refused")
    require("Undecided" not in f"{answers}", f"{of}: {answers}")
    require_same(found(console)[1], wanted, f"{of}: what stands in the end")


def refuse_kept(console):
    """How many requests are made where a station's deposit is kept. Each is refused in turn: it isn't kept then."""
    for number in range(1, MOST):
        console.ask(NEW)
        answer, is_refused = console.refuse(number, HELD[0])
        require_same(answer, ["no memory"] if is_refused else [], f"what a station holds, request {number}")
        if not is_refused:
            console.ask([HOLDS_NOTHING, DAY])
            return number - 1
        go_on(console, HELD, f"what a station holds, request {number}")
    raise ValueError(f"more than {MOST} requests")


def have_day(console, kind, number):
    """What a day answers while the request of that number is refused, and whether it was made. If it wasn't, and a station gave
    up before a late thread began, it has as many tries as other days have."""
    for day in (f"{DAY} {TRIES}", DAY):
        console.ask([*NEW, *HELD])
        answers, is_refused = console.refuse(number, day, kind)
        if is_refused or IN_VAIN not in answers:
            break
    return answers, is_refused


def refuse(console, kind, number):
    """Refuses the request of that number: how the day was refused or stations ended, and None if there is no such request."""
    answers, is_refused = have_day(console, kind, number)
    of, stands = f"a day, {kind}{number}", found(console)
    if answers[0].startswith("refused "):
        name = answers[0].partition(":")[0]
        require(stands in (LEFT if name == "refused Memory" else LEFT[:1]), f"{of}: {stands} behind {answers}")
        go_on(console, HELD, of)
        return [name]
    told, held = Heard(answers), [HELD[place] if "Ask {" in answers[3 * place + 2] else HOLDS_NOTHING for place in (0, 1)]
    require(told.allows("next %d total %d" % stands), f"{of}: {stands} behind {answers}")
    if not is_refused:
        require_same((answers[0:6:3], stands), (2 * ["end Reached"], LEFT[2]), of)
        return None
    go_on(console, held, of)
    return answers[0:6:3]


def refuse_all(console, kind):
    """What each refused request led to."""
    ends = []
    for number in range(1, MOST):
        if (ended := refuse(console, kind, number)) is None:
            return ends
        ends.append(ended)
    raise ValueError(f"more than {MOST} requests")


def refuse_each(console):
    """How many requests for memory were refused in turn, and how many for threads."""
    memory, threads = refuse_all(console, ""), refuse_all(console, "thread ")
    for number, ended in enumerate(memory, 1):
        require(WANT & set(ended) or IN_VAIN in ended, f"a day, {number}: nobody told of want of memory, but {ended}")
    told = {name for ended in memory for name in ended}
    require({"refused Memory", "end Refused(Memory)"} <= told, f"a day: not all calls told of want of memory, but {told}")
    told = {name for ended in threads for name in ended}
    require(threads and told <= {"end Reached", "end Stopped", IN_VAIN}, f"a day: what is told of threads is {told}")
    return len(memory), len(threads)
