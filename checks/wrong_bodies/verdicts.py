"""What the prover says of functions: which are proved, and at which goals the others are refused."""
import re
from collections import defaultdict
from dataclasses import dataclass, field

TOLD = re.compile(r"^fn \w+?::(\S+): (.*)$", re.MULTILINE)
ANSWER = re.compile(r"^(?:\./)?proofs/(\S+)/(?:Answers|Invariants|Proof)\.antt:\d+:\d+: error: (.*)$", re.MULTILINE)
GOAL = re.compile(r"`([^`]+)`")
UNPROVED = re.compile(r"`search` did not prove ((?:`[^`]+`(?:, | and )?)+)")
NOTED = re.compile(r"^note: (?:\./)?(src/\S+?):(\d+):\d+: it is not proved that .*?\(`([^`]+)`\)", re.MULTILINE)
NAMES_WHAT_IS_GONE = re.compile(r"has no field|is not in scope|has no `|was not admitted|is no name")
PROVED = re.compile(r"proved\b|no holes\b|depends on a hole\b")
ENDED = re.compile(r"^(?:only=\d+ holes=\d+|logic=(?:not-)?proved\b.*)$", re.MULTILINE)
UNREADABLE = re.compile(r"^(?:\./)?(?:src|specs)/\S+:\d+:\d+: error\b.*$|^error\b.*$", re.MULTILINE)


@dataclass
class Verdict:
    """What was said of one function: whether it is proved, and else at which goals it is refused."""

    is_proved: bool = False
    goals: list = field(default_factory=list)
    said: str = ""


def plain(path):
    """A function's path without the marks of what stands in a function's body, as closures do."""
    return path.replace("/", "::").replace("fn::", "")


def verdicts_of(output, path_at):
    """What a run of the prover says of each function that it names. Of a place, a file and a line, the second argument
    answers the path of the function there, or None."""
    found = defaultdict(Verdict)
    for path, said in TOLD.findall(output):
        verdict = found[plain(path)]
        verdict.is_proved, verdict.said = PROVED.match(said) is not None, said
        for goals in UNPROVED.findall(said):
            verdict.goals += GOAL.findall(goals)
    for path, said in ANSWER.findall(output):
        goal = GOAL.match(said)
        if goal and not NAMES_WHAT_IS_GONE.search(said):
            found[plain(path)].goals.append(goal[1])
    for file, line, goal in NOTED.findall(output):
        path = path_at(file, int(line))
        if path and goal not in found[path].goals:
            found[path].goals.append(goal)
    return dict(found)


def has_ended(output):
    """Whether the prover came to its end, and so judged each function that it was asked for."""
    return ENDED.search(output) is not None


def first_error(output):
    """The first line that says why nothing was judged."""
    found = UNREADABLE.search(output)
    lines = [line for line in output.splitlines() if line.strip()]
    return found[0] if found else lines[-1] if lines else "nothing was said"


def goals_of(verdicts, path):
    """The goals at which a function, or what stands in its body, is refused."""
    return [
        goal
        for name, verdict in verdicts.items()
        if (name == path or name.startswith(f"{path}::")) and not verdict.is_proved
        for goal in verdict.goals
    ]


def shown(goal):
    """What a goal is about, in a reader's words."""
    if clause := re.match(r"returns.*-clause-(\w+)$", goal):
        return f"`{clause[1]}`"
    if called := re.match(r"(?:.*?-in_)?([A-Za-z_]+?)(?:-\d+)?(?:-.*)?-requires", goal):
        return f"what `{called[1]}` requires"
    if goal.startswith(("loop", "for", "while")):
        return "a loop's invariant"
    if "invariant" in goal:
        return "what its type keeps"
    return "its contract" if goal.startswith("returns") else "that it is safe"


def names_nothing(output):
    """The line that says that a path which was asked for names no function, or None."""
    found = re.search(r"^.*--only.*$", output, re.MULTILINE)
    return found and found[0]
