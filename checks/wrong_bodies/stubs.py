"""What a trial leaves out: the bodies and the proofs of functions that it doesn't look at.

A function's proof rests on what those that it calls promise, and not on how that is proved. So each of the others gets a body
that does nothing, of as many lines as it had, and a proof that is a hole, which the prover reads in no time.
"""
from places import FUNCTION, named

PROOFS = ("Proof.antt", "Answers.antt", "Invariants.antt")
HOLE = """use Rattle.{crate}.proofs.{place}.Statement.{{statement}}

pub {name}_spec : {{M : Type 1}} → statement M
{name}_spec = ?
"""


def leave_out(room, crate, aims):
    """Leaves out, in a copy of a crate, each function that isn't aimed at."""
    for file in sorted((room / "src").rglob("*.rt")):
        lines = file.read_text(encoding="utf-8").splitlines()
        for function, begin, end in left_out(lines, room, file.relative_to(room).as_posix(), aims):
            lines[begin:end] = ["unreachable!()"] + [""] * (end - begin - 1)
            write_hole(room, crate, function)
        file.write_text("\n".join(lines) + "\n", encoding="utf-8")


def left_out(lines, room, file, aims):
    """The functions of a file to leave out, with the lines at which the body begins and ends. One in another is part of it."""
    found, behind = [], 0
    for start, line in enumerate(lines):
        head = FUNCTION.match(line)
        if start < behind or not head:
            continue
        begin = body_from(lines, start, head[1])
        if begin is None:
            continue
        end = behind = lines.index(head[1] + "}", begin)
        function = named(lines, start, room, file, head)
        if begin < end and function.aim not in aims and not is_constant(line):
            found.append((function, begin, end))
    return found


def body_from(lines, start, indent):
    """The first line of the body of the function that begins here, or None where it has none."""
    depth = 0
    for number in range(start, len(lines)):
        line = lines[number].rstrip()
        depth += line.count("{") - line.count("}")
        if depth == 0 and line.endswith((";", "{}")):
            return None
        if line.endswith("{") and line.startswith(indent) and not line[len(indent)].isspace():
            return number + 1
    return None


def is_constant(line):
    """Whether a function may be called where a constant is made, which needs its body."""
    return " const fn " in f" {line}"


def write_hole(room, crate, function):
    """Puts a hole into the place of a function's proof."""
    *modules, name = function.aim.split("::")
    folder = room.joinpath("proofs", *modules, name)
    folder.mkdir(parents=True, exist_ok=True)
    for file in PROOFS:
        (folder / file).unlink(missing_ok=True)
    text = HOLE.format(crate=crate, place=".".join([*modules, name]), name=name)
    (folder / PROOFS[0]).write_text(text, encoding="utf-8")
