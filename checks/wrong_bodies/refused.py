"""What earlier trials saw: a line for each wrong body in `refused/CRATE`, with a sum of all that its trial read."""
from collections import defaultdict
from dataclasses import dataclass
from pathlib import Path

FOLDER = Path(__file__).resolve().parent / "refused"


@dataclass(frozen=True)
class Line:
    """The sum of what a trial read, and the goals at which the wrong body was refused."""

    sum: str
    told: str

    @property
    def goals(self):
        return self.told.split(", ")


def read():
    """The lines, by crate and name of the edit."""
    found = {}
    for file in sorted(FOLDER.glob("*")):
        for line in file.read_text(encoding="utf-8").splitlines():
            name, summed, told = line.split(" ", 2)
            found[file.name, name] = Line(summed, told)
    return found


def write(lines):
    """Writes these lines in the place of all."""
    by_crate = defaultdict(list)
    for (crate, name), line in sorted(lines.items()):
        by_crate[crate].append(f"{name} {line.sum} {line.told}\n")
    FOLDER.mkdir(exist_ok=True)
    for file in FOLDER.glob("*"):
        if file.name not in by_crate:
            file.unlink()
    for crate, texts in by_crate.items():
        (FOLDER / crate).write_text("".join(texts), encoding="utf-8")


def is_known(line, one, sums):
    """Whether a line, or None, tells of a trial that read what one of this edit reads now."""
    return line is not None and (line.sum == sums.of_trial(one) or line.sum == sums.of_whole_crate(one))


def line_for(outcome, sums):
    """The line of an edit that was refused."""
    of = sums.of_whole_crate if outcome.by_whole_crate else sums.of_trial
    return Line(of(outcome.aimed), outcome.told)
