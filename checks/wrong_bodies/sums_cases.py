"""Whether the sum of a trial changes with what the trial reads, and with nothing else: a line is added to a file, and the sum
of one edit compared. Nothing is proved here, so a line may say anything."""
import shutil
import tempfile
from pathlib import Path

from edits import edits_below
from sums import Sums
from trials import aimed_at

NAME = "sweep_auditor/audit_never_finds_a_legitimate_line"
BELOW = "four_state"

# What the line is part of, the file, the line behind which it is added, itself, and whether the sum changes.
CASES = [
    ("a comment", "sweep_auditor/src/audits.rt", "let mut line = start;", "// a word", False),
    ("a blank line", "sweep_auditor/src/audits.rt", "let mut line = start;", "", False),
    ("the body that is changed", "sweep_auditor/src/audits.rt", "let mut line = start;", "a word", True),
    ("its proof", "sweep_auditor/proofs/audits/audit/Invariants.antt", "use ", "a word", True),
    ("another body", "sweep_auditor/src/audits.rt", "if first.is_none()", "a word", False),
    ("another body's contract", "sweep_auditor/src/audits.rt", "fn noted(", "a word", True),
    ("a lemma", "sweep_auditor/proofs/Runs.antt", "use ", "a word", True),
    ("a definition", "sweep_auditor/specs/Run.antt", "use ", "a word", True),
    ("a comment of a definition", "sweep_auditor/specs/Run.antt", "use ", "  -- a word", False),
    ("a body below", "four_state/src/lines.rt", "is_set(self.words[X], station as usize)", "a word", False),
    ("a contract below", "four_state/src/lines.rt", "pub fn stations(&self)", "a word", True),
    ("a definition below", "four_state/specs/Motion.antt", "use ", "a word", True),
    ("a lemma below", "four_state/proofs/Words.antt", "use ", "a word", False),
]


def sum_in(tree, edit):
    return Sums(tree).of_trial(aimed_at(edit, tree))


def with_line(file, behind, line):
    """A file's text with a line added behind the first one that has a text."""
    lines = file.read_text(encoding="utf-8").splitlines()
    at = next(number for number, there in enumerate(lines) if behind in there)
    return "\n".join([*lines[: at + 1], line, *lines[at + 1 :]]) + "\n"


def faults(tree):
    """The cases in which the sum isn't as it must be."""
    edit = next(edit for edit in edits_below("crates") if str(edit) == NAME)
    with tempfile.TemporaryDirectory() as room:
        copy = Path(room)
        shutil.copy(tree / "crates.txt", copy)
        for crate in (edit.crate, BELOW):
            ignored = shutil.ignore_patterns("out")
            shutil.copytree(tree / "crates" / crate, copy / "crates" / crate, ignore=ignored)
        before = sum_in(copy, edit)
        for part, name, behind, line, changes in CASES:
            file = copy / "crates" / name
            text = file.read_text(encoding="utf-8")
            file.write_text(with_line(file, behind, line), encoding="utf-8")
            if (sum_in(copy, edit) != before) != changes:
                yield f"a line in {part} {'leaves the sum as it is' if changes else 'changes the sum'}: {name}"
            file.write_text(text, encoding="utf-8")
