"""The document of the wrong bodies, made from the lines that tell what refused them."""
from itertools import groupby
from pathlib import Path

DOCUMENT = Path("docs/WRONG_BODIES.md")
TOP = """# Wrong bodies

Each line is a body that was made wrong on purpose, in a file of `crates/*/must-fail`: the name says what it does, then comes what was changed, and what the prover can't prove of it then. `python3 checks/wrong_bodies CRATE` tries those of a crate. The merge gate tries those whose sources have changed, and a tenth of the others. This page is made by `python3 checks/wrong_bodies --write`.
"""
HEAD = ["| The wrong body | In | Not proved |", "|---|---|---|"]


def text(aimed, lines):
    """The document for these edits and lines."""
    parts = [TOP]
    for crate, ones in groupby(sorted(aimed, key=lambda one: one.key), key=lambda one: one.edit.crate):
        rows = [row(one, lines[one.key]) for one in ones if one.key in lines]
        parts.append("\n".join([f"## `{crate}`", "", *HEAD, *rows, ""]))
    return "\n".join(parts)


def row(one, line):
    """What the document says of an edit: three goals at most."""
    return f"| {one.edit.name.replace('_', ' ')} | `{one.shown}` | {', '.join(line.goals[:3])} |"


def write(aimed, lines):
    DOCUMENT.write_text(text(aimed, lines), encoding="utf-8")


def fault(aimed, lines):
    """Why the lines or the document aren't those of the edits that are there, or None."""
    keys = {one.key for one in aimed}
    if differing := sorted("/".join(key) for key in keys ^ lines.keys()):
        return f"these have no line in checks/wrong_bodies/refused, or aren't there: {', '.join(differing[:3])}"
    return None if DOCUMENT.read_text(encoding="utf-8") == text(aimed, lines) else f"{DOCUMENT} isn't what is told of the wrong bodies"
