"""Wrong bodies: what an edit's file says, and what it makes of a crate's files."""
from dataclasses import dataclass
from pathlib import Path

from places import function_at, item_at


class BadEdit(Exception):
    """An edit that can't be made."""


@dataclass(frozen=True)
class Change:
    """A text of a file, and what stands in its place."""

    file: str
    old: str
    new: str


@dataclass(frozen=True)
class Edit:
    """A wrong body: its crate, its name, the changes that make it, and where it has to be refused if it changes no function."""

    crate: str
    name: str
    changes: tuple
    judges: tuple

    def __str__(self):
        return f"{self.crate}/{self.name}"


def read_edit(path, crate):
    """The edit in a file of lines `file: PATH`, `old: TEXT` and `new: TEXT`. An edit of a constant may name by `in: FUNCTION`
    the function whose contract speaks of it."""
    file, old, changes, judges = None, None, [], []
    for line in path.read_text(encoding="utf-8").splitlines():
        word, _, rest = line.partition(":")
        rest = rest.removeprefix(" ")
        if word == "file":
            file = rest.strip()
        elif word == "old":
            old = rest
        elif word == "new" and file and old:
            changes.append(Change(file, old, rest))
            old = None
        elif word == "in":
            judges.append(rest.strip())
        elif line.strip():
            raise BadEdit(f"{path}: a line that is none of `file:`, `old:`, `new:` and `in:`, or in another order: {line}")
    if not changes or old is not None:
        raise BadEdit(f"{path}: a pair of `old:` and `new:` is missing")
    return Edit(crate, path.stem, tuple(changes), tuple(judges))


def edits_below(folder):
    """The edits in folders NAME/must-fail, by crate and name."""
    return [read_edit(path, path.parent.parent.name) for path in sorted(Path(folder).glob("*/must-fail/*.edit"))]


def made(edit, crate, texts):
    """The texts of a crate's files with the edit made on top of these, which other edits have changed already."""
    changed = dict(texts)
    for change in edit.changes:
        changed[change.file] = text_of(change, crate, changed).replace(change.old, change.new)
    return changed


def text_of(change, crate, texts):
    """The text in which a change is to be made: its old text has to stand there once."""
    file = crate / change.file
    if not file.is_file():
        raise BadEdit(f"there is no file {change.file}")
    text = texts.get(change.file) or file.read_text(encoding="utf-8")
    if text.count(change.old) != 1:
        raise BadEdit(f"its old text stands {text.count(change.old)} times in {change.file}: {change.old.strip()}")
    return text


def places_of(edit, crate):
    """The functions that the edit changes, each None where it stands outside of one, and the names of such items."""
    functions, items, texts = [], [], {}
    for change in edit.changes:
        text = text_of(change, crate, texts)
        at = text.index(change.old) + len(change.old) - len(change.old.lstrip())
        function = function_at(text, crate, change.file, at)
        if function not in functions:
            functions.append(function)
        if function is None:
            items.append(item_at(text, at))
        texts[change.file] = text.replace(change.old, change.new)
    return functions, items
