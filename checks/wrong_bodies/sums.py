"""Sums of all that a trial of a wrong body reads. Comments and blank lines don't count.

Of the edit's own crate that is the copy which is tried, so of each function that is left out its contract alone. Of a crate
below it is what those above know: its definitions, and its sources without the bodies.
"""
import hashlib
import shutil
import tempfile
from functools import cache
from pathlib import Path

import toolchain
from stubs import PROOFS, leave_out, left_out

KNOWN_ABOVE = ("src", "specs")
COMMENT = {".rt": "//", ".antt": "--"}


def sum_of(*parts):
    """A sum of texts, each set off from the next by its length."""
    summed = hashlib.sha256()
    for part in parts:
        read = part.encode()
        summed.update(b"%d:" % len(read) + read)
    return summed.hexdigest()[:32]


def that_count(lines, suffix):
    """The lines that are neither blank nor a comment."""
    return "\n".join(line.rstrip() for line in lines if line.strip() and not line.strip().startswith(COMMENT[suffix]))


def lines_of(file):
    """The lines of a file, none where it isn't there."""
    return file.read_text(encoding="utf-8").splitlines() if file.is_file() else []


def texts(folder, parts):
    """The files in these parts of a crate's folder: the name of each, and the lines that count."""
    files = sorted(file for part in parts for file in (folder / part).rglob("*") if file.suffix in COMMENT)
    return [text for file in files for text in (file.relative_to(folder).as_posix(), that_count(lines_of(file), file.suffix))]


class Sums:
    """Sums over the sources of a tree as they stand when a crate is first asked about."""

    def __init__(self, tree):
        self.tree = tree

    def read(self, one):
        """Reads all that the sums for an edit are of, so that they stay those of now."""
        self.of_trial(one)
        self.of_whole_crate(one)

    def of_trial(self, one):
        """The sum for an edit that is tried at the functions that have to refuse it."""
        if not one.judges:
            return self.of_whole_crate(one)
        crate, bodies = one.edit.crate, self.bodies(one.edit.crate)
        return self.joined(one, self.without_bodies(crate)[0], *(bodies.get(judge, "") for judge in one.judges))

    def of_whole_crate(self, one):
        """The sum for an edit with which all of its crate is proved."""
        return self.joined(one, self.whole(one.edit.crate))

    def joined(self, one, *parts):
        """A sum of an edit, of these parts, of what is known of the crates below, and of the toolchain's logic."""
        below = (self.without_bodies(name)[1] for name in toolchain.below(self.tree, one.edit.crate))
        return sum_of(toolchain.logic(), repr(one.edit), *parts, *below)

    @cache
    def whole(self, crate):
        """A sum of a crate as it stands."""
        return sum_of(*self.head(crate), *texts(self.folder(crate), toolchain.PARTS))

    @cache
    def without_bodies(self, crate):
        """Two sums of a crate in which no function has its body: with the lemmas, and as those above know it."""
        with tempfile.TemporaryDirectory() as room:
            toolchain.copy_crate(self.folder(crate), Path(room))
            leave_out(Path(room), crate, [])
            return tuple(sum_of(*self.head(crate), *texts(Path(room), parts)) for parts in (toolchain.PARTS, KNOWN_ABOVE))

    @cache
    def bodies(self, crate):
        """A sum of the body and the proof of each function of a crate that a trial may leave out, by its path."""
        found, folder = {}, self.folder(crate)
        for file in sorted((folder / "src").rglob("*.rt")):
            lines = lines_of(file)
            for function, begin, end in left_out(lines, folder, file.relative_to(folder).as_posix(), []):
                proofs = (folder.joinpath("proofs", *function.aim.split("::")) / name for name in PROOFS)
                proof = (that_count(lines_of(file), ".antt") for file in proofs)
                found[function.aim] = sum_of(that_count(lines[begin:end], ".rt"), *proof)
        return found

    def folder(self, crate):
        return self.tree / "crates" / crate

    def head(self, crate):
        """A crate's name, and those of the libraries that it uses."""
        return crate, *toolchain.libraries_of(self.tree)[crate]
