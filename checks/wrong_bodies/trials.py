"""Trials of wrong bodies: several functions' at once in a copy of their crate, since each is proved by itself."""
import os
import shutil
import subprocess
import tempfile
import threading
import time
from collections import Counter
from dataclasses import dataclass
from functools import cached_property
from pathlib import Path

import toolchain
import verdicts
from edits import BadEdit, made, places_of
from places import path_at
from stubs import leave_out

# So few edits are tried at once that no processor is left alone with many of them.
MOST_AT_ONCE = 40


@dataclass(frozen=True)
class Aimed:
    """An edit, the functions that it changes, and the items outside of any function."""

    edit: object
    functions: tuple
    items: tuple

    @property
    def key(self):
        """What tells the edit from all others: its crate and its name."""
        return self.edit.crate, self.edit.name

    @property
    def shown(self):
        return ", ".join([*(function.shown for function in self.functions), *self.items])

    @property
    def judges(self):
        """The paths of the functions that have to refuse it: those that it changes, or those that it names."""
        return [*(function.aim for function in self.functions), *self.edit.judges]


@dataclass
class Outcome:
    """What became of an edit: refused at these goals, or why not, and in how many seconds."""

    aimed: Aimed
    is_refused: bool
    told: str
    seconds: float
    by_whole_crate: bool = False


@dataclass
class Ran:
    """A run of the prover on a crate's folder: what it said, and how long it took."""

    output: str
    seconds: float
    crate: Path

    @property
    def has_ended(self):
        return verdicts.has_ended(self.output)

    @cached_property
    def verdicts(self):
        """What it said of each function."""
        return verdicts.verdicts_of(self.output, lambda file, line: path_at(self.crate, file, line))

    def goals(self, paths):
        """The goals at which these functions are refused."""
        return [goal for path in paths for goal in verdicts.goals_of(self.verdicts, path)]


def aimed_at(edit, tree):
    """The edit with what it changes, by the sources of a tree."""
    functions, items = places_of(edit, tree / "crates" / edit.crate)
    return Aimed(edit, tuple(function for function in functions if function), tuple(items))


@dataclass
class Batch:
    """Edits of one crate that are tried at once, no two in the same function, and the files that they change."""

    edits: list
    texts: dict

    @property
    def crate(self):
        return self.edits[0].edit.crate

    def takes(self, one, folder):
        """Whether the edit was taken up. One of a constant is tried by itself."""
        is_alone = bool(one.items or self.edits[0].items) or len(self.edits) == MOST_AT_ONCE
        is_same = any(not set(one.functions).isdisjoint(it.functions) for it in self.edits)
        if is_alone or is_same or one.edit.crate != self.crate:
            return False
        try:
            self.texts = made(one.edit, folder, self.texts)
        except BadEdit:
            return False
        self.edits.append(one)
        return True


def alone(one, tree):
    """A batch of one edit."""
    return Batch([one], made(one.edit, tree / "crates" / one.edit.crate, {}))


def batches(aimed, tree):
    """All edits in batches. Those of functions with several come first, since each of these needs another batch."""
    several, found = Counter((one.edit.crate, one.functions) for one in aimed), []
    for one in sorted(aimed, key=lambda it: (it.edit.crate, -several[it.edit.crate, it.functions], it.functions, it.edit.name)):
        if not any(batch.takes(one, tree / "crates" / one.edit.crate) for batch in found):
            found.append(alone(one, tree))
    return found


def reasons(goals):
    """The goals in a reader's words, each once: clauses first."""
    return ", ".join(sorted({verdicts.shown(goal) for goal in goals}))


def linked(file, to):
    """Has a file stand at a second place too. The prover replaces what it proved, and writes on in its notes, so a link is
    enough for the first alone."""
    if file.endswith(".oantt"):
        os.link(file, to)
    else:
        shutil.copy2(file, to)


class Work:
    """What was proved on the way to the first verdicts on a crate, for whoever tries others of its edits."""

    def __init__(self, folder):
        self.folder, self.lock = folder, threading.Lock()
        folder.mkdir()

    def has(self, crate):
        """Whether there is anything of the crate."""
        with self.lock:
            return (self.folder / crate).is_dir()

    def hand_out(self, crate, kept):
        """Begins a lane's folder with what was proved of the crate."""
        with self.lock:
            if (self.folder / crate).is_dir() and not kept.exists():
                shutil.copytree(self.folder / crate, kept, copy_function=linked)

    def take_in(self, crate, kept):
        """Keeps what the first check of the crate proved. None may be running over that folder."""
        with self.lock:
            if kept.is_dir() and not (self.folder / crate).exists():
                shutil.copytree(kept, self.folder / crate, copy_function=linked)


class Trial:
    """Tries edits of a tree whose libraries were built, keeping what is proved on the way in a folder of its own."""

    def __init__(self, tree, folder, group, work):
        self.tree, self.folder, self.group, self.work = tree, folder, group, work

    def check(self, batch, is_whole=False):
        """What the prover says of a copy of the crate in which these edits were made."""
        crate, kept = self.tree / "crates" / batch.crate, self.folder / f"kept-{batch.crate}"
        self.work.hand_out(batch.crate, kept)
        aims = [] if is_whole else [path for one in batch.edits for path in one.judges]
        start = time.monotonic()
        with tempfile.TemporaryDirectory(dir=self.folder) as room:
            toolchain.copy_crate(crate, Path(room))
            for file, text in batch.texts.items():
                (Path(room) / file).write_text(text, encoding="utf-8")
            if aims:
                leave_out(Path(room), batch.crate, aims)
            words = toolchain.check_words(self.tree, batch.crate, kept, aims)
            ran = subprocess.run(words, cwd=room, stdin=subprocess.DEVNULL, stdout=subprocess.PIPE,
                                 stderr=subprocess.STDOUT, errors="replace", process_group=self.group)
        self.work.take_in(batch.crate, kept)
        return Ran(ran.stdout, time.monotonic() - start, crate)

    def outcomes(self, batch):
        """What becomes of each edit of a batch, as it is known. One that isn't refused there is tried by itself."""
        if not batch.edits[0].judges:
            yield self.by_whole_crate(batch)
            return
        ran = self.check(batch)
        if len(batch.edits) == 1:
            yield self.by_itself(batch, ran)
            return
        for one in batch.edits:
            goals = ran.goals(one.judges) if ran.has_ended else []
            if goals:
                yield Outcome(one, True, reasons(goals), ran.seconds / len(batch.edits))
            else:
                single = alone(one, self.tree)
                yield self.by_itself(single, self.check(single))

    def by_itself(self, single, ran):
        """What becomes of an edit that was tried by itself, and else on the whole crate."""
        one = single.edits[0]
        if ran.has_ended:
            if goals := ran.goals(one.judges):
                return Outcome(one, True, reasons(goals), ran.seconds)
        elif verdicts.names_nothing(ran.output) is None:
            return Outcome(one, False, f"BAD EDIT: {verdicts.first_error(ran.output)}", ran.seconds)
        outcome = self.by_whole_crate(single)
        outcome.seconds += ran.seconds
        return outcome

    def by_whole_crate(self, single):
        """What becomes of an edit where all of its crate is proved with it."""
        one, ran = single.edits[0], self.check(single, is_whole=True)
        if not ran.has_ended:
            return Outcome(one, False, f"BAD EDIT: {verdicts.first_error(ran.output)}", ran.seconds, True)
        unproved = {path: verdict for path, verdict in ran.verdicts.items() if not verdict.is_proved}
        if goals := ran.goals(unproved):
            return Outcome(one, True, reasons(goals), ran.seconds, True)
        told = "NOT REFUSED: the crate is still proved with this edit"
        if unproved:
            path, verdict = next(iter(unproved.items()))
            told = f"BAD EDIT: refused at no goal: {path}: {verdict.said}"
        return Outcome(one, False, told, ran.seconds, True)
