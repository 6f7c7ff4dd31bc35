"""What a client remembers of its counter, in a file."""
from __future__ import annotations

import dataclasses
import os
import secrets
from pathlib import Path

from .faults import BadState

# The lines behind the first two, which have a name each; an older state has none of them.
_NAMED = ("id", "counter", "answer", "key", "last", "last_answer")


@dataclasses.dataclass(frozen=True)
class State:
    """The last reference that was used, and the posting that was begun and isn't done with; the answer to that, once it
    came. The state's own name. Its counter's name and its ledger's number, as the office told them. The key of the last posting that had one, that posting, and its answer."""

    reference: int = 0
    begun: str = ""
    id: str = ""
    counter: str = ""
    answer: str = ""
    key: str = ""
    last: str = ""
    last_answer: str = ""

    @staticmethod
    def read(path: Path) -> State:
        """The state in a file; a new one if there is none.

        Raises `BadState` if the file can't be read, or holds something else."""
        try:
            reference, begun, *lines = path.read_text(encoding="utf-8").removesuffix("\n").split("\n")
            named = dict(line.split(" ", 1) for line in lines if " " in line)
            known = {name: named[name] for name in _NAMED if name in named}
            return State(int(reference), begun, **known)
        except FileNotFoundError:
            return State()
        except (OSError, ValueError) as error:
            raise BadState(f"{path}: it can't be read, or holds no state") from error

    def done(self) -> State:
        """Where the caller was given the answer to what was begun."""
        if self.key and self.answer.startswith("posted"):
            return dataclasses.replace(self, begun="", answer="", last=self.begun, last_answer=self.answer)
        return dataclasses.replace(self, begun="", answer="", key="", last="", last_answer="")

    def forgotten(self) -> State:
        """Where what was begun is taken as settled, whatever became of it."""
        return dataclasses.replace(self, begun="", answer="", key="" if self.begun else self.key)

    def words_of(self, key: str) -> str:
        """The words of the posting with that key, without its reference, if it is known and wasn't refused."""
        if not key or key != self.key or self.answer.startswith(("refused", "wrong")):
            return ""
        return (self.begun or self.last).rpartition(" ")[0]

    def named(self) -> State:
        """With a name of its own."""
        return self if self.id else dataclasses.replace(self, id=secrets.token_hex(8))

    def write(self, path: Path) -> None:
        """Writes it durably: a crash leaves this state, or the one before.

        Raises `BadState` if it can't be written; then the one before stands."""
        new = path.with_name(path.name + ".new")
        named = "".join(f"{name} {getattr(self, name)}\n" for name in _NAMED)
        try:
            with open(new, "w", encoding="utf-8") as file:
                file.write(f"{self.reference}\n{self.begun}\n{named}")
                file.flush()
                os.fsync(file.fileno())
            os.replace(new, path)
            folder = os.open(path.parent, os.O_RDONLY)
            try:
                os.fsync(folder)
            finally:
                os.close(folder)
        except OSError as error:
            raise BadState(f"{path}: it can't be written") from error
