"""The one client at a counter."""
from __future__ import annotations

import dataclasses
import errno
import fcntl
import os
import random
import select
import time
from pathlib import Path
from types import TracebackType

from .faults import InUse, NoOffice, OtherState, Refused, TimeOut, Unknown, Unsettled
from .state import State

# The most by which a reference may exceed the last one, unless it is said which is the first.
_MOST = 1 << 32


class Counter:
    """The one client at a counter.

    `folder` is the counter's, with its two pipes; `state` the file in which its references stand. `patience` is how many
    seconds an answer may take. `takes_over` goes on where another state was used, and takes as settled what this one
    began, whatever became of it.

    It is opened by `with`, which raises `NoOffice`, `InUse`, `TimeOut`, `Unknown`, `OtherState` or `BadState`. After one
    of these is raised it is of no more use: open it anew."""

    def __init__(self, folder: str | os.PathLike[str], state: str | os.PathLike[str], patience: float = 60,
                 takes_over: bool = False) -> None:
        self.folder, self.path = Path(folder), Path(state).absolute()
        self.patience, self.takes_over = patience, takes_over
        self.state = State()
        #: Whether the last `post` was answered by a posting that was begun before: it posted nothing else.
        self.repeated = False
        self._lock: int | None = None
        self._input: int | None = None
        self._output: int | None = None
        self._heard = b""
        # Why nothing can be said any more, if so.
        self._broken: Exception | None = None
        # Whether the answer to what was begun was given to the caller. The state is done with it at the next posting, or
        # at the end: whoever is killed before that repeats it.
        self._is_answered = False

    def __enter__(self) -> Counter:
        try:
            self._open()
        except BaseException:
            self._close()
            raise
        return self

    def __exit__(self, kind: type[BaseException] | None, error: BaseException | None, trace: TracebackType | None) -> None:
        try:
            if self._is_answered:
                self._remember(self.state.done())
        finally:
            self._close()

    def post(self, entry: str, key: str = "") -> int:
        """Posts an entry, as `deposit 1 500`, without a reference. The number of its batch.

        If the state began a posting with the same words whose answer nobody was given, that one is answered, and nothing
        else is posted; `repeated` tells so. With a `key` of your own the same key is the same posting, and another key
        another one; the last key is known, unless its posting was refused.

        Raises `Refused` if it isn't posted, `OtherState` if the key is that of other words, and what `with` raises."""
        if "\n" in entry + key or not entry.split():
            raise ValueError(f"{entry!r}: an entry is one line, as is a key")
        self._usable()
        if self._is_answered:
            self.state = self.state.done()
            self._is_answered = False
        of_key = self.state.words_of(key)
        if of_key not in ("", entry):
            raise OtherState(f"{self.path}: the key {key!r} is that of {of_key!r}")
        if of_key and not self.state.begun:
            self.repeated = True
            return _number_of(self.state.last_answer)
        self.repeated = self._is_repetition(entry, key)
        if self.repeated:
            self.state = dataclasses.replace(self.state, key=self.state.key or key)
        else:
            reference = self.state.reference + 1
            self._remember(State(reference, f"{entry} {reference}", self.state.id, self.state.counter, key=key))
            self._say_posting()
        self._is_answered = True
        return self._deliver()

    def forget(self) -> None:
        """Takes the posting that was begun as settled, whatever became of it. It needs no `with`."""
        if self._lock is not None:
            self._remember(self.state.forgotten())
            return
        try:
            self._take_lock()
            self._remember(State.read(self.path).forgotten())
        finally:
            self._close()

    def balance(self, account: int) -> int:
        """What an account holds. Raises `Refused` if there is none of that number."""
        return int(self.ask(f"balance {account}").split()[2])

    def ask(self, request: str) -> str:
        """The answer to a request that has one line for an answer and posts nothing, as `archive`.

        Raises `Refused` if it is refused or wrong."""
        if "\n" in request or not request.split() or request.split()[0] in ("deposit", "withdraw", "transfer", "seal", "find"):
            raise ValueError(f"{request!r} isn't a request that has one line for an answer and posts nothing")
        self._open_still()
        self._say(request)
        answer = self._hear()
        if answer.startswith(("refused", "wrong")):
            raise Refused(answer.partition(" ")[2])
        return answer

    # Whether it is what the state began before, and whose answer nobody was given.
    def _is_repetition(self, entry: str, key: str) -> bool:
        is_same = self.state.begun.rpartition(" ")[0] == entry
        return is_same and (not key or self.state.key in ("", key))

    # The number of what was begun, whose answer is known.
    def _deliver(self) -> int:
        if self.state.answer.startswith("posted"):
            return _number_of(self.state.answer)
        kind, *words = self.state.answer.split()
        raise Refused(" ".join(words[:-1] if kind == "refused" else words))

    def _remember(self, state: State) -> None:
        state.write(self.path)
        self.state = state

    def _open(self) -> None:
        self._take_lock()
        self._take_state()
        try:
            self._output = os.open(self.folder / "out", os.O_RDONLY | os.O_NONBLOCK)
            self._input = os.open(self.folder / "in", os.O_WRONLY | os.O_NONBLOCK)
        except OSError as error:
            if error.errno not in (errno.ENXIO, errno.ENOENT):
                raise
            raise NoOffice(f"{self.folder}: no office has it") from error
        self._greet()
        self._find_out()
        self._go_on()
        if self.state.begun and not self.state.answer:
            self._say_posting()
            self._remember(self.state)

    def _close(self) -> None:
        for end in (self._input, self._output, self._lock):
            if end is not None:
                os.close(end)
        self._input = self._output = self._lock = None

    # Tries twice, since an office that tells how it stands has it for a moment.
    def _take_lock(self) -> None:
        try:
            self._lock = os.open(self.folder / "lock", os.O_RDWR | os.O_CREAT, 0o666)
        except (FileNotFoundError, NotADirectoryError) as error:
            raise NoOffice(f"{self.folder}: no office has it") from error
        how = fcntl.LOCK_EX | fcntl.LOCK_NB
        try:
            try:
                fcntl.flock(self._lock, how)
            except BlockingIOError:
                time.sleep(0.1)
                fcntl.flock(self._lock, how)
        except BlockingIOError as error:
            raise InUse(f"{self.folder}: another client is there") from error

    # Reads the state, and finds its name in the lock's file, unless none is there.
    def _take_state(self) -> None:
        assert self._lock is not None
        self.state = State.read(self.path)
        if self.takes_over:
            self._remember(dataclasses.replace(self.state.forgotten().named(), counter=""))
        elif not self.state.id:
            self._remember(self.state.named())
        if self._there() not in ("", self.state.id) and not self.takes_over:
            raise OtherState(f"{self.folder}: another state is used there than {self.path}: one counter has one state")

    # The name of the state that is used there.
    def _there(self) -> str:
        assert self._lock is not None
        return os.pread(self._lock, 4096, 0).decode("ascii", "replace").strip()

    # Finds out which counter it is, and that no other state is used there from now on. An office of before doesn't tell.
    def _find_out(self) -> None:
        assert self._lock is not None
        self._say("name")
        kind, _, told = self._hear().partition(" ")
        if kind not in ("name", "wrong"):
            raise self._break(NoOffice(f"{self.folder}: {kind} {told}"))
        if kind == "name" and self.state.counter not in ("", told):
            raise OtherState(f"{self.folder}: it is counter {told}, and {self.path} is that of {self.state.counter}")
        if kind == "name" and not self.state.counter:
            self._remember(dataclasses.replace(self.state, counter=told))
        if self._there() != self.state.id:
            os.ftruncate(self._lock, 0)
            os.pwrite(self._lock, f"{self.state.id}\n".encode("ascii"), 0)

    # Makes a wrong line of what a client before left unfinished, and drops what that one was answered.
    def _greet(self) -> None:
        number = random.SystemRandom().randrange(1 << 64)
        self._say(f" ?\nhello {number}")
        while self._line() != f"hello {number}":
            pass

    # Finds out with which reference to go on, and says so where the office wouldn't know. What was begun keeps its own.
    def _go_on(self) -> None:
        last, *_ = self.ask("last").split()[1:]
        begun = self.state.begun and int(self.state.begun.rpartition(" ")[2])
        if last == "unknown":
            # whether what was begun stands the office can't tell; all others that were used are below
            if not begun:
                # a new client takes a number that hardly anybody used
                new = self.state.reference or random.SystemRandom().randrange(1, 1 << 31) << 32
                self._remember(dataclasses.replace(self.state, reference=new))
                self.ask(f"first {self.state.reference + 1}")
            return
        known = 0 if last == "none" else int(last)
        if not begun and known > self.state.reference:
            self._remember(dataclasses.replace(self.state, reference=known))
        next = begun or self.state.reference + 1
        if next >= 1 << 64:
            raise Refused(f"{self.folder}: its references are used up")
        if next - known > _MOST:
            self.ask(f"first {next}")

    # Says the posting that was begun, and notes what became of it.
    def _say_posting(self) -> None:
        self._say(self.state.begun)
        answer = self._hear()
        kind, *words = answer.split()
        if kind == "refused" and words[0] == "Unknown":
            raise Unknown(int(words[2]))
        if kind not in ("posted", "refused", "wrong") or words[0] in ("Device", "Faulted", "Changed"):
            # its device failed, or it closes
            raise self._break(NoOffice(f"{self.folder}: {answer}; the next office is told {self.state.begun!r} again"))
        if kind != "wrong" and words[-1] != self.state.begun.rpartition(" ")[2]:
            raise self._break(NoOffice(f"{self.folder}: {answer!r} isn't the answer to {self.state.begun!r}"))
        self.state = dataclasses.replace(self.state, answer=answer)

    # Nothing more is said here.
    def _break(self, error: Exception) -> Exception:
        self._broken = error
        return error

    def _open_still(self) -> None:
        if self._broken is not None:
            raise type(self._broken)(f"{self._broken}; open it anew")
        if self._input is None:
            raise NoOffice(f"{self.folder}: it isn't open: use `with`")

    def _usable(self) -> None:
        self._open_still()
        if self.state.begun and not self.state.answer:
            raise Unsettled(f"{self.folder}: what became of {self.state.begun!r} isn't known")

    def _say(self, line: str) -> None:
        assert self._input is not None
        try:
            os.write(self._input, f"{line}\n".encode("utf-8"))
        except (BrokenPipeError, BlockingIOError) as error:
            raise self._break(NoOffice(f"{self.folder}: nobody reads")) from error

    # The answer to what was said last.
    def _hear(self) -> str:
        line = self._line()
        if line == "wrong no hello":
            raise self._break(NoOffice(f"{self.folder}: its office is another one now"))
        return line

    # The next line that the office says.
    def _line(self) -> str:
        assert self._output is not None
        end = time.monotonic() + self.patience
        while b"\n" not in self._heard:
            left = end - time.monotonic()
            if left <= 0 or not select.select([self._output], [], [], left)[0]:
                raise self._break(TimeOut(f"{self.folder}: no answer within {self.patience} seconds"))
            self._heard += self._piece()
        line, _, self._heard = self._heard.partition(b"\n")
        return line.decode("utf-8", "replace")

    # What is there to read; none if the pipe ended and the next office opened it since.
    def _piece(self) -> bytes:
        assert self._output is not None
        try:
            piece = os.read(self._output, 4096)
        except BlockingIOError:
            return b""
        if not piece:
            raise self._break(NoOffice(f"{self.folder}: the office has ended"))
        return piece


def _number_of(answer: str) -> int:
    return int(answer.split()[1])
