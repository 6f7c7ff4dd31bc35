"""Runs of a program on whose standard streams calls are interrupted, shortened or fail."""
import dataclasses
import errno
import os
import struct
import subprocess

from failing import Failing, require, require_same

# How many seconds a run may take.
PATIENCE = 300

# Of how many calls of a run the sizes are recorded. All calls are counted.
RECORDED = 4_096

INPUT, OUTPUT, ERRORS = 0, 1, 2


@dataclasses.dataclass(frozen=True)
class Stream:
    """What becomes of the calls on a file descriptor: how many are interrupted before each one that isn't, the number
    of the one that fails and its error, and how many bytes a call moves at most."""

    descriptor: int
    pauses: int = 0
    fails: int = 0
    error: int = errno.EIO
    most: int | None = None

    def environment(self, record):
        words = {"STREAM": self.descriptor, "STREAM_PAUSES": self.pauses, "STREAM_FAILS": self.fails,
                 "STREAM_ERROR": self.error, "STREAM_RECORD": record}
        if self.most is not None:
            words["STREAM_MOST"] = self.most
        return {name: str(word) for name, word in words.items()}


@dataclasses.dataclass(frozen=True)
class Run:
    """How a run ended, what it printed and told, how many calls it made on the stream, and how many bytes each of those
    moved that went through."""

    status: int
    printed: bytes
    told: str
    calls: int
    moved: tuple

    def ended(self):
        return self.status, self.printed.decode(), self.told


@dataclasses.dataclass(frozen=True)
class Programs:
    """The two programs, the libraries that are loaded into them, and a folder of the case's own."""

    console: str
    derbyfig: str
    stream: str
    fail: str
    folder: object

    def run(self, script, stream, *words, program=None):
        """A run of the console, or of another program with its first words. The script comes from a file, so that a
        call may give all that it is asked for."""
        given, record = self.folder / "given", self.folder / "record"
        given.write_bytes(script)
        record.write_bytes(bytes(8 * (2 + RECORDED)))
        environment = {**os.environ, "LD_PRELOAD": self.stream, **stream.environment(record)}
        with open(given, "rb") as source:
            done = subprocess.run([*(program or [self.console]), *words], stdin=source, capture_output=True,
                                  timeout=PATIENCE, cwd=self.folder, env=environment, check=False)
        calls, through, *moved = struct.unpack(f"={2 + RECORDED}q", record.read_bytes())
        told = done.stderr.decode().removesuffix("\n")
        return Run(done.returncode, done.stdout, told, calls, tuple(moved[:through]))

    def plain(self, script, *words, program=None):
        """A run whose calls all go through."""
        return self.run(script, Stream(OUTPUT), *words, program=program)

    def derbyfig_said(self, *words, said=""):
        """How a run of derbyfig ends: its status, what it prints, and what it tells."""
        done = subprocess.run([self.derbyfig, *map(str, words)], input=said, capture_output=True, text=True,
                              timeout=PATIENCE, cwd=self.folder, check=False)
        return done.returncode, done.stdout, done.stderr.removesuffix("\n")

    def failing(self):
        """Runs of the console whose calls on a file fail."""
        return Failing(self.console, self.fail, self.folder / "failing")


def require_ended(run, status, printed, told, of):
    """That it ended so, and printed and told just this."""
    require_same(run.ended(), (status, printed, told), of)


def require_prefix(run, whole, of):
    """That a console whose output failed has written the beginning of what it prints otherwise, and tells the fault."""
    require(whole.startswith(run.printed), f"{of}: the whole doesn't begin with what ends so: {run.printed[-60:]!r}")
    require_same((run.status, run.told), (1, "write failed"), of)
