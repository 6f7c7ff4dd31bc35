"""Runs of the programs in which each call on one file and on its folder is noted. Chosen calls fail."""
import dataclasses
import errno
import os
import pathlib
import shutil
import subprocess

# How many seconds a run may take.
PATIENCE = 60

SECTOR = 512

# Causes that derbyfig prints behind a path.
FAILS = "the system fails to open, lock, read or write it"
NO_ROOM = "its file system has no room for it; make room, or take another path"
NOT_WRITABLE = "it may not be read and written; its owner can allow that"


class Mismatch(Exception):
    """Something isn't as it has to be."""


def require(holds, told):
    if not holds:
        raise Mismatch(told)


def require_same(found, wanted, of):
    if found != wanted:
        raise Mismatch(f"{of}: {found!r} and not {wanted!r}")


@dataclasses.dataclass(frozen=True)
class Limits:
    """The numbers of the calls that fail, counted from 0, and their error. If `most` isn't 0, a read or a write moves
    only that many bytes."""

    fails: tuple = ()
    error: int = errno.EIO
    most: int = 0


WHOLE = Limits()


def failing_at(*calls, error=errno.EIO, most=0):
    return Limits(calls, error, most)


@dataclasses.dataclass(frozen=True)
class Run:
    """How a run ended, which calls it made, and the number of the open file that each call was made on."""

    status: int
    printed: str
    told: str
    steps: tuple
    numbers: tuple

    def ended(self):
        return self.status, self.printed, self.told


@dataclasses.dataclass
class Programs:
    """The programs, and a file in a folder of their own. If `disk` is a device's number, the programs take the file for
    that block device, and find the system's tables in a folder."""

    console: str
    derbyfig: str
    libraries: pathlib.Path
    folder: pathlib.Path
    path: str = "ledger"
    parent: str = "."
    disk: str = ""
    runs: int = 0

    def at(self, path, parent):
        """From now on the file has this path, and stands in that folder."""
        self.path, self.parent = path, parent

    @property
    def file(self):
        return self.folder / self.path

    @property
    def tables(self):
        return self.folder / "tables"

    def anew(self):
        """Empties the folder."""
        shutil.rmtree(self.folder, ignore_errors=True)
        self.folder.mkdir()

    def holds(self, content):
        """Writes the file, or removes it."""
        if content is None:
            self.file.unlink(missing_ok=True)
        else:
            self.file.write_bytes(content)

    def held(self):
        return self.file.read_bytes() if self.file.exists() else None

    def environment(self, limits):
        told = {"LD_PRELOAD": self.libraries / "steps.so", "STEPS_FILE": self.path, "STEPS_FOLDER": self.parent,
                "STEPS_TOLD": self.libraries / "told", "STEPS_AT": ",".join(map(str, limits.fails)),
                "STEPS_ERROR": limits.error, "STEPS_MOST": limits.most}
        if self.disk:
            told |= {"LD_PRELOAD": f"{self.libraries / 'steps.so'}:{self.libraries / 'disk.so'}",
                     "DISK_NUMBER": self.disk, "DISK": os.path.realpath(self.file), "DISK_TABLES": self.tables}
        return {**os.environ, **{name: str(word) for name, word in told.items()}}

    def run(self, words, limits=WHOLE, said="", closed=()):
        """Runs the program that is the first of these words. Some standard streams may be closed."""
        noted = self.libraries / "told"
        noted.unlink(missing_ok=True)
        self.runs += 1
        begin = (lambda: [os.close(stream) for stream in closed]) if closed else None
        done = subprocess.run(words, input=said, capture_output=True, text=True, timeout=PATIENCE, cwd=self.folder,
                              check=False, env=self.environment(limits), preexec_fn=begin)
        lines = noted.read_text(encoding="ascii").splitlines() if noted.exists() else []
        steps = [line.partition(" ") for line in lines]
        return Run(done.returncode, done.stdout, done.stderr.removesuffix("\n"), tuple(step for _, _, step in steps),
                   tuple(int(number) for number, _, _ in steps))

    def script(self, sectors, limits=WHOLE, said="", more=(), closed=()):
        """Runs a script of the console on the file, which gets at least so many sectors."""
        return self.run([self.console, "--device", self.path, "--sectors", str(sectors), *more], limits, said, closed)

    def run_script(self, sectors, limits=WHOLE, said=""):
        """Runs a script by derbyfig, which prints why a file is refused."""
        return self.run([self.derbyfig, "run", self.path, "--sectors", str(sectors)], limits, said)
