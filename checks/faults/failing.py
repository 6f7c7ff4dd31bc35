"""Runs of a program in which a call fails that it makes, and folders that are compared before and behind them."""
import dataclasses
import errno
import os
import pathlib
import shutil
import subprocess
import tempfile

# How many seconds a run may take.
PATIENCE = 120

# More calls of a kind than a run makes.
MOST = 2_000

# The file descriptor on which the library names what fails.
TELLS = 9


class Mismatch(Exception):
    """Something isn't as it has to be."""


def require(holds, told):
    if not holds:
        raise Mismatch(told)


def require_same(found, wanted, of):
    if found != wanted:
        raise Mismatch(f"{of}: {found!r} and not {wanted!r}")


@dataclasses.dataclass(frozen=True)
class Run:
    """What a run printed, what it told on its errors, how it ended, and the file of the call that failed, if it was made."""

    printed: str
    told: str
    status: int
    failed: str

    def ended(self):
        return self.status, self.printed, self.told


@dataclasses.dataclass(frozen=True)
class Fault:
    """Calls that fail: of which kind, the number of the first, how many, and by which error; and what then gets the name of
    the file. Or a change of the file at that byte, before the reading of that number."""

    kind: str
    at: int = 1
    count: int = 1
    error: int = errno.EIO
    changes: int = 0
    cuts: bool = False
    puts: str = ""

    def environment(self, under):
        words = {"FAIL_KIND": self.kind, "FAIL_AT": self.at, "FAIL_COUNT": self.count, "FAIL_ERROR": self.error,
                 "FAIL_UNDER": under, "CHANGE_AT": self.changes, **({"CHANGE_CUTS": "yes"} if self.cuts else {}),
                 **({"FAIL_PUTS": self.puts} if self.puts else {})}
        return {name: str(word) for name, word in words.items()}

    def __str__(self):
        return f"{self.kind} {self.at}{'' if self.count == 1 else ' and all later ones'} with {errno.errorcode[self.error]}"


def contents(folder):
    """The bytes of each file in a folder, and below it."""
    return {str(path.relative_to(folder)): path.read_bytes() for path in sorted(folder.rglob("*")) if path.is_file()}


class Failing:
    """Runs the program in a folder that each run finds as it was first, with the library that fails its calls."""

    def __init__(self, program, library, folder):
        self.program, self.library, self.first = program, library, folder / "first"
        self.folder = folder / "now"
        self.first.mkdir(parents=True)

    def anew(self):
        """The folder as it was first."""
        shutil.rmtree(self.folder, ignore_errors=True)
        shutil.copytree(self.first, self.folder)

    def keep(self):
        """Lets each run find what there is now."""
        shutil.rmtree(self.first)
        shutil.copytree(self.folder, self.first)

    def run(self, words, fault=None, under=None, said=""):
        """A run with the words behind the program's name. Only calls on what is in that folder fail."""
        fails = {"LD_PRELOAD": str(self.library), **fault.environment(under or self.folder)} if fault else {}
        # a file and no pipe, which would be full behind some thousand calls
        with tempfile.TemporaryFile() as failed:
            os.dup2(failed.fileno(), TELLS)
            try:
                started = subprocess.Popen([self.program, *words], stdin=subprocess.PIPE, stdout=subprocess.PIPE,
                                           stderr=subprocess.PIPE, cwd=self.folder, env={**os.environ, **fails}, text=True,
                                           pass_fds=[TELLS])
            finally:
                os.close(TELLS)
            with started:
                try:
                    printed, told = started.communicate(said, timeout=PATIENCE)
                except subprocess.TimeoutExpired:
                    started.kill()
                    raise
            failed.seek(0)
            return Run(printed, told.removesuffix("\n"), started.returncode, failed.read().decode().partition("\n")[0])

    def done(self, *words, said=""):
        """What a run prints that ends well."""
        run = self.run(words, said=said)
        require_same((run.status, run.told), (0, ""), f"{words}")
        return run.printed

    def each(self, words, fault, under=None, said=""):
        """The runs in which the call of that kind fails that is the first, the second, .. until one makes no more."""
        for at in range(fault.at, MOST):
            self.anew()
            this = dataclasses.replace(fault, at=at)
            run = self.run(words, this, under, said)
            if not run.failed:
                return
            yield this, run
        require(False, f"{words}: more than {MOST} calls")


def path_of(folder):
    """A folder by the name that the system has for it, as what is opened there is told."""
    return pathlib.Path(os.path.realpath(folder))
