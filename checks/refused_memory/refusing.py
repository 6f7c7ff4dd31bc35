"""Runs of a program in which one request for memory, or for a thread, is refused."""
import os
import subprocess
from dataclasses import dataclass
from pathlib import Path

# By what else a program could take memory; a refused one would not be counted.
OTHER_REQUESTS = {"calloc", "aligned_alloc", "memalign", "posix_memalign", "valloc", "pvalloc", "reallocarray", "strdup"}

# The file descriptor on which the library says that it refused.
TELLS = 9


@dataclass(frozen=True)
class Run:
    """What a run wrote, how it ended, and whether its request was made, and so refused. One that was cut off has no status."""

    printed: bytes
    told: bytes
    status: int | None
    was_refused: bool


def requests_beside(program):
    """The calls by which a program takes memory, but for `malloc` and `realloc`."""
    listed = subprocess.run(["nm", "-D", "--undefined-only", program], check=True, capture_output=True, text=True)
    names = {line.split()[-1].partition("@")[0] for line in listed.stdout.splitlines()}
    return sorted(names & OTHER_REQUESTS)


class Refuser:
    """Runs programs in a folder, with the library that refuses loaded into them."""

    def __init__(self, folder):
        self.folder = Path(folder)

    def run(self, words, kind, number, given=b"", seconds=120):
        """A run with the request of this number refused, of that kind: `REQUEST` or `THREAD`. 0 refuses none."""
        hears, says = os.pipe()
        os.dup2(says, TELLS)
        os.close(says)
        environment = {**os.environ, "LD_PRELOAD": str(self.folder / "refuse.so"), f"REFUSED_{kind}": str(number)}
        try:
            started = subprocess.Popen(words, stdin=subprocess.PIPE, stdout=subprocess.PIPE, stderr=subprocess.PIPE,
                                       cwd=self.folder, env=environment, pass_fds=[TELLS])
        finally:
            os.close(TELLS)
        with os.fdopen(hears, "rb") as heard, started:
            try:
                printed, told = started.communicate(given, timeout=seconds)
                status = started.returncode
            except subprocess.TimeoutExpired:
                started.kill()
                printed, told = started.communicate()
                status = None
            return Run(printed, told, status, heard.read() != b"")

    def each(self, words, kind, given=b"", seconds=120, before=lambda: None):
        """The runs with each request refused, until one makes no more of them."""
        number = 1
        while True:
            before()
            run = self.run(words, kind, number, given, seconds)
            if not run.was_refused:
                return
            yield number, run
            number += 1
