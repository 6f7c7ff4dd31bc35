"""The programs that are given a file, and what they say of it."""
import dataclasses
import os
import pathlib
import subprocess

# How many seconds a run may take.
PATIENCE = 60


class Mismatch(Exception):
    """Something isn't as it has to be."""


def require_same(found, wanted, of):
    if found != wanted:
        raise Mismatch(f"{of}: {found!r} and not {wanted!r}")


@dataclasses.dataclass(frozen=True)
class Said:
    """How a run ended."""

    status: int
    printed: str
    told: str


def kept(path):
    """What a path has: the bytes of a file, nothing, or that it is something else."""
    if not os.path.lexists(path):
        return None
    return path.read_bytes() if path.is_file() else "no file"


@dataclasses.dataclass(frozen=True)
class Programs:
    console: str
    derbyfig: str
    folder: pathlib.Path

    def run(self, *words, said="", **more):
        done = subprocess.run(words, input=said, capture_output=True, text=True, timeout=PATIENCE, cwd=self.folder, **more)
        return Said(done.returncode, done.stdout, done.stderr.removesuffix("\n"))

    def script(self, path, script, *words):
        """A script of the console."""
        return self.run(self.console, "--device", str(path), *words, said=script)

    def run_script(self, path, script, *words):
        """The same by derbyfig."""
        return self.run(self.derbyfig, "run", str(path), *words, said=script)

    def open_office(self, path, *words, said="close\n", **more):
        """An office with a terminal that closes it, whoever posted to the ledger before."""
        return self.run(self.derbyfig, "serve", str(path), "--terminal", "--counters-anew", *words, said=said, **more)

    def check(self, path, **more):
        return self.run(self.derbyfig, "check", str(path), **more)

    def require_refused(self, path, sentence, *words, status=1, **more):
        """That the office is refused with this sentence, and the path keeps what it has."""
        before = kept(path)
        said = self.open_office(path, *words, **more)
        require_same(said, Said(status, "", f"{path}: {sentence}"), f"the office with {words}")
        require_same(kept(path) == before, True, f"{path} as it was before the office with {words}")

    def require_formatted(self, path, slots, length, *words):
        """That the office makes a ledger there, with so many sectors."""
        said = self.open_office(path, "--format", str(slots), *words)
        begin = f"formatted {slots}\nopened 2 next 0 total 0\n"
        require_same((said.status, said.told, said.printed[:len(begin)]), (0, "", begin), f"formatting {path} with {words}")
        require_same(path.stat().st_size, 512 * length, f"the length of {path} that was formatted with {words}")
