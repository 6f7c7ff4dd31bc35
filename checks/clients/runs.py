"""Runs of the two clients, with the same words."""
import os
import subprocess
import sys
from dataclasses import dataclass
from pathlib import Path

CLIENTS = Path(__file__).parents[2] / "clients"

# The client in Python as a program of one posting; its status is that of the shell's.
PYTHON = """
import sys
from derbyfig import *
folder, state, key, patience, takes_over, *entry = sys.argv[1:]
try:
    with Counter(folder, state, patience=float(patience), takes_over=takes_over == "yes") as counter:
        if entry:
            print("posted", counter.post(" ".join(entry), key), flush=True)
            if counter.repeated:
                print("before", file=sys.stderr)
except Exception as error:
    print(f"{type(error).__name__}: {error}", file=sys.stderr)
    sys.exit({Refused: 1, OtherState: 2, NoOffice: 3, InUse: 3, TimeOut: 3, Unknown: 4, BadState: 5}[type(error)])
"""


@dataclass
class Ran:
    """How a client ended, and what it told."""

    status: int
    printed: str
    told: str


@dataclass
class Client:
    """One of the two, at a counter, with a state."""

    kind: str
    folder: Path
    state: Path
    patience: float = 60

    def words(self, entry, key="", takes_over=False):
        """The command that posts an entry."""
        if self.kind == "shell":
            return ["sh", str(CLIENTS / "counter"), "-s", str(self.state), "-t", str(self.patience), *(["-i", key] if key else []),
                    *(["-f"] if takes_over else []), str(self.folder), *entry.split()]
        return [sys.executable, "-c", PYTHON, str(self.folder), str(self.state), key, str(self.patience),
                "yes" if takes_over else "no", *entry.split()]

    def post(self, entry, key="", takes_over=False, environment=None):
        """Posts it in a process group of its own."""
        ran = subprocess.run(self.words(entry, key, takes_over), capture_output=True, text=True, start_new_session=True,
                             env={**os.environ, "PYTHONPATH": str(CLIENTS), "PYTHONDONTWRITEBYTECODE": "1", **(environment or {})})
        return Ran(ran.returncode, ran.stdout, ran.stderr)

    def begun(self):
        """The posting that its state has begun."""
        lines = self.state.read_text(encoding="utf-8").split("\n") if self.state.exists() else []
        return lines[1] if len(lines) > 1 else ""
