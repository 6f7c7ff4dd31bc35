"""How long `derbyfig close` waits. Its pauses are counted and not slept."""
import contextlib
import fcntl
import os
import struct
import subprocess

from failing import require, require_same
from runs import PATIENCE

# How many seconds are waited for with which words.
SECONDS = (((), 60), (("--seconds", "0"), 0), (("--seconds", "7"), 7), (("--seconds", "61"), 61))


@contextlib.contextmanager
def counter_of_an_office(folder):
    """A counter whose pipe is locked, as by an office that never ends."""
    folder.mkdir()
    for name in ("in", "out"):
        os.mkfifo(folder / name)
    with open(folder / "in", "r+b", buffering=0) as held:
        fcntl.flock(held, fcntl.LOCK_EX)
        yield held


def close(programs, counter, *words):
    """How closing ends, and how many seconds it would have slept."""
    slept = programs.folder / "slept"
    slept.write_bytes(bytes(8))
    environment = {**os.environ, "LD_PRELOAD": programs.stream, "SLEPT": str(slept)}
    done = subprocess.run([programs.derbyfig, "close", counter, *words], capture_output=True, text=True,
                          env=environment, timeout=PATIENCE, check=False)
    return (done.returncode, done.stdout, done.stderr), struct.unpack("=Q", slept.read_bytes())[0] / 1e9


def an_office_may_take_60_seconds(programs):
    """An office that goes on is waited for 60 seconds, or as many as are asked for. Another client at the counter is
    waited for as long."""
    counter = programs.folder / "counter"
    still, taken = f"{counter}: its office is still open\n", f"{counter}: another client has it\n"
    with counter_of_an_office(counter) as held:
        for words, seconds in SECONDS:
            ended, slept = close(programs, counter, *words)
            require_same(ended, (3, "", still), f"closing with {words}")
            require_same(round(slept, 3), seconds, f"seconds of closing with {words}")
            require_same(os.read(held.fileno(), 4_096), b" ?\nhello 0\nclose\n", f"what is said with {words}")
        with open(counter / "lock", "ab") as lock:
            fcntl.flock(lock, fcntl.LOCK_EX)
            for words, seconds in SECONDS:
                ended, slept = close(programs, counter, *words)
                require_same(ended, (1, "", taken), f"closing beside another client with {words}")
                # the last try comes behind them
                require(seconds <= slept < seconds + 0.2, f"{slept} seconds beside another client with {words}")
    return "60 seconds, or 0, 7 and 61 if that is asked for"
