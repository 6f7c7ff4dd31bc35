"""One round: a long script on a file, ended by kill -9 at a moment within it."""
import os
import signal
import subprocess
import time

import batches


class Outside(Exception):
    """The moment wasn't within the run: the program had ended before."""


class Mismatch(Exception):
    """Something isn't as it has to be."""


def require(holds, told):
    if not holds:
        raise Mismatch(told)


def long_script(first, count):
    """A script of so many batches from this number on, and what each turn prints, after the opening's line."""
    said, printed = [b"open 3 000 100\n"], []
    for index in range(count):
        script, answer = batches.turn(index, first + index)
        said.append(script)
        printed.append(answer)
    return b"".join(said), printed


def read_turns(source, turns):
    """Reads until so many turns are printed, and gives what was read."""
    read = b""
    while read.count(b"\nturn ") < turns:
        piece = os.read(source.fileno(), 65536)
        if not piece:
            raise Outside
        read += piece
    return read


def wait(seconds):
    """Waits without sleeping, since a sleep is longer than a turn."""
    end = time.monotonic() + seconds
    while time.monotonic() < end:
        pass


def killed(program, path, script, turns, part):
    """What the program prints where it is killed after so many turns, and a part of a turn's time more."""
    with open(script, "rb") as source:
        run = subprocess.Popen([program, "--device", path], stdin=source, stdout=subprocess.PIPE, bufsize=0)
    with run:
        read = read_turns(run.stdout, 1)
        start = time.monotonic()
        read += read_turns(run.stdout, turns)
        wait(part * (time.monotonic() - start) / turns)
        run.send_signal(signal.SIGKILL)
        read += run.stdout.read()
    if run.returncode != -signal.SIGKILL:
        raise Outside
    return read


def acknowledged(read, first, printed):
    """How many turns were printed in full. What was printed has to be the beginning of what the script comes to."""
    wanted = batches.opened(first)
    require((wanted + b"".join(printed)).startswith(read), "other lines were printed than the script comes to")
    for number, answer in enumerate(printed):
        wanted += answer
        if len(wanted) > len(read):
            return number
    return len(printed)
