"""Pictures that can't be drawn to their end: the ledger can't be read, or the output is full."""
import os
import subprocess

from cells import TAIL
from failing import Fault, path_of, require, require_same
from ledgers_written import changed, ledger
from pictures import Place

# Many slots, so that the ledger is read in several pieces.
SLOTS = 300

# The gate of the last slot in bank 1.
GATE = 19 + 2 * SLOTS + 19 + 2 * SLOTS

# A piece of sectors can't be read, nor then the sector alone that is wanted.
BOTH = 2

UNREAD = ("it can't be read", "the device failed")


def at_each_reading(drawing):
    """If a piece can't be read, nor the wanted sector alone, the status is 3, and the picture ends there: some have a
    beginning by then. If only the piece can't be read, the picture is whole."""
    drawing.file.write_bytes(ledger(3, slots=SLOTS))
    drawing.failing.keep()
    words = ("map", str(path_of(drawing.failing.folder) / "ledger"))
    whole, tried, begun = drawing.failing.done(*words), 0, 0
    for this, run in drawing.failing.each(words, Fault("read", count=BOTH), words[1]):
        require(run.status == 3 and run.told.endswith(UNREAD), f"{this}: {run.status}, {run.told!r}")
        require(whole.startswith(run.printed) and "</svg>" not in run.printed, f"{this}: the picture is whole")
        tried, begun = tried + 1, begun + (run.printed != "")
    require(tried >= 6 and begun >= 2, f"{tried} readings of {39 + 4 * SLOTS} sectors, {begun} of a picture that was begun")
    for this, run in drawing.failing.each(words, Fault("read"), words[1]):
        require_same((run.status, run.told, run.printed == whole), (0, "", True), f"{this}, alone")
        tried += 1
    drawing.runs += tried


def map_into(drawing, output):
    """The status of a map that is printed to a file, and what it prints on its errors."""
    drawing.runs += 1
    done = subprocess.run([drawing.failing.program, "map", "ledger"], stdout=output, stderr=subprocess.PIPE, text=True,
                          cwd=drawing.failing.folder, timeout=60, check=False)
    return done.returncode, done.stderr


def at_a_full_output(drawing):
    """A full output is a failure, for a sound ledger and for a damaged one. A pipe that nobody reads isn't."""
    damage = f"ledger: {TAIL} {Place(GATE, 0, bank=1, slot=SLOTS - 1).in_a_line()}\n"
    for changes, told, status in (((), "", 0), (((GATE, 0, 0xa5),), damage, 1)):
        drawing.file.write_bytes(changed(ledger(3, slots=SLOTS), changes))
        with open("/dev/full", "wb") as full:
            require_same(map_into(drawing, full), (3, f"{told}write failed\n"), f"a full output, with {changes}")
        reads, writes = os.pipe()
        os.close(reads)
        with open(writes, "wb") as closed:
            require_same(map_into(drawing, closed), (status, told), f"a closed output, with {changes}")
