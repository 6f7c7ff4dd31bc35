"""What isn't erased: a file that can't be read to its end, and what has the name of a new file when that is taken back."""
import dataclasses
import errno
import os

from failing import Fault, require, require_same
from makings import COPY, FORMAT, MIGRATE, RESTORE, prepare, target_of, words_of

MAKINGS = (FORMAT, COPY, MIGRATE, RESTORE, dataclasses.replace(
    FORMAT, words=("serve", "TARGET/ledger", "--terminal", "--format", "1", "--counters-anew")))

# Sectors of a file without anything. Its first one is read, and then it is looked at in pieces of 256.
SECTORS = 900
READINGS = 1 + 4

FAILS = "the system fails to open, lock, read or write it"


def of_a_file_that_cant_be_read(failing):
    """Nothing is made of a file of which a piece can't be read, at its beginning, in the middle or at its end."""
    prepare(failing)
    (failing.first / "new" / "ledger").write_bytes(bytes(512 * SECTORS))
    for making in MAKINGS:
        path = target_of(failing, making) / "ledger"
        for at in range(1, READINGS + 1):
            failing.anew()
            run = failing.run(words_of(failing, making), Fault("read", at=at), path, "close\n")
            of = f"{making}, reading {at}"
            require_same(run.ended(), (3, "", f"{path}: {FAILS}"), of)
            require_same(path.read_bytes() == bytes(512 * SECTORS), True, f"the file behind {of}")


def others(folder):
    """By what a file is replaced: how that is made, and what it then has."""
    other = folder / "other"

    def write():
        other.write_bytes(b"a letter" * 64)

    def link():
        other.symlink_to(folder / "old")

    return ((write, lambda path: path.is_file() and path.read_bytes() == b"a letter" * 64),
            (other.mkdir, lambda path: path.is_dir()),
            (link, lambda path: path.is_symlink() and os.readlink(path) == str(folder / "old")))


def of_what_has_the_name_by_then(failing):
    """A new file that can't be made is taken back, but not another one, a folder or a link that has its name by then."""
    prepare(failing)
    for making in MAKINGS:
        for fault in (Fault("grow", error=errno.ENOSPC), Fault("write"), Fault("write", at=9)):
            for make, is_there in others(failing.folder):
                failing.anew()
                make()
                puts = dataclasses.replace(fault, puts=str(failing.folder / "other"))
                run = failing.run(words_of(failing, making), puts, target_of(failing, making), "close\n")
                of = f"{making}, {fault}, {make.__name__}"
                require((run.status, run.failed != "") == (3, True), f"{of}: {run}")
                require(is_there(target_of(failing, making) / "ledger"), f"{of}: what has the name is gone")
