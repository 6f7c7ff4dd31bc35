"""What is made of a ledger or an archive that can't be read, and what is made where no memory is left."""
import dataclasses
import errno

from failing import Fault, path_of, require, require_same
from makings import ARCHIVE, COPY, FORMAT, MIGRATE, RESTORE, prepare, require_left, require_repeated, split, words_of


def try_reading(failing, making, source):
    """Lets no reading of the source succeed, from each one on: nothing is made, and the command can be repeated."""
    failing.anew()
    before, others = split(failing, making)
    path = path_of(failing.folder) / source
    words = [str(path) if word == source else word for word in words_of(failing, making)]
    named = dataclasses.replace(making, words=tuple(words))
    require_same(failing.run(words).ended(), (0, making.done[0], ""), f"{making}")
    wanted, tried = split(failing, making), 0
    for this, run in failing.each(words, Fault("read", count=1_000_000), path):
        of = f"{making}, {this}"
        made, now = split(failing, making)
        require_same(now == others, True, f"all else behind {of}")
        is_told = run.told.startswith(str(path))
        require((run.status, run.printed, is_told, "\n" in run.told) == (3, "", True, False), f"{of}: {run}")
        # an archive gets the counters behind its batches
        if making is not ARCHIVE or ".counters: " not in run.told:
            require_same(made == before, True, f"what is made behind {of}")
        require_repeated(failing, named, before, wanted, of)
        tried += 1
    require(tried >= 1, f"{making}: nothing was read")


def that_cant_be_read(failing):
    """What can't be read isn't copied, and the files of an archive aren't added to."""
    prepare(failing)
    for making, source in ((COPY, "old"), (MIGRATE, "older"), (RESTORE, "books"), (ARCHIVE, "old")):
        try_reading(failing, making, source)


def without_memory(failing):
    """Each request for memory is refused in turn, from the first opening on: it is done without, or nothing is left of it."""
    prepare(failing)
    for making in (FORMAT, COPY, MIGRATE, RESTORE):
        failing.anew()
        words = words_of(failing, making)
        before, _ = split(failing, making)
        require_same(failing.run(words).ended(), (0, making.done[0], ""), f"{making}")
        wanted = split(failing, making)
        for this, run in failing.each(words, Fault("memory", error=errno.ENOMEM), path_of(failing.folder)):
            of = f"{making}, {this}"
            made, others = split(failing, making)
            require_same(others == wanted[1], True, f"all else behind {of}")
            if run.status == 0:
                require_same((run.printed, run.told, made == wanted[0]), (making.done[0], "", True), of)
                continue
            is_told = run.told.endswith("out of memory") and "\n" not in run.told
            require((run.status, run.printed, is_told) == (3, "", True), f"{of}: {run}")
            if made.get("new/ledger") != wanted[0]["new/ledger"]:
                require_left(making, run, before, made, wanted[0], of)
            if made != before:
                require_repeated(failing, making, before, wanted, of)
