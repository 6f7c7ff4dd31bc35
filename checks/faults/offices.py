"""Ledgers, copies and archives that an office makes while calls fail."""
import dataclasses
import errno

from failing import Fault, contents, require, require_same
from makings import FAULTS, Making, prepare, split, target_of, words_of

FORMATTED = Making(("serve", "TARGET/ledger", "--terminal", "--format", "1"), ("formatted 1\n",))
COPIES = Making(("serve", "old", "--terminal", "--copies", "TARGET"), ())
ARCHIVING = Making(("serve", "old", "--terminal", "--archive", "TARGET"), (), target="books")

# What the terminal says: the second copy is the repetition of the first one.
COPIED = "copy\ncopy\nbalance 5\nclose\n"
ARCHIVED = "first 100\ndeposit 6 7 100\narchive\nclose\n"

# The next batch of the ledger that is copied.
NEXT = 3
NAME = f"new/{NEXT:020}"


def answers(run):
    """The answers to what the terminal said, between the lines of the opening and of the end."""
    lines = run.printed.replace("office> ", "").splitlines()
    end = next((at for at, line in enumerate(lines) if line.startswith("closed after ")), len(lines))
    return lines[1:end]


def of_a_new_ledger(failing):
    """A ledger that `serve --format` doesn't tell as formatted isn't there, and the same words make it; one that it tells is
    whole, whatever fails behind that."""
    prepare(failing)
    words, tried = words_of(failing, FORMATTED), 0
    require_begun(failing.run(words, said="close\n"), "the office")
    ledger = split(failing, FORMATTED)[0]["new/ledger"]
    for fault in FAULTS:
        for this, run in failing.each(words, fault, target_of(failing, FORMATTED), "close\n"):
            of = f"a formatting office, {this}, of {run.failed}"
            made, tried = split(failing, FORMATTED)[0], tried + 1
            if run.printed.startswith("formatted 1\n"):
                require_same(made.get("new/ledger") == ledger, True, f"the ledger behind {of}")
                require_begun(failing.run(words[:-2], said="close\n"), f"the office behind {of}", ())
            else:
                is_told = run.told.startswith(f"{target_of(failing, FORMATTED)}/") and "\n" not in run.told
                require((run.status, run.printed, is_told) == (3, "", True), f"{of}: {run}")
                require_same(sorted(made), [], f"what is left behind {of}")
                require_begun(failing.run(words, said="close\n"), f"the office behind {of}")
    require(tried > 20, f"so few calls as {tried}")


def require_begun(run, of, done=FORMATTED.done):
    """That the office was opened and closed, and told first what it had done."""
    printed = "".join((*done, "opened 2 next 0 total 0\n"))
    require_same((run.status, run.told, run.printed[:len(printed)]), (0, "", printed), of)


def of_copies(failing):
    """A counter's copy that fails is told so and nothing is left of it, the office goes on, and the next one is made."""
    prepare(failing)
    words = words_of(failing, COPIES)
    run = failing.run(words, said=COPIED)
    require_same((run.status, answers(run)), (0, [f"copied {NEXT}", "refused Occupied", "balance 5 6", "closing"]), "the office")
    wanted, tried = split(failing, COPIES)[0], 0
    for fault in FAULTS:
        for this, run in failing.each(words, fault, target_of(failing, COPIES), COPIED):
            tried += 1
            require_copied(failing, run, wanted, f"a copy, {this}, of {run.failed}")
    require(tried > 20, f"so few calls as {tried}")


def require_copied(failing, run, wanted, of):
    """That the office isn't opened, and says why, or the first copy is refused and the second one made."""
    made = split(failing, COPIES)[0]
    if run.status == 3:
        words = ("no file can be made in it", "the system fails to open, lock, list, change or sync it")
        require(run.told in {f"{target_of(failing, COPIES)}: {why}" for why in words} and run.printed == "", f"{of}: {run.told}")
        return
    first, second, *rest = answers(run)
    require_same((run.status, run.told, first, rest), (0, "", "refused Unwritten", ["balance 5 6", "closing"]), of)
    require_same(second, f"copied {NEXT}", f"the next copy behind {of}")
    require_same(made == wanted, True, f"what is made behind {of}: {sorted(made)}")


def of_copies_without_memory(failing):
    """Each request for memory is refused in turn from the copy's file on: the copy is made, or refused and not there, and
    made then."""
    prepare(failing)
    words = words_of(failing, COPIES)
    require_same(failing.run(words, said=COPIED).status, 0, "the office")
    wanted = split(failing, COPIES)[0]
    for this, run in failing.each(words, Fault("memory", error=errno.ENOMEM), target_of(failing, COPIES) / "unfinished", COPIED):
        of = f"a copy, {this}"
        made, told = split(failing, COPIES)[0], answers(run)
        if run.status == 3:
            require(run.told == "" or "memory" in run.told or "thread" in run.told, f"{of}: {run}")
            require(made.get(NAME) in (None, wanted[NAME]), f"a part of a copy behind {of}")
            continue
        first, second, *rest = told
        require_same((run.status, run.told, rest), (0, "", ["balance 5 6", "closing"]), f"{of}: {told}")
        # one request is refused: of the first copy, of the second one, or of neither
        refused = ("refused Memory", "refused Unwritten")
        copied = f"copied {NEXT}"
        lawful = ("refused Occupied", *refused) if first == copied else (copied,)
        require(first in (copied, *refused) and second in lawful, f"{of}: {told}")
        require_same(made.get(NAME) == wanted[NAME], True, f"the copy behind {of}: {told}")


def of_an_archive(failing):
    """An office whose archive can't be written ends with status 3 and says why; its files are whole, and what was told as
    posted is archived by the next one."""
    prepare(failing)
    failing.done("archive", "old", "books")
    failing.keep()
    words = words_of(failing, ARCHIVING)
    before = split(failing, ARCHIVING)[0]
    for fault in (Fault("sync"), Fault("grow", error=errno.ENOSPC), Fault("rename"), Fault("write", at=24)):
        for this, run in failing.each(words, fault, target_of(failing, ARCHIVING), ARCHIVED):
            of = f"an office with an archive, {this}, of {run.failed}"
            target = str(target_of(failing, ARCHIVING))
            is_told = run.told.startswith(target) and "\n" not in run.told
            require((run.status, is_told, "archived 4" in run.printed.splitlines()[-1:]) == (3, True, False), f"{of}: {run}")
            made = split(failing, ARCHIVING)[0]
            kept = {name: made.get(name) for name in before if name != "books/counters"}
            require_same(kept == {name: before[name] for name in kept}, True, f"the files of the archive behind {of}")
            require_goes_on(failing, words, "posted" in run.printed, of)


def require_goes_on(failing, words, was_posted, of):
    """That the next office has what was posted, and that its archive has it."""
    run = failing.run(words, said=ARCHIVED)
    first = "refused Reference 100" if was_posted else answers(run)[0]
    told = (0, "", [first, "posted 3 100", "archived 4", "closing"])
    require_same((run.status, run.told, answers(run)), told, f"the office behind {of}")
    listed = failing.done("journal", "books", "old", "--reference", "100", "--as", "csv").splitlines()
    require_same(len([line for line in listed if ",deposit," in line]), 1, f"the posting behind {of}, posted: {was_posted}")
    require("unfinished" not in contents(failing.folder / "books"), f"what is left behind {of}")
