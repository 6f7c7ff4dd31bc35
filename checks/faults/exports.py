"""What is printed of a ledger while calls fail: a part of it never ends with status 0."""
import errno

from failing import Fault, path_of, require, require_same
from ledgers import make

FORMATS = ("table", "csv", "json", "hledger")
DATE = ("--date", "2026-11-25")

# A ledger that is read in several pieces, and printed in several.
SLOTS, BATCHES, ENTRIES = 70, 120, 12

# From a call on all fail.
ALL = 1_000_000

# What is told of a ledger that can't be read.
UNREAD = ("it can't be read", "it changed while it was read", "the device failed",
          "the system fails to open, lock, read or write it")


def journals(path, formats=FORMATS):
    return [("journal", path, "--as", form, *DATE) for form in formats]


def balances(path, formats=FORMATS):
    return [("balances", path, "--as", form, *DATE) for form in formats]


def prepare(failing, slots=SLOTS, batches=BATCHES, entries=ENTRIES):
    """The paths of a ledger, and of an archive of it."""
    failing.anew()
    make(failing, "ledger", slots, batches, entries)
    (failing.folder / "books").mkdir()
    failing.done("archive", "ledger", "books")
    failing.keep()
    return [str(path_of(failing.folder) / name) for name in ("ledger", "books")]


def require_begun(run, whole, told, of):
    """That it ends with status 3, tells one of these in a line, and has printed nothing but what the whole begins with."""
    require(run.status == 3 and run.told.endswith(told) and "\n" not in run.told, f"{of}: {run.status}, {run.told!r}")
    require(whole.startswith(run.printed), f"{of}: prints {run.printed[:80]!r} ..")


def each_part(failing, words, fault, told, least):
    """Lets an export fail from each call of a kind on, of which it makes so many at least."""
    whole, tried = failing.done(*words), 0
    for this, run in failing.each(words, fault, path_of(failing.folder)):
        require_begun(run, whole, told, f"{words[:4]}, {this}")
        require(run.printed != whole, f"{words[:4]}, {this}: prints the whole")
        tried += 1
    require(tried >= least, f"{words}: {tried} calls failed, and {least} are made")


def require_whole_or(run, whole, told, of):
    """That all is printed, or a part and why."""
    if run.status == 0:
        require_same((run.printed == whole, run.told), (True, ""), f"{of}: the whole, where the status is 0")
    else:
        require_begun(run, whole, told, of)


def that_cant_be_read(failing):
    """From each reading on none succeeds, of a ledger and of an archive; or one alone fails, which may be read again."""
    ledger, books = prepare(failing)
    for words in (*journals(ledger), *balances(ledger), ("check", ledger), ("map", ledger), *journals(books, ("csv", "json")),
                  ("balances", books, "--at", "100"), ("check", books, ledger)):
        each_part(failing, words, Fault("read", count=ALL), UNREAD, 2)
    for words in journals(ledger, ("csv", "json")):
        whole = failing.done(*words)
        for this, run in failing.each(words, Fault("read"), path_of(failing.folder)):
            require_whole_or(run, whole, UNREAD, f"{words[:4]}, {this}")


def at_a_full_output(failing):
    """The output is full from each writing on, or at one alone, so that what comes behind it would hide the gap."""
    ledger, books = prepare(failing)
    once = Fault("print", error=errno.ENOSPC)
    for words in journals(ledger):
        whole = failing.done(*words)
        for this, run in failing.each(words, once, path_of(failing.folder)):
            require_begun(run, whole, ("write failed",), f"{words[:4]}, {this}")
    full = Fault("print", error=errno.ENOSPC, count=ALL)
    for words in (*journals(ledger), *journals(books, ("table", "csv"))):
        each_part(failing, words, full, ("write failed",), 2)
    for words in (*balances(ledger), ("check", ledger), ("map", ledger), ("check", books)):
        each_part(failing, words, full, ("write failed",), 1)


def of_what_changes(failing):
    """Before each reading in turn the ledger is cut, or a record becomes none. What was read before is printed; else it is
    told why not, with status 3, or with status 1 where it is found unsound."""
    ledger, books = prepare(failing)
    record = 512 * (20 + 2 * SLOTS + 19 + 2 * 5)
    for fault in (Fault("change", changes=record, cuts=True), Fault("change", changes=record)):
        for words in (*journals(ledger), *balances(ledger, ("csv",)), *journals(books, ("csv",))):
            whole, found = failing.done(*words), set()
            for this, run in failing.each(words, fault, words[1]):
                found.add(run.status)
                of = f"{words[:4]}, {this}, at byte {this.changes}"
                if run.status == 1:
                    require(run.printed == "" and run.told != "" and "\n" not in run.told, f"{of}: {run.told!r}")
                else:
                    require_whole_or(run, whole, UNREAD, of)
            require(found & {1, 3}, f"{words[:4]}, {fault}: no run was cut off")


def without_memory(failing):
    """Each request for memory is refused in turn, from the first opening on."""
    ledger, books = prepare(failing, 2, 3, 2)
    for words in (*journals(ledger), *balances(ledger), ("check", ledger), ("map", ledger), *journals(books, ("csv",))):
        whole = failing.done(*words)
        for this, run in failing.each(words, Fault("memory", error=errno.ENOMEM), path_of(failing.folder)):
            require_whole_or(run, whole, ("out of memory",), f"{words[:4]}, {this}")
