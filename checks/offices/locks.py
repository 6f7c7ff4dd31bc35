"""Two programs at one ledger or one archive: whoever comes second is refused, or reads without a promise."""
import dataclasses
import fcntl
import os
import subprocess

from earlier import derbyfig, forget
from office import require, require_same

# What a ledger is told to be that another program has, an archive that is added to, and a ledger whose file system has no
# locks.
TAKEN = "another program has it; end that one first"
ADDED_TO = "another program adds to this archive; wait until it has ended"
NO_LOCKS = "the system fails to open, lock, read or write it"


@dataclasses.dataclass
class Held:
    """What commands are run on: a ledger, its archive, another ledger, an older one, and a path without anything."""

    case: object
    device: object
    books: object
    other: object
    new: object

    def run(self, *words, before=()):
        """How a command ends: its status, what it prints, and what it tells."""
        run = subprocess.run([*before, self.case.program, *map(str, words)], input="", capture_output=True, text=True, check=False)
        return run.returncode, run.stdout, run.stderr

    def everything(self):
        """The bytes of all that is there."""
        files = [path for path in (self.device, self.other, *sorted(self.books.iterdir())) if path.is_file()]
        return {path: path.read_bytes() for path in files}, self.new.exists()


def writing(held):
    """The commands that would write to the ledger, or have to find it at rest."""
    device, books, other, new = held.device, held.books, held.other, held.new
    slots = ("--slots", "4")
    return (
        ("run", device), ("run", device, "--sectors", "99"), ("serve", device, "--terminal"),
        ("serve", device, "--terminal", "--format", "4", "--overwrite"), ("format", device, *slots),
        ("format", device, *slots, "--overwrite"), ("copy", device, new, *slots), ("copy", other, device, *slots, "--overwrite"),
        ("migrate", device, new, *slots), ("archive", device, books),
    )


def restoring(held):
    """The command that would write over it what its archive has."""
    return ("restore", held.books, held.device, "--slots", "4", "--overwrite")


def reading(held):
    """The commands that read it, and may do so without its lock."""
    device, books = held.device, held.books
    return tuple((command, *paths) for paths in ((device,), (books, device)) for command in ("check", "journal", "balances")) + (
        ("map", device), ("journal", device, "--as", "hledger"), ("balances", device, "--as", "json"))


def made(case, client):
    """A ledger with an archive and another ledger, each with postings."""
    held = Held(case, case.device, case.folder / "books", case.folder / "other", case.folder / "new")
    held.books.mkdir()
    with case.formatted([client], 8) as office:
        office.opened(client)
        require_same([client.ask("deposit 1 5"), client.ask("seal 2")], [["posted 0 0"], ["posted 1 0"]], "two postings")
        require_same(client.ask("close"), ["closing"], "the answer to close")
        office.closed()
    forget(client)
    derbyfig(case, "archive", held.device, held.books)
    derbyfig(case, "copy", held.device, held.other, "--slots", "3")
    return held


def require_refused(held, commands, path, told, before=()):
    """That each of these ends with status 3 and says so of that path, and nothing is changed or printed."""
    for words in commands:
        kept = held.everything()
        status, printed, said = held.run(*words, before=before)
        require_same((status, printed), (3, ""), f"{words}: {said!r}")
        require(said.startswith(f"{path}: {told}") or (words[0] == "run" and said == "device failed\n"), f"{words} tells {said!r}")
        require_same(held.everything() == kept, True, f"{words} leaves all as it was")


def beside_an_open_office(case):
    """Every command at a ledger that an office has: refused, or read without its lock if that is said, and told so."""
    client, = case.counters(1)
    held = made(case, client)
    with case.office([client], "--archive", str(held.books)) as office:
        office.opened(client)
        require_refused(held, writing(held) + reading(held), held.device, TAKEN)
        require_refused(held, (restoring(held),), held.books, ADDED_TO)
        for words in reading(held):
            status, printed, said = held.run(*words, "--unlocked")
            paths = [path for path in words[1:] if path in (held.books, held.device)]
            told = "".join(f"{path}: it isn't locked, so what is printed may be torn\n" for path in paths)
            require_same((status, said), (0, told), f"{words} unlocked")
            require(printed, f"{words} unlocked prints nothing")
        # its archive is read beside it, and added to by nobody else
        require_same(held.run("check", held.books)[::2], (0, ""), "the check of the archive")
        require_same(held.run("archive", held.other, held.books)[0], 3, "another ledger's archiving")
        second = held.run("serve", held.other, "--terminal", "--archive", held.books)
        require_same(second[:2], (3, ""), f"another office's archive: {second[2]}")
        require_same(client.ask("deposit 1 5"), ["posted 2 0"], "a posting behind all that")
        require_same(client.ask("close"), ["closing"], "the answer to close")
        office.closed()
    require_same(held.run("check", held.books, held.device)[::2], (0, ""), "the book at the end")


def beside_who_adds_to_an_archive(case):
    """While another program adds to an archive nothing else is added, and no office opens."""
    client, = case.counters(1)
    held = made(case, client)
    folder = os.open(held.books, os.O_RDONLY)
    try:
        fcntl.flock(folder, fcntl.LOCK_EX)
        commands = (("archive", held.device, held.books), ("serve", held.device, "--terminal", "--archive", held.books))
        require_refused(held, commands, held.books, ADDED_TO)
    finally:
        os.close(folder)


def without_locks(case):
    """On a file system whose locks fail nothing is written, nor read that would be promised to be whole."""
    client, = case.counters(1)
    held = made(case, client)
    trace = str(case.folder / "trace")
    at = ("strace", "-f", "-o", trace, "-P", str(held.device), "-e", "inject=flock:error=ENOLCK")
    require_refused(held, (*writing(held), *reading(held), restoring(held)), held.device, NO_LOCKS, at)
    for words in reading(held):
        status, printed, _ = held.run(*words, "--unlocked", before=at)
        require(status == 0 and printed, f"{words} unlocked, without locks, ends as {status}")
    at = ("strace", "-f", "-o", trace, "-P", str(held.books), "-e", "inject=flock:error=ENOLCK")
    commands = (("archive", held.device, held.books), ("serve", held.device, "--terminal", "--archive", held.books))
    require_refused(held, commands, held.books, "the system fails to open, lock, list, change or sync it", at)
