"""The counters of a ledger, which whoever copies it takes along."""
import itertools

from copies import second_layout
from parts import make
from programs import require_same

# The calls by which a copy and its counters come to be, which of them a copy is killed at, and which a migration and a
# restored ledger, which go the same way.
CALLS = {"openat": range(1, 20), "write": range(1, 20), "pwrite64": (1, 2, 4, 8, 16, 24, 32), "fsync": range(1, 20),
         "fdatasync": range(1, 20), "rename": range(1, 20)}
FEW = ("fsync", "fdatasync", "rename")

# What is kept of a ledger's counters, and of those of another one.
OWN = "derbyfig counters 1\nledger 42\nsince 0\nclosed 1\ncounter north\ncounter south\n"
OTHERS = "derbyfig counters 1\nledger 7\nsince 0\nclosed 5\ncounter east\n"


def beside(ledger):
    return ledger.with_name(f"{ledger.name}.counters")


def sources(programs):
    """What may be copied, by which command: a ledger, an older one, and an archive, each with counters."""
    ledger, older, books = (programs.folder / name for name in ("ledger", "older", "books"))
    ledger.write_bytes(make(programs, "made", 4, 3).read_bytes())
    beside(ledger).write_text(OWN)
    older.write_bytes(second_layout())
    beside(older).write_text(OWN)
    books.mkdir()
    require_same(programs.run(programs.derbyfig, "archive", str(ledger), str(books)).status, 0, "the archive")
    return {"copy": ledger, "migrate": older, "restore": books}


def words(programs, command, source, new):
    return (programs.derbyfig, command, str(source), str(new), "--slots", "4")


def killed(programs, command, source, new, call, number):
    """Whether a copy is killed that is to be at its call of this kind and number on the new paths."""
    paths = [word for path in (new, beside(new), f"{beside(new)}.new", programs.folder) for word in ("-P", str(path))]
    strace = ("strace", "-f", "-o", str(programs.folder / "trace"), *paths, "-e", f"inject={call}:signal=KILL:when={number}")
    return programs.run(*strace, *words(programs, command, source, new)).status != 0


def before_a_copy_is_a_ledger(programs, _moments):
    """Whenever a copy is killed, there is no ledger at its path, or one with its counters; and it can be made again."""
    new = programs.folder / "new"
    for (command, source), call in itertools.product(sources(programs).items(), CALLS):
        for number in CALLS[call] if command == "copy" or call in FEW else ():
            what = f"{command} that is killed at {call} {number}"
            for path in (new, beside(new)):
                path.unlink(missing_ok=True)
            was_killed = killed(programs, command, source, new, call, number)
            if programs.check(new).status == 0:
                require_same(beside(new).read_text(), OWN, f"the counters behind a {what}")
            if not was_killed:
                break
            again = programs.run(*words(programs, command, source, new), "--overwrite")
            require_same((again.status, beside(new).read_text()), (0, OWN), f"what is made again behind a {what}")


def of_a_refused_copy(programs, _moments):
    """A copy that is refused leaves the counters beside NEW as they are, and one that fails leaves none that it made."""
    new = programs.folder / "new"
    for command, source in sources(programs).items():
        new.write_bytes(b"a letter".ljust(512))
        beside(new).write_text(OTHERS)
        said = programs.run(*words(programs, command, source, new))
        require_same((said.status, beside(new).read_text()), (1, OTHERS), f"{command} onto a letter: {said.told}")
        for path in (new, beside(new)):
            path.unlink()
        beside(new).mkdir()
        said = programs.run(*words(programs, command, source, new))
        require_same((said.status, said.told), (3, f"{beside(new)}: it can't be written"), f"{command} whose counters can't be written")
        require_same(new.exists(), False, f"what {command} made without counters")
        beside(new).rmdir()


def of_nobody(programs, _moments):
    """A copy of a ledger without counters has none, whatever lay there."""
    new = programs.folder / "new"
    for command, source in sources(programs).items():
        (source / "counters" if command == "restore" else beside(source)).unlink()
        beside(new).write_text(OTHERS)
        require_same(programs.run(*words(programs, command, source, new)).status, 0, command)
        require_same(beside(new).exists(), False, f"counters of what {command} made")
        new.unlink()
