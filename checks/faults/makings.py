"""What is made while calls fail: ledgers, copies and archives. A command tells that it is done only if it is, nothing else
changes, and the same command does it once nothing fails."""
import dataclasses
import errno

from failing import Fault, contents, path_of, require, require_same
from ledgers import first_layout, make

# What fails once while something is made: each call of a kind in turn. Of growing, what would undo it fails too.
FAULTS = (Fault("write", error=errno.ENOSPC), Fault("sync"), Fault("grow", error=errno.ENOSPC), Fault("rename"),
          Fault("grow", error=errno.ENOSPC, count=2), Fault("remove", error=errno.EACCES))

# What a file system answers that has no room for a file, or for one so long.
NO_ROOM = (errno.ENOSPC, errno.EFBIG, errno.EDQUOT)

UNFINISHED = "it holds an unfinished ledger, or another program's file; --overwrite takes it"
LEDGER = "it holds a ledger already, which stays as it is"


@dataclasses.dataclass(frozen=True)
class Making:
    """A command, the lines that it may print once it is done, and the folder in which it makes something. `TARGET` stands
    for the path of that folder."""

    words: tuple
    done: tuple
    target: str = "new"

    def __str__(self):
        return " ".join(self.words)


FORMAT = Making(("format", "TARGET/ledger", "--slots", "1"), ("formatted 1\n",))
COPY = Making(("copy", "old", "TARGET/ledger", "--slots", "1"), ("copied 1\n",))
MIGRATE = Making(("migrate", "older", "TARGET/ledger", "--slots", "1"), ("migrated 1\n",))
RESTORE = Making(("restore", "books", "TARGET/ledger", "--slots", "1"), ("restored 1\n",))
ARCHIVE = Making(("archive", "old", "TARGET"), ("archived 1 from 2\n", "archived 0 from 3\n"), target="books")


def prepare(failing):
    """A ledger and its counters, an older one, an archive that lacks the ledger's last batch, and an empty folder."""
    failing.anew()
    make(failing, "old", 2, 2)
    failing.done("serve", "old", "--terminal", "--counters-anew", said="close\n")
    (failing.folder / "older").write_bytes(first_layout())
    for name in ("new", "books"):
        (failing.folder / name).mkdir()
    failing.done("archive", "old", "books")
    failing.done("serve", "old", "--terminal", said="deposit 5 6\nclose\n")
    failing.keep()


def target_of(failing, making):
    return path_of(failing.folder) / making.target


def words_of(failing, making):
    return [word.replace("TARGET", str(target_of(failing, making))) for word in making.words]


def split(failing, making):
    """What is in the folder in which something is made, and all else."""
    held = contents(failing.folder)
    made = {name: held[name] for name in held if name.startswith(f"{making.target}/")}
    return made, {name: held[name] for name in held if name not in made}


def try_making(failing, making, faults=FAULTS, least=20):
    """Lets each call fail in turn. At least so many are made."""
    failing.anew()
    before, _ = split(failing, making)
    words = words_of(failing, making)
    run = failing.run(words)
    require_same(run.ended(), (0, making.done[0], ""), f"{making}")
    wanted = split(failing, making)
    tried = 0
    for fault in faults:
        for this, run in failing.each(words, fault, target_of(failing, making)):
            of = f"{making}, {this}"
            made, others = split(failing, making)
            require_same(others == wanted[1], True, f"all else behind {of}")
            require_told(failing, making, run, of)
            require_left(making, run, before, made, wanted[0], of)
            if made != before:
                require_repeated(failing, making, before, wanted, of)
            tried += 1
    require(tried >= least, f"{making}: {tried} calls failed, and {least} are made")


def require_told(failing, making, run, of):
    """That it tells in one line that it failed, with the path, prints nothing, and ends with status 3."""
    target = target_of(failing, making)
    is_told = run.told.startswith((f"{target}/", f"{target}: ")) and "\n" not in run.told
    is_told = is_told or run.told == "out of memory"
    require((run.status, run.printed, is_told) == (3, "", True), f"{of}: {run}")


def require_left(making, run, before, made, wanted, of):
    """That what was there is there, and what is new is whole, or its name says that it isn't. A ledger that is formatted stays
    if the counters that lay there can't be removed."""
    ledger = "new/ledger"
    if making.target == "books":
        for name in {*made, *before} - {"books/unfinished", "books/counters.new"}:
            is_whole = made.get(name) in (before.get(name), wanted.get(name))
            require(is_whole, f"{name} behind {of}")
    elif "/ledger.counters: " in run.told and making.words[0] == "format":
        require_same(made.get(ledger) == wanted[ledger], True, f"the ledger behind {of}")
    elif ledger not in before:
        require_same(sorted(made), [], f"what is left behind {of}")
    elif ("grow 1 " in of or "write 1 " in of) and len(before.get(ledger, b"")) < len(wanted[ledger]):
        require_same(made == before, True, f"what couldn't grow, behind {of}")
    require_same(len(made.get(ledger, b"")) % 512, 0, f"a part of a sector behind {of}")


def require_repeated(failing, making, before, wanted, of):
    """That the same command does it once nothing fails. A file that was there is taken with --overwrite, and so is a whole
    ledger whose counters are missing."""
    words = words_of(failing, making)
    run = failing.run(words)
    if run.status == 1 and run.told.endswith((UNFINISHED, LEDGER)):
        may_stay = "new/ledger" in before or split(failing, making)[0].get("new/ledger") == wanted[0]["new/ledger"]
        require(may_stay, f"{making} again, behind {of}: {run}")
        run = failing.run([*words, "--overwrite"])
    require((run.status, run.told) == (0, "") and run.printed in making.done, f"{making} again, behind {of}: {run}")
    require_same(split(failing, making) == wanted, True, f"what {making} makes again, behind {of}")


def of_a_new_ledger(failing):
    """`format`, where nothing is: nothing is left."""
    prepare(failing)
    try_making(failing, FORMAT)


def of_copies(failing):
    """`copy`, `migrate` and `restore`, where nothing is: nothing is left."""
    prepare(failing)
    for making in (COPY, MIGRATE, RESTORE):
        try_making(failing, making)


def over_what_is_there(failing):
    """The same over zeros, which have to grow, and with --overwrite over a ledger."""
    prepare(failing)
    for held, more in ((bytes(512 * 3), ()), ((failing.folder / "old").read_bytes(), ("--overwrite",))):
        (failing.first / "new" / "ledger").write_bytes(held)
        for making, faults in ((FORMAT, FAULTS), (COPY, FAULTS[1:]), (MIGRATE, (Fault("sync"),)), (RESTORE, (Fault("sync"),))):
            try_making(failing, dataclasses.replace(making, words=(*making.words, *more)), faults, 3)


def of_an_archive(failing):
    """`archive`: the files that are there keep their bytes, and a new one is whole once it has its name."""
    prepare(failing)
    try_making(failing, ARCHIVE)


def that_have_no_room(failing):
    """Where a file can't grow, that is what is told of it, whatever is made."""
    prepare(failing)
    told = "its file system has no room for it; make room, or take another path"
    for making in (FORMAT, COPY, MIGRATE, RESTORE, ARCHIVE):
        path = target_of(failing, making) / ("ledger" if making.target == "new" else "unfinished")
        for error in NO_ROOM:
            for kind in ("grow", "write"):
                failing.anew()
                run = failing.run(words_of(failing, making), Fault(kind, error=error), target_of(failing, making))
                require_same(run.ended(), (3, "", f"{path}: {told}"), f"{making}, {kind} with {errno.errorcode[error]}")
                require_same(path.exists(), False, f"the file behind {making}")


def that_cant_be_told(failing):
    """What is done and can't be told ends with status 3."""
    prepare(failing)
    for making in (FORMAT, COPY, MIGRATE, RESTORE, ARCHIVE):
        failing.anew()
        run = failing.run(words_of(failing, making), Fault("print", error=errno.ENOSPC), target_of(failing, making))
        require_same(run.ended(), (3, "", "write failed"), f"{making} at a full output")
        failing.anew()
        require_same(failing.run(words_of(failing, making)).printed, making.done[0], f"{making}")
