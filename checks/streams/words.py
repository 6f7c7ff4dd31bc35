"""The numbers that the words of both programs take: the least and the most of each, and what comes of them."""
import images
from failing import require_same
from images import SECTOR
from ledgers import first_layout
from runs import require_ended

MOST_SECTORS, MOST_SLOTS, MOST_NUMBER = 4_000_039, 1_000_000, 2**64 - 1

# What a console is told each of whose words is well read.
ALONE = "--slots needs --migrate"

# What derbyfig tells once it has read its words, where nothing is.
NO_FOLDER, NO_FILE = "nowhere/ledger: there is no such folder; make it first", "missing: there is no such file"
NO_ARCHIVE = "missing: there is no such folder; make it first"
NO_COUNTER, NO_PIPE = "an office needs a --counter or --terminal", "nowhere/in: it isn't there; mkfifo makes it"

# Words of derbyfig, an option with a number behind them, its least and its most, and what is told of both.
NUMBERS = (
    (("run", "nowhere/ledger"), "--sectors", 1, MOST_SECTORS, NO_FOLDER),
    (("serve", "ledger"), "--sectors", 1, MOST_SECTORS, NO_COUNTER),
    (("serve", "ledger"), "--stations", 2, 64, NO_COUNTER),
    (("serve", "ledger"), "--format", 1, MOST_SLOTS, NO_COUNTER),
    (("close", "nowhere"), "--seconds", 0, 86_400, NO_PIPE),
    (("format", "nowhere/ledger"), "--slots", 1, MOST_SLOTS, NO_FOLDER),
    (("copy", "missing", "new"), "--slots", 1, MOST_SLOTS, NO_FILE),
    (("migrate", "missing", "new"), "--slots", 1, MOST_SLOTS, NO_FILE),
    (("restore", "missing", "new"), "--slots", 1, MOST_SLOTS, NO_ARCHIVE),
    (("journal", "missing"), "--from", 0, MOST_NUMBER, NO_FILE),
    (("journal", "missing"), "--account", 1, 1_024, NO_FILE),
    (("journal", "missing"), "--reference", 0, MOST_NUMBER, NO_FILE),
    (("balances", "missing"), "--at", 0, MOST_NUMBER, NO_FILE),
)


def those_of_derbyfig(programs):
    """The least and the most are read, and one less and one more are wrong words."""
    for words, option, least, most, told in NUMBERS:
        for value in (least, most):
            found = programs.derbyfig_said(*words, f"{option}={value}")
            require_same(found, (2 if told == NO_COUNTER else 3, "", told), f"{words} {option}={value}")
        for value in (least - 1, most + 1):
            found = programs.derbyfig_said(*words, f"{option}={value}")
            begins = found[2].startswith(f"error: invalid value '{value}' for '{option} <")
            require_same((*found[:2], begins), (2, "", True), f"{words} {option}={value}: {found[2]}")
    require_same(sorted(path.name for path in programs.folder.iterdir()), [], "what was made")
    return f"the limits of {len(NUMBERS)} options"


def those_of_the_console(programs):
    """The least and the most are read, and one less and one more are wrong words. A copy may have the least slots; the
    most are too many for its sectors, and so were read as such."""
    for sectors, slots in ((1, 1), (MOST_SECTORS, MOST_SLOTS)):
        run = programs.plain(b"", "--sectors", str(sectors), "--slots", str(slots))
        require_ended(run, 2, "", ALONE, f"{sectors} sectors and {slots} slots")
    for option, most in (("--sectors", MOST_SECTORS), ("--slots", MOST_SLOTS)):
        for value in (0, most + 1):
            run = programs.plain(b"", f"{option}={value}")
            begins = run.told.startswith(f"error: invalid value '{value}' for '{option} <K>'")
            require_same((run.status, run.printed, begins), (2, b"", True), f"{option}={value}: {run.told}")
    (programs.folder / "old").write_bytes(first_layout())
    words = ("--device=new", "--migrate=old", f"--sectors={images.sectors_of(1)}", "--slots")
    run = programs.plain(b"", *words, str(MOST_SLOTS))
    require_ended(run, 1, "", "migrate refused TooSmall", "a copy with the most slots")
    run = programs.plain(b"", *words, "1")
    require_ended(run, 0, "migrated 1\n", "", "a copy with the least slots")
    made = images.made(1, images.Holding(1, {1: 500}, frozenset()))
    require_same((programs.folder / "new").read_bytes() == made, True, "the bytes of a copy with the least slots")
    return "the limits of 2 options, and a copy with the least slots"


def sectors_of_a_file(programs):
    """A script's file gets one sector. A ledger in a file that has all but one of the most sectors gets that one, from
    each command that grows it."""
    new, ledger = programs.folder / "new", programs.folder / "ledger"
    scripts = ((programs.console, "--device"), (programs.derbyfig, "run"))
    for words in scripts:
        run = programs.plain(b"format 1\n", str(new), "--sectors", "1", program=words)
        require_ended(run, 0, "refused TooSmall\n", "", f"a file of one sector, {words[1]}")
        require_same(new.read_bytes(), bytes(SECTOR), f"a file of one sector, {words[1]}")
        new.unlink()
    sound = images.made(4, images.Holding(7, {1: 5}, frozenset()))
    office = (programs.derbyfig, "serve", "--terminal", "--counters-anew")
    for words, said in (*((words, b"open 2 00 10\n") for words in scripts), (office, b"close\n")):
        ledger.write_bytes(sound)
        with open(ledger, "r+b") as file:
            file.truncate(SECTOR * (MOST_SECTORS - 1))
        run = programs.plain(said, str(ledger), "--sectors", str(MOST_SECTORS), program=words)
        is_opened = run.printed.startswith(b"opened 2 next 7 total 5\n")
        require_same((run.status, run.told, is_opened), (0, "", True), f"{words[1]}: {run}")
        require_same(ledger.stat().st_size, SECTOR * MOST_SECTORS, f"the length of a file that {words[1]} grows")
    ledger.unlink()
    return f"1 and {MOST_SECTORS} sectors"


def a_script_in_memory(programs):
    """derbyfig runs a script without a file on 64 sectors, or on as many as are asked for: 6 slots need 63 sectors, one
    slot needs 43."""
    said = "".join(f"format {slots}\n" for slots in range(8, 0, -1))
    for words, most in (((), 6), (("--sectors", "43"), 1), (("--sectors", "42"), 0)):
        printed = [f"formatted {slots}" if slots <= most else "refused TooSmall" for slots in range(8, 0, -1)]
        found = programs.derbyfig_said("run", *words, said=said)
        require_same(found, (0, "\n".join(printed) + "\n", ""), f"a script in memory with {words}")
    require_same(list(programs.folder.iterdir()), [], "what was made")
    return "64 sectors, or as many as are asked for"
