"""Stops, an upgrade, starts of the machine, the archive, and a removal."""
from rounds import require
from starts import closed_at, held, is_open, say, shown

# How many postings an office of a few slots gets, one after another.
POSTINGS = 60


def lines_of(system, name):
    """What the programs of an office have told."""
    return system.ask(f"journalctl -o cat -u derbyfig@{name}").splitlines()


def closings(system, name):
    return sum(line.startswith("closed after ") for line in lines_of(system, name))


def a_stop(system):
    """It closes the office."""
    before = closings(system, "book")
    system.ask("systemctl stop derbyfig@book")
    told = closed_at(system, "book")
    require(told.startswith("closed ") and closings(system, "book") == before + 1, f"the office is left as {told}")
    require(shown(system, "book", "Result") == "success", "the stop isn't a success")
    system.ask("systemctl start derbyfig@book")
    return f"the counters' file said {told!r}"


def an_upgrade(system):
    """Offices that were open are closed and opened again, those that weren't stay so."""
    system.ask("echo 'COUNTERS=one' > /etc/derbyfig/idle && systemctl start derbyfig@idle && systemctl stop derbyfig@idle")
    before = (held(system, 1), held(system, 2), closings(system, "book"), shown(system, "book", "MainPID"))
    told = system.ask("apt install ./newer/derbyfig.deb")
    require("Unpacking derbyfig" in told, f"apt tells {told[-500:]}")
    version = system.ask("dpkg-query -W -f '${Version}' derbyfig")
    require(version.endswith("+1"), f"the version is {version}")
    require(is_open(system, "book"), "the office isn't open again")
    require(shown(system, "book", "MainPID") != before[3], "the old program goes on")
    require(closings(system, "book") == before[2] + 1, "the office wasn't closed")
    states = [shown(system, name, "ActiveState") for name in ("idle", "torn", "nosuch")]
    require(states == ["inactive"] * 3, f"the offices that weren't open are {states}")
    require((held(system, 1), held(system, 2)) == before[:2], "the accounts hold something else")
    return f"to {version}: book was closed and is open, with its postings; idle and torn stay closed"


def require_up(system):
    """That the enabled office answers, behind a start of the system."""
    require(is_open(system, "book"), "the enabled office isn't open")
    require(shown(system, "idle", "ActiveState") == "inactive", "an office that isn't enabled is open")


def a_reboot(system):
    """The enabled office is closed, and open behind the start."""
    before, closed = held(system, 1), closings(system, "book")
    system.ask("systemctl start derbyfig@idle")
    system.reboot()
    require_up(system)
    require(held(system, 1) == before and closings(system, "book") == closed + 1, "it wasn't closed, or has other postings")
    return "book was closed, and open behind the start; idle, which isn't enabled, stayed closed"


def an_end_of_all_at_once(system):
    """What was posted just before is there."""
    before = held(system, 1)
    posted = say(system, "book/south", "deposit 1 11 1000")
    system.cut()
    require_up(system)
    require(say(system, "book/south", "deposit 1 11 1000") == posted, "the repetition is answered otherwise")
    require(held(system, 1) == before + 11, "account 1 holds something else")
    return f"book was open behind the start; the repetition was answered {posted[0]!r} as before"


def an_archive(system):
    """Behind many more postings than the ledger has slots the archive has all of them, and both are sound."""
    system.ask("echo 'COUNTERS=\"north south\" SLOTS=4' > /etc/derbyfig/small && systemctl start derbyfig@small")
    numbers = range(1, POSTINGS + 1)
    answers = say(system, "small/north", *(f"deposit 3 {number} {number}" for number in numbers))
    require(answers == [f"posted {number - 1} {number}" for number in numbers], f"the postings are answered {answers}")
    copied, = say(system, "small/south", "copy")
    system.ask("systemctl stop derbyfig@small")
    at, total = "/var/lib/derbyfig/small", POSTINGS * (POSTINGS + 1) // 2
    for place in (f"{at}.books", f"{at}.ledger", f"{at}.books {at}.ledger", f"{at}.copies/{POSTINGS:020}"):
        told = system.ask(f"derbyfig check {place}").splitlines()
        require({f"next {POSTINGS}", f"total {total}"} <= set(told), f"check {place}: {told}")
    listed = system.ask(f"derbyfig journal {at}.books --as csv | grep -c ',deposit,'").strip()
    require((listed, copied) == (str(POSTINGS), f"copied {POSTINGS}"), f"{listed} entries are listed, {copied}")
    files = system.ask(f"ls {at}.books/[0-9]* | wc -l").strip()
    return f"{POSTINGS} postings on banks of 4 slots: {files} files, all sound, and so are the ledger and a copy"


def sums(system):
    return system.ask("cd /var/lib/derbyfig && sha256sum *.ledger *.books/* *.copies/* /etc/derbyfig/*").splitlines()


def a_removal(system):
    """It closes the offices, and leaves what is kept, to a package that is installed again."""
    before, kept = held(system, 1), sums(system)
    for way in ("remove", "purge"):
        system.ask(f"apt-get {way} -y derbyfig && test ! -e /usr/bin/derbyfig")
        told = closed_at(system, "book")
        require(told.startswith("closed "), f"the office is left as {told}")
        require(sums(system) == kept, f"{way} changes a file")
        system.ask("apt install ./derbyfig.deb && systemctl start derbyfig@book")
        require(held(system, 1) == before, "account 1 holds something else")
    return f"remove and purge closed book, and left {len(kept)} files; what was installed again went on with them"


CASES = (a_stop, an_upgrade, a_reboot, an_end_of_all_at_once, an_archive, a_removal)
