"""Parts of ledgers, whole ones, and those of earlier versions."""
from programs import Said, kept, require_same

OPEN = "open 2 00 10\n"


def deposits(count):
    """A script that posts so many deposits of 100, fifteen in a batch."""
    lines, station = [], 0
    for first in range(0, count, 15):
        lines += [f"post {station} deposit 1 100"] * min(15, count - first)
        lines.append(f"turn {station}")
        station = 1 - station
    return "".join(line + "\n" for line in lines)


def make(programs, name, slots, count):
    """A sound ledger with so many deposits."""
    path = programs.folder / name
    said = programs.script(path, f"format {slots}\n{OPEN}{deposits(count)}", "--sectors", str(39 + 4 * slots))
    require_same((said.status, said.told), (0, ""), "the script that makes a ledger")
    require_same(programs.check(path).status, 0, "the ledger that was made")
    return path


def too_short(slots, found):
    needed = 39 + 4 * slots
    return f"it is too short for its {slots} slots: it has {found} sectors and needs {needed}; it may be a part of a copy"


def a_first_run(programs, _moments):
    """A script makes its file, and the next one finds there what was posted."""
    path = programs.folder / "ledger"
    first = "format 4\nopen 3 000 100\npost 0 deposit 1 500\nturn 0\nbalances\ncrash\nopen 3 111 110\nbalances\n"
    posted = "opened 3 next 0 total 0\nheld 0 1\nturn 0 station 0 Bottom posted 0\nentry 0 ok\naccount 1 500\ntotal 500\n"
    found = "next 1 total 500\naccount 1 500\ntotal 500\n"
    said = programs.script(path, first)
    require_same(said, Said(0, f"formatted 4\n{posted}crashed\nopened 3 {found}", ""), "the first run")
    require_same(path.stat().st_size, 512 * 64, "the length of the file")
    require_same(programs.script(path, "open 2 00 10\nbalances\n"), Said(0, f"opened 2 {found}", ""), "the second run")


def every_prefix(programs, _moments):
    """Whole sectors of the beginning of a ledger: no program opens them or changes them, whatever size is asked for."""
    whole = make(programs, "whole", 4, 30).read_bytes()
    part = programs.folder / "part"
    for found in range(1, 55):
        part.write_bytes(whole[:512 * found])
        for words in ((), ("--sectors", "295"), ("--format", "4"), ("--format", "4", "--sectors", "295")):
            programs.require_refused(part, too_short(4, found), *words)
        for words in ((), ("--sectors", "295")):
            said = programs.script(part, OPEN, *words)
            require_same(said, Said(0, "refused Size\n", ""), f"the console on {found} sectors with {words}")
        require_same(programs.check(part).status, 1, f"the check of {found} sectors")
        require_same(kept(part), whole[:512 * found], f"{found} sectors of a ledger")


def a_ledger_of_600_deposits(programs, _moments):
    """A ledger of 64 slots that a broken copy leaves 60 sectors of."""
    path = make(programs, "ledger", 64, 600)
    require_same(programs.open_office(path).printed.splitlines()[0], "opened 2 next 40 total 60000", "the whole ledger")
    whole = path.read_bytes()
    path.write_bytes(whole[:512 * 60])
    for words in ((), ("--sectors", "295"), ("--sectors", "64")):
        programs.require_refused(path, too_short(64, 60), *words)
    require_same(kept(path), whole[:512 * 60], "the part of a ledger")


def a_whole_ledger_grows(programs, _moments):
    """A whole ledger keeps its length, or gets the sectors that are asked for."""
    path = make(programs, "ledger", 4, 30)
    before = path.read_bytes()
    for words, sectors in ((), 55), (("--sectors", "54"), 55), (("--sectors", "70"), 70), ((), 70):
        said = programs.open_office(path, *words)
        begin = (said.status, said.told, said.printed.splitlines()[0])
        require_same(begin, (0, "", "opened 2 next 2 total 3000"), f"the office with {words}")
        require_same(path.read_bytes(), before.ljust(512 * sectors, b"\0"), f"the ledger behind the office with {words}")
    programs.require_refused(path, "it holds a ledger already, which stays as it is", "--format", "4")


def earlier_versions(programs, _moments):
    """Ledgers of layout 1 and 2, and of one that nobody knows, keep their bytes and their length."""
    for version, sectors in ((1, 9), (2, 11), (4, 55)):
        path = programs.folder / f"layout_{version}"
        path.write_bytes(b"TLDG\0" + bytes([version]) + bytes(9) + b"\4" + bytes(512 * sectors - 16))
        before = path.read_bytes()
        sentence = f"it holds a ledger of version {version}; derbyfig migrate copies one of version 1 or 2 to a new file"
        for words in ((), ("--sectors", "295"), ("--format", "4")):
            programs.require_refused(path, sentence, *words)
        said = programs.script(path, OPEN, "--sectors", "295")
        require_same(said, Said(0, f"refused Version {version}\n", ""), f"the console on layout {version}")
        require_same(kept(path), before, f"a ledger of layout {version}")
    path = programs.folder / "no_slots"
    path.write_bytes(b"TLDG\0\3" + bytes(512 * 55 - 6))
    programs.require_refused(path, "its first sector is damaged, and doesn't tell how many sectors its ledger has")
