"""Ledgers that grow. A file's first sector is read before its length changes."""
from growths import FOUND, SYNCED
from noted import SECTOR, require_same
from transfers import SECTORS, empty

# How many sectors are asked for.
MORE = 60


def that_grow_once_they_are_looked_at(programs):
    """A whole ledger is grown by an office and by a script, once its first sector was read."""
    programs.holds(empty())
    words = [programs.derbyfig, "serve", programs.path, "--terminal", "--counters-anew", "--sectors", str(MORE)]
    run = programs.run(words, said="close\n")
    require_same((run.status, run.told, run.printed[:9]), (0, "", "opened 2 "), "an office on a ledger that grows")
    grown = (f"length {SECTOR * MORE}", f"write {SECTOR * (MORE - SECTORS)} at {SECTOR * SECTORS}", *SYNCED)
    wanted = (*FOUND, *grown)
    require_same(run.steps[:len(wanted)], wanted, "the steps of an office on a ledger that grows")
    require_same(len(programs.held()), SECTOR * MORE, "the length of a ledger that grew")
    programs.holds(empty())
    require_same(programs.script(MORE).steps, wanted, "the steps of a script on a ledger that grows")


def that_a_script_works_on(programs):
    """A script's file grows if it is a whole ledger, and if it doesn't begin as a ledger does."""
    for before in (empty(), bytes(SECTOR * SECTORS), b"SQLite format 3".ljust(SECTOR * SECTORS, b"\0")):
        for run_it in (programs.script, programs.run_script):
            programs.holds(before)
            require_same(run_it(MORE).ended(), (0, "", ""), f"a script on {before[:15]}")
            require_same(programs.held() == before.ljust(SECTOR * MORE, b"\0"), True, f"what grew of {before[:15]}")
