"""Files that are made: where, how long, and what is left where that can't be done or is ended in between."""
import os
import resource
import signal
import subprocess
import time

from holdings import FOREIGN, LEDGER
from programs import Said, kept, require_same

MISSING = "there is no such file; derbyfig format makes a ledger there"
NO_ROOM = "its file system has no room for it; make room, or take another path"


def a_mistyped_path(programs, _moments):
    """No file is made of one without --format, nor in a folder that isn't there."""
    for path in (programs.folder / "offise.ledger", programs.folder / "nowhere" / "office.ledger"):
        for words in ((), ("--sectors", "295")):
            programs.require_refused(path, MISSING, *words, status=3)
        require_same(programs.check(path), Said(3, "", f"{path}: there is no such file"), "the check")
    programs.require_refused(path, "there is no such folder; make it first", "--format", "4", status=3)
    require_same(os.listdir(programs.folder), [], "what was made")
    said = programs.open_office(programs.folder / "ledger", "--overwrite")
    require_same(said, Said(2, "", "--overwrite needs --format"), "--overwrite alone")


def by_a_command_of_its_own(programs, _moments):
    """`format` makes a ledger where nothing is, and a script's file is made only if it is said how large it is."""
    path = programs.folder / "book"
    said = programs.run_script(path, "format 4\n")
    require_same(said, Said(3, "", f"{path}: {MISSING}"), "a script on a file that isn't there")
    require_same(kept(path), None, "a mistyped path of a script")
    made = Said(0, "formatted 4\n", "")
    require_same(programs.run_script(path, "format 4\n", "--sectors", "60"), made, "a script that makes its file")
    require_same(path.stat().st_size, 512 * 60, "the length of a script's file")
    before = kept(path)
    said = programs.run(programs.derbyfig, "format", str(path), "--slots", "4")
    require_same(said, Said(1, "", f"{path}: {LEDGER}"), "a ledger that would be formatted again")
    require_same(kept(path) == before, True, "a ledger that isn't formatted again")
    path.unlink()
    require_same(programs.run(programs.derbyfig, "format", str(path), "--slots", "4"), made, "a ledger that is made")
    require_same(path.stat().st_size, 512 * 55, "the length of the ledger that was made")
    require_same(programs.run_script(path, "open 2 00 10\n"), Said(0, "opened 2 next 0 total 0\n", ""), "a script on it")
    said = programs.run(programs.derbyfig, "format", str(path), "--slots", "8", "--overwrite")
    require_same(said, Said(0, "formatted 8\n", ""), "a ledger that is formatted again")


def as_many_sectors_as_needed(programs, _moments):
    """A ledger gets the sectors that it needs, or more that are asked for. A link is followed."""
    for slots, words, sectors in (4, (), 55), (4, ("--sectors", "54"), 55), (4, ("--sectors", "60"), 60), (300, (), 1239):
        path = programs.folder / f"ledger_{slots}_{len(words)}_{sectors}"
        programs.require_formatted(path, slots, sectors, *words)
    link = programs.folder / "link"
    link.symlink_to(programs.folder / "linked")
    programs.require_formatted(link, 4, 55)
    require_same(link.is_symlink(), True, "the link")


def limited():
    """Makes a file longer than 100 sectors fail, as a full disk does."""
    signal.signal(signal.SIGXFSZ, signal.SIG_IGN)
    resource.setrlimit(resource.RLIMIT_FSIZE, (51_200, 51_200))


def without_room(programs, _moments):
    """A new file is removed again, a blank one keeps its length, and so does a whole ledger."""
    path = programs.folder / "ledger"
    programs.require_refused(path, NO_ROOM, "--format", "100", status=3, preexec_fn=limited)
    path.write_bytes(bytes(512))
    programs.require_refused(path, NO_ROOM, "--format", "100", status=3, preexec_fn=limited)
    programs.require_formatted(path, 4, 55)
    programs.require_refused(path, NO_ROOM, "--sectors", "200", status=3, preexec_fn=limited)
    full = programs.folder.parent / "full"
    if os.path.ismount(full):
        programs.require_refused(full / "ledger", NO_ROOM, "--format", "100", status=3)
        programs.require_formatted(full / "ledger", 4, 55)
        programs.require_refused(full / "ledger", NO_ROOM, "--sectors", "200", status=3)


def killed(programs, moments):
    """An office that is killed while it makes a ledger leaves none, a whole one, or what --overwrite takes."""
    path, found = programs.folder / "ledger", set()
    words = (programs.derbyfig, "serve", str(path), "--terminal", "--format", "2000")
    for _ in range(20):
        path.unlink(missing_ok=True)
        with subprocess.Popen(words, stdin=subprocess.PIPE, stdout=subprocess.DEVNULL, stderr=subprocess.DEVNULL) as run:
            time.sleep(moments.uniform(0, 0.1))
            run.kill()
        found.add(require_goes_on(programs, path))
    programs.require_formatted(path, 2000, 8039, "--overwrite")
    # a formatting writes its superblock last
    path.write_bytes(bytes(512) + path.read_bytes()[512:])
    require_same(require_goes_on(programs, path), "unfinished", "a ledger without its superblock")
    print(f"killed while a ledger was made: {', '.join(sorted(found))}")


def require_goes_on(programs, path):
    """That the next start makes the ledger anew, finds it whole, or tells that it is unfinished. Which of these it was."""
    before = kept(path)
    said = programs.open_office(path, "--format", "2000")
    if said.status == 0:
        return "made anew"
    require_same(kept(path), before, "what a killed office left, behind a refusal")
    if said.told == f"{path}: {FOREIGN}":
        programs.require_formatted(path, 2000, 8039, "--overwrite")
        return "unfinished"
    require_same(said, Said(1, "", f"{path}: {LEDGER}"), "the start behind a kill")
    require_same(programs.open_office(path).printed.splitlines()[0], "opened 2 next 0 total 0", "the ledger that is whole")
    return "whole"
