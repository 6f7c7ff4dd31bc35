"""Counters that keep their stations by their names, and what was posted by no office."""
import shutil
import subprocess

from office import require, require_same
from refusals import require_refused


def named(*counters):
    """The words for counters, each with a name of its own."""
    return [word for name, counter in counters for word in ("--counter", f"{name}={counter.folder}")]


def serve(case, words, **more):
    return case.run(str(case.device), *words, **more)


def close(counter, office):
    require_same(counter.ask("close"), ["closing"], "the answer to close")
    office.closed()


def post_by_script(case, entry, reference):
    """Posts an entry of station 0 by a script, whose line is its reference."""
    lines = ["open 2 00 10", *["#"] * (reference - 2), f"post 0 {entry}", "turn 0"]
    words = [case.program, "run", str(case.device)]
    run = subprocess.run(words, input="\n".join(lines) + "\n", capture_output=True, text=True, check=False)
    require_same((run.returncode, run.stderr), (0, ""), f"the script's end, {run.stdout}")


def kept(case):
    """The lines of the file of the counters."""
    return (case.folder / "device.counters").read_text().splitlines()


def in_any_order(case):
    """A counter keeps its station and its references, in whatever order counters are named, and whoever is left out."""
    north, south, east = case.counters(3)
    with serve(case, ["--format", "100", *named(("north", north), ("south", south))]) as office:
        office.opened(north, south)
        require_same(north.ask("deposit 1 500 71"), ["posted 0 71"], "a posting")
        require_same(south.ask("deposit 2 500 7"), ["posted 1 7"], "a posting of the other one")
        require_same(kept(case)[2:4], ["since 0", "open 0"], "the file of an open office")
        close(north, office)
    require_same(kept(case)[2:], ["since 0", "closed 2", "counter north", "counter south"], "the file of a closed one")
    for order in ([("south", south), ("north", north)], [("east", east), ("north", north)], [("north", north)]):
        with serve(case, named(*order)) as office:
            require_same(office.opened()[0].split()[0], "opened", "the opening")
            require_same(north.ask("deposit 1 500 71"), ["posted 0 71"], "the posting, said again")
            close(north, office)
    require_same(kept(case)[2:], ["since 0", "closed 2", "counter north", "counter south", "counter east"], "all three")
    with serve(case, named(("south", north), ("east", east))) as office:
        require_same(office.opened(east), ["opened 3 next 2 total 1000"], "one that isn't there has its station")
        east.hear_rest()
        require_same(north.ask("deposit 2 500 7"), ["posted 1 7"], "whoever has the name has the references")
        require_same(east.ask("deposit 3 1 1"), ["posted 2 1"], "a new one")
        close(north, office)
    require_same([row.station for row in case.rows()], [0, 1, 2], "the stations of the postings")


def refused_names(case):
    """Names that are none, and the same one twice: wrong words, and nothing is made."""
    one, other = case.counters(2)
    for words, told in (
        (named(("north", one), ("north", other)), "two counters have the same name"),
        (named(("a b", one)), "a counter's name has 1 to 64"),
        (named(("", one)), "a counter's name has 1 to 64"),
        (named(("x" * 65, one)), "a counter's name has 1 to 64"),
        ([*named(("terminal", one)), "--terminal"], "two counters have the same name"),
    ):
        with serve(case, ["--format", "4", *words]) as office:
            require_same(office.status(), 2, f"the status of {words}")
            require(any(told in line for line in office.told()), f"{office.told()} doesn't say: {told}")
    require(not case.device.exists() and not (case.folder / "device.counters").exists(), "something was made")


def anew(case):
    """A file that is missing, or is none, is told, and written anew by a word: what was posted before is no counter's."""
    (north,) = case.counters(1)
    case.formatted_ledger(100)
    post_by_script(case, "deposit 1 500", 71)
    before = case.device.read_bytes()
    with serve(case, named(("north", north))) as office:
        require_refused(office, f"{case.device}.counters: it isn't there, and the ledger has batches", status=1)
    for text, line in (("", 1), ("derbyfig counters 1\nledger 5\nsince 0\n", 4), ("derbyfig counters 1\nledger 5\nsince 0\nopen 1\ncounter a b\n", 5),
                       ("derbyfig counters 1\nledger 5\nsince 0\nopen 1\ncounter a\ncounter a\n", 6)):
        (case.folder / "device.counters").write_text(text)
        with serve(case, named(("north", north))) as office:
            require_refused(office, f"{case.device}.counters: its line {line} ", status=1)
        require_same((case.folder / "device.counters").read_text(), text, "the file behind a refusal")
    require(case.device.read_bytes() == before, "the ledger is changed by a refusal")
    with serve(case, ["--counters-anew", *named(("north", north))]) as office:
        office.opened(north)
        require_same(north.ask("deposit 1 500 71"), ["refused Unknown since 1 71"], "a posting that no office posted")
        require_same(north.ask("first 71"), ["first 71"], "where they go on")
        require_same(north.ask("deposit 1 500 71"), ["posted 1 71"], "that one")
        close(north, office)


def only_what_offices_posted(case):
    """A script that posts under the same station doesn't make older references known."""
    north, south = case.counters(2)
    with serve(case, ["--format", "2", *named(("north", north), ("south", south))]) as office:
        office.opened(north, south)
        require_same(north.ask("deposit 1 500 71"), ["posted 0 71"], "a posting")
        for number in range(5):
            require_same(south.ask("deposit 2 1"), [f"posted {number + 1} 0"], "a posting of the other one")
        close(north, office)
    post_by_script(case, "deposit 3 1", 13)
    require_same(kept(case)[3], "script", "the file behind a script")
    with serve(case, named(("north", north), ("south", south))) as office:
        office.opened()
        require_same(north.ask("deposit 1 500 71"), ["refused Unknown since 7 71"], "the posting, said again")
        require_same(north.ask("balance 1"), ["balance 1 500"], "what stands")
        close(north, office)
    require_same(kept(case)[2:4], ["since 7", "closed 7"], "from where on only offices posted")


def killed_before_a_script(case):
    """The same of an office that was killed."""
    (north,) = case.counters(1)
    with serve(case, ["--format", "100", *named(("north", north))]) as office:
        office.opened(north)
        require_same(north.ask("deposit 1 500 71"), ["posted 0 71"], "a posting")
        office.kill()
    north.leave()
    with serve(case, named(("north", north))) as office:
        office.opened(north)
        require_same(north.ask("deposit 1 500 71"), ["posted 0 71"], "behind a kill")
        office.kill()
    north.leave()
    post_by_script(case, "deposit 3 1", 13)
    with serve(case, named(("north", north))) as office:
        office.opened(north)
        require_same(north.ask("deposit 1 500 71"), ["refused Unknown since 2 71"], "behind a script")
        close(north, office)


def an_older_ledger(case):
    """An older ledger under the same name, put there by hand: what stands in it is no counter's any more."""
    (north,) = case.counters(1)
    with serve(case, ["--format", "100", *named(("north", north))]) as office:
        office.opened(north)
        require_same(north.ask("deposit 1 500 71"), ["posted 0 71"], "a posting")
        close(north, office)
    older = case.folder / "older"
    shutil.copy(case.device, older)
    with serve(case, named(("north", north))) as office:
        office.opened()
        require_same(north.ask("deposit 1 5 72"), ["posted 1 72"], "the next one")
        close(north, office)
    shutil.copy(older, case.device)
    with serve(case, named(("north", north))) as office:
        office.opened()
        require_same(north.ask("deposit 1 5 72"), ["refused Unknown since 1 72"], "what the older one never had")
        close(north, office)


def taken_along(case):
    """A copy and a restored ledger have the counters of what they were made of."""
    north, south = case.counters(2)
    books = case.folder / "books"
    books.mkdir()
    words = named(("north", north), ("south", south))
    with serve(case, ["--format", "100", "--archive", str(books), *words]) as office:
        office.opened(north, south)
        require_same(south.ask("deposit 1 500 71"), ["posted 0 71"], "a posting")
        close(north, office)
    older = case.folder / "device.counters"
    require_same((books / "counters").read_text().splitlines()[4:], older.read_text().splitlines()[4:], "the archive's counters")
    for command, source in (("copy", case.device), ("restore", books)):
        made = case.folder / command
        subprocess.run([case.program, command, source, made, "--slots", "100"], check=True, capture_output=True)
        with case.run(str(made), *named(("south", south), ("north", north)), kept_as=command) as office:
            office.opened()
            south.hear_rest()
            require_same(south.ask("deposit 1 500 71"), ["refused Unknown since 1 71"], f"the posting, in what {command} made")
            require_same([south.ask("first 72"), south.ask("deposit 1 500 72")], [["first 72"], ["posted 1 72"]], "the next one")
            close(north, office)
        require_same([row.station for row in case.rows(made)], [1], f"the station in what {command} made")
        require_same(made.with_name(f"{command}.counters").read_text().splitlines()[4:], ["counter north", "counter south"],
                     f"the counters of what {command} made")


def loses_its_name(case):
    """An office whose ledger or archive isn't at its path any more ends, and says so; what was answered stands in what it had."""
    books, aside = case.folder / "books", case.folder / "aside"
    for path in (case.device, books):
        books.mkdir()
        (one,) = case.counters(1)
        with case.formatted([one], 100, "--archive", str(books)) as office:
            office.opened(one)
            require_same(one.ask("deposit 1 5"), ["posted 0 0"], "a posting")
            path.rename(aside)
            one.say(b"archive\n")
            require_same(office.status(), 3, f"the end, {office.all_said()}")
            require(office.told()[0].startswith(f"{path}: it isn't there any more"), f"{office.told()} is told")
        aside.rename(path)
        require_same(case.balances(), {1: 5}, "what stands")
        one.leave()
        for left in (one.folder, books):
            shutil.rmtree(left)
        case.device.unlink()
