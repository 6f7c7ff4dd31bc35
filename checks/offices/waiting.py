"""An office that waits, and one at a terminal."""
import os
import pathlib
import pty
import re
import subprocess
import threading

from office import await_until, require, require_same
from talking import HELP, require_closed


def asks_for_nothing(case):
    """Without a request it takes no time, and each request that comes then is answered."""
    clients = case.counters(4)
    with case.formatted(clients, 64) as office:
        office.opened(*clients)
        for client in clients:
            client.ask("deposit 1 1")
        for number in range(3):
            office.await_idle("with nothing to do")
            require_same(clients[2].ask(f"deposit 1 1 {number + 1}")[0].split()[::2], ["posted", str(number + 1)], "a request then")
        require_same(clients[0].ask("close"), ["closing"], "the answer to close")
        office.closed()


def asks_questions_alone(case):
    """An office that is only asked questions takes no turn."""
    one, other = clients = case.counters(2)
    with case.formatted(clients, 64) as office:
        office.opened(*clients)
        for number in range(20):
            require_same(one.ask(f"balance {number + 1}"), [f"balance {number + 1} 0"], "a balance")
            require_same(other.ask(f"find {number}"), ["found 0 since 0"], "a reference")
        require_same(one.ask("close"), ["closing"], "the answer to close")
        require_same(office.closed(), [], "what is unanswered")
        require("closed after 0 turns" in office.printed(), f"it prints {office.printed()}")
        require_same((one.hear_rest(), other.hear_rest()), ([], ["closing"]), "what is told last")


def late_threads(case):
    """Where threads begin late, also those of a later span, it goes on, and each request is answered."""
    library = case.folder / "late.so"
    source = pathlib.Path(__file__).with_name("late.c")
    subprocess.run(["cc", "-O1", "-Wall", "-shared", "-fPIC", "-o", library, source, "-ldl"], check=True)
    client, = case.counters(1)
    with case.formatted([client], 64, env={**os.environ, "LD_PRELOAD": str(library)}) as office:
        office.opened(client)
        require_same(client.ask("deposit 1 5"), ["posted 0 0"], "a deposit of the first span")
        standing = client.ask("status")[0]
        require(standing.startswith("office next 1 free 63 "), f"it stands as {standing}")
        require_same(client.ask("deposit 1 6"), ["posted 1 0"], "a deposit of a later span")
        require_same(client.ask("close"), ["closing"], "the answer to close")
        require_same(office.closed(), [], "what is unanswered")


class Typist:
    """Someone at a terminal."""

    def __init__(self, case, *words):
        self.master, slave = pty.openpty()
        self.seen = b""
        self.office = case.run(str(case.device), *words, stdin=slave, stdout=slave)
        os.close(slave)
        threading.Thread(target=self.look, daemon=True).start()

    def look(self):
        """Reads what is shown, until the other end is closed."""
        try:
            while piece := os.read(self.master, 4096):
                self.seen += piece
        except OSError:  # what a terminal answers then
            pass

    def shown(self):
        return self.seen.decode().replace("\r\n", "\n")

    def await_shown(self, text):
        """Waits until what is shown ends so."""
        await_until(lambda: self.shown().endswith(text), lambda: f"{self.shown()!r} is shown, without {text!r}")

    def type(self, said, text):
        os.write(self.master, said)
        self.await_shown(text)


def at_a_terminal(case):
    """A session at a terminal beside a counter: prompts, answers, help, and the end of input."""
    client, = case.counters(1)
    words = ("--counter", str(client.folder), "--terminal", "--format", "4")
    typist = Typist(case, *words)
    with typist.office as office:
        typist.await_shown("office> ")
        require("formatted 4\nopened 2 next 0 total 0\n" in typist.shown(), f"the beginning is {typist.shown()!r}")
        typist.type(b"deposit 1 5\n", "deposit 1 5\nposted 0 0\noffice> ")
        client.come()
        require_same(client.ask("balance 1"), ["balance 1 5"], "the counter beside the terminal")
        typist.type(b"chart\n", "chart\nwrong unknown command\noffice> ")
        typist.type(b"balance 1\n", "balance 1\nbalance 1 5\noffice> ")
        typist.type(b"help\n", ".\noffice> ")
        told = typist.shown().rpartition("help\n")[2].splitlines()[:-1]
        require_same([line.split()[0] for line in told], HELP, "help")
        os.write(typist.master, b"\4")
        require_same((office.status(), office.told()), (0, []), "the end")
    await_until(lambda: "privileges" in typist.shown(), lambda: f"the end is {typist.shown()[-200:]!r}")
    require(re.search(r"closed after \d+ turns\nbits [01]{2}/[01]{2} privileges \d+\n$", typist.shown()),
            f"the end is {typist.shown()[-200:]!r}")
    os.close(typist.master)
    require_same([(row.station, row.reference) for row in case.rows()], [(1, 0)], "the records in the file")


def input_that_ends(case):
    """Lines on standard input without a terminal: the end of input closes the office, once all before it is answered."""
    client, = case.counters(1)
    said = b"".join(b"deposit 1 1 %d\n" % (number + 1) for number in range(500)) + b"balance 1"
    (case.folder / "said").write_bytes(said)
    with open(case.folder / "said", "rb") as source:
        with case.formatted([client], 500, "--terminal", stdin=source) as office:
            require_same(office.closed(), [], "what is unanswered")
            require_closed(office, 2, 34)
            told = office.printed()
    references = [int(line.split()[2]) for line in told if line.startswith("posted ")]
    require_same(references, list(range(1, 501)), "what standard output tells")
    require("balance 1 500" in told, "the last line isn't answered")
    require_same([row.reference for row in case.rows()], references, "the references in the file")
