"""Clients that are killed, and whose office is killed, amid postings: none stands twice, and none is lost unseen."""
import os
import pathlib
import random
import signal
import subprocess
import sys
import time

from archives import archived, require_whole
from office import PATIENCE, require, require_same

CLIENTS = pathlib.Path(__file__).parents[2] / "clients"

# Slots of banks that hold all, at least.
ENOUGH = 1_000


def post_all(folder, state, account, told, postings):
    """A client in Python: posts 1, 2, .. to its account, whatever happens, and notes what nobody knows."""
    from derbyfig import Counter, InUse, NoOffice, TimeOut, Unknown
    while True:
        counter = Counter(folder, state, patience=5)
        try:
            with counter:
                while (done := counter.state.reference % 2**32) < int(postings):
                    counter.post(f"deposit {account} {done + 1}")
                return
        except Unknown:
            with open(told, "a", encoding="ascii") as file:
                print(counter.state.begun, file=file)
            counter.forget()
        except (NoOffice, TimeOut, InUse):
            time.sleep(0.01)


def shell_client(folder, state, account):
    """The same in the shell, of a few postings."""
    counter = f"'{CLIENTS / 'counter'}' -t 5 -s '{state}'"
    return ["sh", "-c", f"""
        begun() {{ [ -e '{state}' ] && [ $(( $(head -n 1 '{state}') % 4294967296 )) -ge $1 ]; }}
        ask() {{ {counter} '{folder}' "$@" || {{ [ $? -eq 4 ] && {counter} -f '{folder}'; }} || sleep 0.02; }}
        for amount in 1 2 3 4 5 6 7 8 9; do
            until begun $amount; do ask deposit {account} $amount; done
        done
        until {counter} '{folder}'; do ask; done"""]


class Clients:
    """The processes of all clients, each with a state of its own."""

    def __init__(self, case, counters):
        words = [[sys.executable, __file__, str(counter.folder), str(self.state(case, number)), str(number + 1),
                  str(self.unknown(case, number)), str(case.words.postings)]
                 for number, counter in enumerate(counters[:-1])]
        last = len(counters) - 1
        self.words = [*words, shell_client(counters[last].folder, self.state(case, last), last + 1)]
        self.runs = [None] * len(counters)
        for number in range(len(counters)):
            self.start(number)

    @staticmethod
    def state(case, number):
        return case.folder / f"state_{number}"

    @staticmethod
    def unknown(case, number):
        return case.folder / f"unknown_{number}"

    def start(self, number):
        path = {**os.environ, "PYTHONPATH": str(CLIENTS), "PYTHONDONTWRITEBYTECODE": "1"}
        self.runs[number] = subprocess.Popen(self.words[number], env=path, start_new_session=True,
                                             stdout=subprocess.DEVNULL, stderr=subprocess.DEVNULL)

    def kill(self, number):
        if self.runs[number].poll() is None:
            os.killpg(self.runs[number].pid, signal.SIGKILL)
            self.runs[number].wait()
        self.start(number)

    def end(self):
        """Waits until all have posted what they are to post."""
        for number, run in enumerate(self.runs):
            try:
                require_same(run.wait(PATIENCE * 10), 0, f"the end of client {number}")
            except subprocess.TimeoutExpired as late:
                require(False, f"client {number} never ends: {late}")

    def stop(self):
        """Ends those that go on."""
        for run in self.runs:
            if run.poll() is None:
                os.killpg(run.pid, signal.SIGKILL)
                run.wait()


def retried(case, slots, moments):
    """The amounts that each account was sent, in order, behind all kills."""
    counters = case.counters(case.words.clients)
    books = case.folder / "books"
    books.mkdir()
    case.formatted_ledger(slots)
    clients = Clients(case, counters)
    try:
        retry(case, counters, books, clients, moments)
    finally:
        clients.stop()
    rows = archived(case, books)
    require_whole(rows)
    return [[int(row.amount) for row in rows if row.target == str(number + 1)] for number in range(case.words.clients)]


def retry(case, counters, books, clients, moments):
    """Kills the office and clients again and again, and lets all of them end."""
    for _ in range(case.words.retries):
        with case.office(counters, "--hello", "--archive", str(books)) as office:
            office.opened()
            time.sleep(moments.uniform(0.02, 0.2))
            if moments.random() < 0.5:
                clients.kill(moments.randrange(case.words.clients))
                time.sleep(moments.uniform(0.02, 0.1))
    with case.office(counters, "--hello", "--archive", str(books)) as office:
        office.opened()
        clients.end()
        require_same(case.close(counters[0])[:2], (0, "closed\n"), "the closing")
        office.closed()


def never_twice(case):
    """On banks that hold all that was posted, each posting stands once, in order."""
    clients, postings = case.words.clients, case.words.postings
    wanted = [list(range(1, postings + 1))] * (clients - 1) + [list(range(1, 10))]
    slots = max(ENOUGH, clients * postings)
    require_same(retried(case, slots, random.Random(case.words.seed)), wanted, "what stands")


def unknown_at_most(case):
    """On banks of a few slots none stands twice, and what doesn't stand was told as unknown."""
    found = retried(case, case.words.few, random.Random(case.words.seed + 1))
    for number, amounts in enumerate(found[:-1]):
        require_same(amounts, sorted(set(amounts)), f"what client {number} posted, once and in order")
        told = Clients.unknown(case, number)
        unknown = {int(line.split()[2]) for line in told.read_text().splitlines()} if told.exists() else set()
        missing = set(range(1, case.words.postings + 1)) - set(amounts)
        require(missing <= unknown, f"client {number}: {missing - unknown} are missing, and weren't told as unknown")
    require_same(found[-1], sorted(set(found[-1])), "what the client in the shell posted")


def out_of_sight(case):
    """What others have pushed out of both banks isn't posted again, and references go on where the client says."""
    idle, busy = case.counters(2)
    with case.formatted([idle, busy], 2) as office:
        office.opened(idle, busy)
        require_same(idle.ask("deposit 1 5 7"), ["posted 0 7"], "a posting")
        for number in range(5):
            require_same(busy.ask("deposit 2 1"), [f"posted {number + 1} 0"], "a posting of the other one")
        require_same(idle.ask("deposit 1 5 7"), ["refused Unknown since 2 7"], "the posting, said again")
        require_same(idle.ask("deposit 1 5 8"), ["posted 6 8"], "the next one")
        for number in range(5):
            require_same(busy.ask("deposit 2 1"), [f"posted {number + 7} 0"], "a posting of the other one")
        require_same(idle.ask("close"), ["closing"], "the answer to close")
        office.closed()
    with case.office([idle, busy]) as office:
        require_same(office.opened(), ["opened 2 next 12 total 20"], "the second opening")
        require_same(busy.hear(1), ["closing"], "what the other one was told")
        for reference in (7, 8, 9):
            require_same(idle.ask(f"deposit 1 5 {reference}"), [f"refused Unknown since 8 {reference}"], "any reference")
        require_same(idle.ask("last"), ["last unknown since 8"], "the last one")
        require_same(idle.ask("first 9"), ["first 9"], "where they go on")
        require_same(idle.ask("deposit 1 5 8"), ["refused Unknown since 8 8"], "one below")
        require_same(idle.ask("deposit 1 5 9"), ["posted 12 9"], "that one")
        require_same(idle.ask("deposit 1 5 9"), ["posted 12 9"], "that one, said again")
        require_same(idle.ask("balance 1"), ["balance 1 15"], "what was posted in all")
        require_same(idle.ask("close"), ["closing"], "the answer to close")
        office.closed()


def in_the_archive(case):
    """An office with an archive knows the references that are in neither bank: no client has to say where they go on."""
    idle, busy = case.counters(2)
    books = case.folder / "books"
    books.mkdir()
    with case.formatted([idle, busy], 2, "--archive", str(books)) as office:
        office.opened(idle, busy)
        require_same(idle.ask("deposit 1 5 7"), ["posted 0 7"], "a posting")
        for number in range(8):
            require_same(busy.ask("deposit 2 1"), [f"posted {number + 1} 0"], "a posting of the other one")
        require_same(idle.ask("last"), ["last 7 0"], "the last one")
        require_same(idle.ask("close"), ["closing"], "the answer to close")
        office.closed()
    with case.office([idle, busy], "--archive", str(books)) as office:
        office.opened()
        require_same(busy.hear(1), ["closing"], "what the other one was told")
        require_same(idle.ask("deposit 1 5 8"), ["posted 9 8"], "the next one")
        require_same(idle.ask("deposit 1 5 7"), ["refused Unknown since 6 7"], "the first one, said again")
        require_same(idle.ask("first 8"), ["refused Reference 8"], "where they can't go on")
        require_same(busy.ask("deposit 2 1 1"), ["posted 10 1"], "the first reference of the other one")
        require_same(idle.ask("balance 1"), ["balance 1 10"], "what was posted in all")
        require_same(idle.ask("close"), ["closing"], "the answer to close")
        office.closed()


if __name__ == "__main__":
    post_all(*sys.argv[1:])
