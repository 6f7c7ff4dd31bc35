"""Work of a machine: an office, derbyfig serve, with eight counters that post at once, on banks so small that checkpoints
come all the time. A counter's client is the host, by a port of the machine whose bytes go through the counter's pipes."""
import dataclasses
import os
import pathlib
import select
import time

import kills
import office
from rounds import Mismatch, require

COUNTERS = kills.COUNTERS
PORTS = tuple(f"counter_{number}" for number in range(COUNTERS))
SLOTS = 4

# How many answers are awaited in all.
COUNT = 2_000

# The references of a counter, and those of a run, begin so far behind those of the one before.
APART = 10_000

OPENING = f"open {COUNTERS} {'0' * COUNTERS} 1{'0' * (COUNTERS - 1)}\nbalances\n".encode()

# The pipes of each counter, and what carries a port's bytes through them.
PIPES = "\n".join([
    "for name in %s; do mkdir -p /tmp/$name; mkfifo /tmp/$name/in /tmp/$name/out;" % " ".join(PORTS),
    "( exec 3<> /dev/$name; cat <&3 > /tmp/$name/in & cat /tmp/$name/out >&3 ) & done",
]).replace("\n", " ")


class Port(office.Counter):
    """A counter's pipes, by a port of the machine."""

    def __init__(self, name, port):
        self.folder = pathlib.PurePath(name)
        os.set_blocking(port.fileno(), False)
        self.input = self.output = port.fileno()
        self.heard = b""

    def listen(self):
        """Reads what there is; false where nothing more comes, as of a machine that was killed before it had read all."""
        try:
            return super().listen()
        except ConnectionResetError:
            return False


@dataclasses.dataclass
class Counters:
    """An office that makes its ledger, and is asked until so many answers came."""

    count: int = COUNT
    round: int = 0
    clients: list = dataclasses.field(default_factory=list)

    name = "answers to counters"

    def prepare(self, machine, layout):
        """Nothing: the ledger is made within the work."""

    def ledger(self):
        return f"ledger{self.round or ''}"

    def work(self, machine, layout, preload, note):
        """Lets the clients talk, and notes at each answer whose it is and how many it has by then."""
        ports = [Port(name, machine.ports[name]) for name in PORTS]
        first = self.round * APART * COUNTERS
        self.clients = [kills.Client(number, first + APART * number, port) for number, port in enumerate(ports)]
        machine.ask(PIPES)
        named = " ".join(f"--counter /tmp/{name}" for name in PORTS)
        machine.say(f"{preload}derbyfig serve {layout.path(self.ledger())} --format {SLOTS} --no-hello --counters-file /tmp/counters {named}")
        machine.until(f"opened {COUNTERS} next 0 total 0\n".encode())
        note((0, 0))
        for client in self.clients:
            client.begin()
        self.talk(note)
        self.require_answers()

    def talk(self, note):
        poll = select.poll()
        by_end = {client.counter.output: client for client in self.clients}
        for client in self.clients:
            client.go_on()
            poll.register(client.counter.output, select.POLLIN)
        end = time.monotonic() + office.PATIENCE * 5
        while (came := sum(len(client.heard) for client in self.clients)) < self.count:
            require(time.monotonic() < end, f"{came} of {self.count} answers came")
            for at, _ in poll.poll(1000):
                client = by_end[at]
                if client.go_on():
                    note((client.number, len(client.heard)))
            for client in self.clients:
                if client.rest and client.go_on():
                    note((client.number, len(client.heard)))

    def hear_rest(self, machine, note):
        """What was told before the machine was off."""
        machine.cut()
        for client in self.clients:
            while client.counter.listen():
                pass
            client.heard += client.counter.lines()
            note((client.number, len(client.heard)))
        self.require_answers()

    def require_kept(self, ledgers, told):
        """That each account holds what the first requests of its counter brought, all that were told among them."""
        if not told:
            return None
        said = ledgers.said(self.ledger(), OPENING, by="derbyfig").decode()
        require(said.startswith(f"opened {COUNTERS} next "), f"the ledger isn't opened: {said[:60]!r}")
        lines = [line.split() for line in said.splitlines()]
        held = {int(words[1]): int(words[2]) for words in lines if words[0] == "account"}
        heard = dict(told)
        try:
            for client in self.clients:
                answered = client.heard[:heard.get(client.number, 0)]
                dataclasses.replace(client, counter=None, heard=answered).require_balance(held.pop(client.number + 1, 0))
        except office.Mismatch as fault:
            raise Mismatch(str(fault)) from fault
        require(not held, f"accounts hold something that no counter named: {held}")
        return int(lines[0][3])

    def require_answers(self):
        """That each answer is that of its request."""
        try:
            for client in self.clients:
                client.postings()
        except office.Mismatch as fault:
            raise Mismatch(str(fault)) from fault

    def __getstate__(self):
        """Without the ports, so that processes that replay crashes get the rest."""
        clients = [dataclasses.replace(client, counter=None) for client in self.clients]
        return self.__dict__ | {"clients": clients}
