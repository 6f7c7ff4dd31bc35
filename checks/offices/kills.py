"""Kills the office at random moments of many postings, and compares what clients were told with what the file holds."""
import dataclasses
import select
import time

from office import PATIENCE, Counter, Row, require, require_same

COUNTERS = 8
POSTINGS = 2_000

# Slots of a bank, so many that all records stay in the journal, and so few that most are before a checkpoint.
SLOTS = 20_000
FEW_SLOTS = 8

# How many requests of a client are under way at most.
UNDER_WAY = 64

# Why a request is refused, or nothing.
REFUSED = {7: "Short", 11: "NoAccount"}


@dataclasses.dataclass
class Client:
    """A counter with an account and a range of references of its own, what it said and what it was told."""

    number: int
    first: int
    counter: Counter
    said: int = 0
    heard: list = dataclasses.field(default_factory=list)
    # the bytes of a request that the pipe didn't take yet
    rest: bytes = b""

    def asked(self, place):
        """The request of this place: its line without the reference, and the row that it becomes."""
        account, amount = 1 + self.number, 1 + place % 97
        reference = self.first + place
        kind = place % 13
        if kind == 7:
            return f"withdraw {account} {10**15}", Row(0, self.number, "withdraw", str(account), "", str(10**15), reference)
        if kind == 11:
            return f"deposit 1025 {amount}", Row(0, self.number, "deposit", "", "1025", str(amount), reference)
        return f"deposit {account} {amount}", Row(0, self.number, "deposit", "", str(account), str(amount), reference)

    def begin(self):
        """Says where its references begin: once early batches are out of sight, nobody knows that there are none."""
        begin = max(1, self.first)
        require_same(self.counter.ask(f"first {begin}"), [f"first {begin}"], f"where counter {self.number} begins")

    def go_on(self):
        """Says what may be under way, and hears what there is. How many answers came."""
        before = len(self.heard)
        if self.counter.listen():
            self.heard += self.counter.lines()
        while self.said < POSTINGS and self.said - len(self.heard) < UNDER_WAY:
            self.rest += f"{self.asked(self.said)[0]} {self.first + self.said}\n".encode()
            self.said += 1
        self.rest = self.rest[self.counter.try_say(self.rest):] if self.rest else b""
        return len(self.heard) - before

    def postings(self):
        """The rows of what was told as posted. Each answer has to be that of its request."""
        told = []
        for place, line in enumerate(self.heard):
            _, row = self.asked(place)
            words = line.split()
            if place % 13 in REFUSED:
                require_same(words, ["refused", REFUSED[place % 13], str(row.reference)], f"counter {self.number}")
                continue
            require_same((words[0], words[2:]), ("posted", [str(row.reference)]), f"counter {self.number}, {line!r}")
            told.append(dataclasses.replace(row, sequence=int(words[1])))
        return told

    def require_balance(self, held):
        """That its account holds what some of its first requests brought, all that it was told of among them."""
        brought, sums = 0, [0]
        for place in range(self.said):
            brought += int(self.asked(place)[1].amount) if place % 13 not in REFUSED else 0
            sums.append(brought)
        least = sums[len(self.heard)]
        told = f"account {self.number + 1} holds {held}"
        require(held in sums, f"{told}, which no number of the counter's requests brings")
        require(held >= least, f"{told}, and {least} were told of")

    def require_rows(self, rows):
        """That these rows, which are the file's of this counter, hold what was told, and only what was asked, each once."""
        told = self.postings()
        require_same(rows[:len(told)], told, f"the file's records of counter {self.number}, of {len(told)} that were told")
        asked = [self.asked(place)[1] for place in range(self.said) if place % 13 not in REFUSED]
        found = [dataclasses.replace(row, sequence=0) for row in rows]
        require_same(found, asked[:len(found)], f"the file's records of counter {self.number}, beside what was asked")


def talk_until(clients, answers):
    """Lets the clients talk until so many answers came in all."""
    poll = select.poll()
    for client in clients:
        client.go_on()
        poll.register(client.counter.output, select.POLLIN)
    by_end = {client.counter.output: client for client in clients}
    came, end = 0, time.monotonic() + PATIENCE
    while came < answers:
        require(time.monotonic() < end, f"{came} of {answers} answers came")
        for at, _ in poll.poll(1000):
            came += by_end[at].go_on()
        for client in clients:
            if client.rest:
                came += client.go_on()


def wait(seconds):
    """Waits without sleeping, since a sleep is longer than a turn."""
    end = time.monotonic() + seconds
    while time.monotonic() < end:
        pass


def one_kill(case, first, moments, slots):
    """Kills an office that writes a new file, and opens it again. How many were told as posted."""
    counters = case.counters(COUNTERS)
    clients = [Client(number, first + 10_000 * number, counter) for number, counter in enumerate(counters)]
    with case.formatted(counters, slots) as office:
        office.opened(*counters)
        for client in clients:
            client.begin()
        talk_until(clients, moments.randint(1, COUNTERS * (POSTINGS - UNDER_WAY)))
        wait(moments.uniform(0, 0.002))
        require(office.run.poll() is None, f"it has ended as {office.all_said()}")
        office.kill()
    for client in clients:
        client.heard += client.counter.hear_rest()
        client.counter.leave()
    rows, held = case.rows(), case.balances()
    for client in clients:
        client.require_balance(held.pop(client.number + 1, 0))
        if slots == SLOTS:
            client.require_rows([row for row in rows if row.station == client.number])
    require_same(held, {}, "what accounts hold that no client named")
    require_same({row.station for row in rows} - set(range(COUNTERS)), set(), "stations of no counter")
    require_goes_on(case, counters, first + 100_000)
    return sum(len(client.postings()) for client in clients)


def require_goes_on(case, counters, reference):
    """That the file opens with what it holds, and takes another posting."""
    rows, held = case.rows(), case.balances()
    with case.office(counters) as office:
        opening, = office.opened(*counters)
        batches = int(opening.split()[3])
        require_same(opening, f"opened 8 next {batches} total {sum(held.values())}", "the opening behind the kill")
        last = counters[-1]
        if rows:
            require_same(batches, rows[-1].sequence + 1, "the number of the next batch")
        if rows:
            wanted = [f"posted {rows[-1].sequence} {rows[-1].reference}", f"found 1 since {rows[0].sequence}"]
            require_same(last.ask(f"find {rows[-1].reference}", 2), wanted, "the last reference before the kill")
            posted = f"posted {rows[0].sequence} {rows[0].reference}"
            require_same(last.ask(f"find {rows[0].reference}", 2)[0], posted, "the first reference in sight")
        require_same(last.ask(f"first {reference}"), [f"first {reference}"], "where its references go on")
        require_same(last.ask(f"deposit 1 1 {reference}"), [f"posted {batches} {reference}"], "a posting behind the kill")
        require_same(last.ask("balance 1"), [f"balance 1 {held.get(1, 0) + 1}"], "a balance behind the kill")
        require_same(last.ask("close"), ["closing"], "the answer to close")
        office.closed()
