"""The calls of the system that an office makes for postings, under strace: a posting is told behind its last sync."""
import ast
import dataclasses
import re

from office import require, require_same

POSTINGS = 150

CALL = re.compile(r"\d+ +(?P<name>\w+)\((?P<words>.*)")
RESUMED = re.compile(r"\d+ +<\.\.\. \w+ resumed>(?P<words>.*)")
TEXT = re.compile(r'"((?:[^"\\]|\\.)*)"')


@dataclasses.dataclass
class Trace:
    """What a trace has told so far."""

    device: str
    # the calls of the device since the last body, as it was told, and whose it is
    batch: int = -1
    body_at: int = -1
    stage: int = 0
    durable: set = dataclasses.field(default_factory=set)
    # the thread of a call that hasn't returned
    under_way: dict = dataclasses.field(default_factory=dict)
    told: int = 0

    def take(self, line):
        """Takes a line of the trace: a call begins where it is first seen, and has returned where its line ends."""
        thread = line.split()[0]
        if RESUMED.match(line):
            self.returned(*self.under_way.pop(thread))
        elif call := CALL.match(line):
            name, words = call["name"], call["words"]
            self.begun(name, words)
            if words.endswith("<unfinished ...>"):
                self.under_way[thread] = name, words
            else:
                self.returned(name, words)

    def begun(self, name, words):
        if self.device in words:
            others = [one for one in self.under_way.values() if self.device in one[1]]
            require_same(others, [], f"calls of the device beside {name}")
        elif name == "write" and "posted " in words:
            for number, reference in re.findall(r"posted (\d+) (\d+)", TEXT.search(words)[1]):
                self.told += 1
                require(int(number) in self.durable, f"posted {number} {reference} is told before it is durable")

    def returned(self, name, words):
        """What the device has done: the body, a sync, the gate behind it, and a sync make a batch durable."""
        if self.device not in words:
            return
        if name == "fdatasync":
            self.stage += self.stage in (1, 3)
            if self.stage == 4:
                self.durable.add(self.batch)
            return
        written = ast.literal_eval(f'b"{TEXT.search(words)[1]}"')
        at = int(re.search(r", (\d+)(\)|\s*<unfinished)", words)[1])
        if written[:4] == b"TLB1":
            self.batch, self.body_at, self.stage = int.from_bytes(written[8:16], "big"), at, 1
        elif at == self.body_at + 512 and written[:1] == b"\xa5" and self.stage == 2:
            self.stage = 3
        else:
            self.stage = 0


# What is looked for of a pause: an office that ends waits for counters that take nothing, 400 pauses of 5 ms at most.
PAUSES = 400


def syncs_before_it_tells(case):
    """Each posting is told behind a write of its body, a sync, a write of its gate, and a sync. Nothing is awaited of a
    station without a counter when the office ends."""
    clients = case.counters(3)
    kept = case.folder / "trace"
    strace = ("strace", "-f", "-y", "-s", "16384", "-o", str(kept), "-e", "trace=pwrite64,fdatasync,write,nanosleep,clock_nanosleep")
    with case.formatted(clients, 1000, "--stations", "4", before=strace) as office:
        office.opened(*clients)
        for place in range(0, POSTINGS, 10):
            for client in clients:
                client.say(b"".join(b"deposit 1 1 %d\n" % (place + more) for more in range(10)))
            for client in clients:
                client.hear(10)
        require_same(clients[0].ask("close"), ["closing"], "the answer to close")
        office.closed()
    trace, pauses = Trace(f"<{case.device}>"), 0
    with open(kept, encoding="ascii", errors="replace") as lines:
        for line in lines:
            trace.take(line.rstrip("\n"))
            pauses += "nanosleep(" in line
    require_same(trace.told, 3 * POSTINGS, "the postings that are told in the trace")
    require(pauses < PAUSES, f"it pauses {pauses} times")
