"""What an office reads of its ledger, under strace: its bank once where it opens; with an archive twice more, since what
that lacks is found and then listed; and nothing while it takes turns, begins a new span, and is asked how it stands."""
import dataclasses
import re

from office import require, require_same
from order import CALL, RESUMED

# A span has so many turns, and a turn so many entries at most.
SPAN = 5_000
ENTRIES = 15

# What the ledger has before, and so many slots that no bank is full behind a span: a checkpoint reads whether a gate of
# the other bank is open.
BATCHES = 500
SLOTS = 4_000

READ = re.compile(r", (?P<at>\d+)\) += (?P<count>\d+)$")


@dataclasses.dataclass
class Reads:
    """Where the device was read, and how far: before it was told that the office is open, and behind that."""

    opening: list
    open: list

    @classmethod
    def traced(cls, device, lines):
        reads, where, under_way = cls([], []), "opening", {}
        for line in lines:
            thread = line.split()[0]
            if resumed := RESUMED.match(line):
                words = under_way.pop(thread, "") + resumed["words"]
            elif call := CALL.match(line):
                if call["name"] == "write" and '"opened ' in call["words"]:
                    where = "open"
                words = call["words"] if call["name"] == "pread64" else ""
                if words.endswith("<unfinished ...>"):
                    under_way[thread] = words
                    continue
            else:
                continue
            if f"<{device}>" in words:
                read = READ.search(words)
                require(read, f"a read of the device fails: {words}")
                getattr(reads, where).append((int(read["at"]), int(read["count"])))
        return reads

    def times(self, bank):
        """How often a bank of so many bytes was read before the opening, by the bytes of all reads."""
        return sum(count for _, count in self.opening) / bank


def run_traced(case, kept_as, counters, *words, while_open=lambda: None):
    """What an office of these words reads, in which this is done."""
    kept = case.folder / kept_as
    strace = ("strace", "-f", "-y", "-s", "16", "-o", str(kept), "-e", "trace=pread64,read,write")
    with case.office(counters, *words, before=strace) as office:
        office.opened(*counters)
        while_open()
        require_same(counters[0].ask("close"), ["closing"], "the answer to close")
        office.closed()
    for counter in counters:
        counter.leave()
    with open(kept, encoding="utf-8", errors="replace") as lines:
        others = re.compile(rf" read\(\d+<{re.escape(str(case.device))}>")
        lines = lines.readlines()
    require_same([line for line in lines if others.search(line)], [], "reads of the device without a place")
    return Reads.traced(case.device, lines)


def reads_its_ledger_once(case):
    """An office reads its ledger once where it opens, or twice where it has an archive, and no more of it until it
    ends: turns, a new span, balances and how it stands are told from memory."""
    one, other = counters = case.counters(2)
    books = case.folder / "books"
    books.mkdir()
    with case.formatted(counters, SLOTS) as office:
        office.opened(*counters)
        one.say(b"deposit 1 1\n" * (BATCHES * ENTRIES))
        one.hear(BATCHES * ENTRIES)
        require_same(one.ask("close"), ["closing"], "the answer to close")
        office.closed()
    one.leave()
    other.leave()

    def post_for_a_span():
        turns = 0
        while turns <= SPAN:
            one.say(b"deposit 1 1\n" * (100 * ENTRIES))
            one.hear(100 * ENTRIES)
            standing = one.ask("status")[0].split()
            require_same(standing[:2] + standing[-2:], ["office", "next", "archived", "none"], "how it stands")
            require_same(other.ask("balance 2"), ["balance 2 0"], "a balance")
            turns = int(standing[standing.index("turns") + 1])

    bank = case.device.stat().st_size / 2
    alone = run_traced(case, "alone", counters, while_open=post_for_a_span)
    require_same(alone.open, [], "what is read of the device while the office is open")
    require(0.9 < alone.times(bank) < 1.2, f"its bank is read {alone.times(bank):.2f} times where it opens")
    kept = run_traced(case, "kept", counters, "--archive", str(books))
    require(1.5 < kept.times(bank) < 2.2, f"with an archive its bank is read {kept.times(bank):.2f} times where it opens")
