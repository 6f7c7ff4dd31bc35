"""Work of a machine: an archive, to which `derbyfig archive` adds what a ledger got since, again and again. The ledger and
the folder are on one disk, so that a crash takes of both. Runs may be killed at a call, and the next ones go on."""
import dataclasses
import random

import shelves
from rounds import require

COUNT = 8

# Three batches. With four slots in each bank the ledger makes a checkpoint in most rounds.
BATCHES, SLOTS = 3, 4
SCRIPT = (b"open 2 00 10\npost 0 deposit 1 10\nturn 0\npost 1 deposit 2 5\nturn 1\n"
          b"post 0 transfer 1 2 3\nturn 0\n")
ENTRIES = (["0", "deposit", "", "1", "10"], ["1", "deposit", "", "2", "5"], ["0", "transfer", "1", "2", "3"])

# Among how many syncs and names of files is the one before which a run is killed. A whole run makes seven.
CALLS = 7


def entries(count):
    """The entries of so many batches, as the journal lists them: number, station, kind, from, to, amount."""
    return [[str(number), *ENTRIES[number % BATCHES]] for number in range(count)]


@dataclasses.dataclass
class Archiving:
    """So many rounds, each of three batches and an archiving behind them."""

    count: int = COUNT
    kills: int = 0

    name = "archivings"

    def prepare(self, machine, layout):
        """Makes the ledger and the folder."""
        machine.ask(f"derbyfig format {layout.path()} --slots {SLOTS} && mkdir {layout.path('books')}")

    def work(self, machine, layout, preload, note):
        """Posts and archives in turn, and notes each round's batches when they are told as posted, and as archived."""
        machine.send("/tmp/script", SCRIPT)
        for number in range(self.count):
            machine.ask(f"derbyfig run {layout.path()} < /tmp/script")
            first = BATCHES * number
            note(shelves.Told(posted=first + BATCHES, archived=first))
            self.archive(machine, f"derbyfig archive {layout.path()} {layout.path('books')}", preload, first)
            note(shelves.Told(posted=first + BATCHES, archived=first + BATCHES))

    def archive(self, machine, command, preload, first):
        told = machine.ask(f"{preload}{command}")
        require(told == f"archived {BATCHES} from {first}\n".encode(), f"behind batch {first}: {told!r}")

    def hear_rest(self, machine, note):
        """Nothing more is heard of a machine that is off."""
        machine.cut()

    def require_kept(self, ledgers, told):
        """That the ledger has what was told as posted and the archive what was told as archived, and that they go on
        together."""
        if not told:
            return None
        shelf = shelves.Shelf(ledgers)
        shelf.require_told(told[-1])
        shelf.go_on("archive", shelf.ledger, shelf.folder)
        found = [row[:6] for row in shelf.rows()]
        require(found == entries(len(found)), f"the archive lists other batches: {found[-4:]}")
        require(told[-1].posted <= len(found) <= BATCHES * self.count, f"{len(found)} batches are there")
        return len(found)


class KilledArchiving(Archiving):
    """The same, but each archiving is killed at some call first, and then made again."""

    name = "archivings, each killed before"

    def work(self, machine, layout, preload, note):
        """The same, and most runs have to be killed before they ended by themselves."""
        super().work(machine, layout, preload, note)
        require(2 * self.kills > self.count, f"{self.kills} of {self.count} runs were killed")

    def archive(self, machine, command, preload, first):
        moment = random.Random(first).randint(1, CALLS)
        machine.say(f"KILLED={moment} {preload or shelves.ALL_SYNCED}{command}")
        killed, status = machine.ended()
        self.kills += status == 137
        told = machine.ask(f"{preload}{command}")
        lines = killed.splitlines(True) + [told]
        numbers = [list(map(int, line.split()[1::2])) for line in lines if line.startswith(b"archived ")]
        require(all(sum(pair) == first + BATCHES for pair in numbers), f"behind batch {first}: {killed!r}, {told!r}")
