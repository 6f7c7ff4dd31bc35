"""Work of a machine: an office with an archive, which is killed at a call, started again, told the same postings once more,
and closed. It archives by itself, at its start, between turns and at its end."""
import dataclasses
import random

import shelves
from rounds import require

COUNT = 5
SLOTS = 4

# How many postings a round has, and among how many syncs and names of files is the one before which its office is killed.
# A round makes more than twenty.
POSTINGS, CALLS = 30, 20


def said(number):
    """What a client says in a round."""
    references = range(1 + POSTINGS * number, 1 + POSTINGS * (number + 1))
    return "".join(f"deposit {1 + reference % 7} {reference} {reference}\n" for reference in references) + "close\n"


@dataclasses.dataclass
class ArchiveOffice:
    """So many rounds, each of an office that is killed, and one that is closed."""

    count: int = COUNT
    kills: int = 0

    name = "rounds of an office with an archive, each killed before"

    def prepare(self, machine, layout):
        """Makes the ledger and the folder."""
        machine.ask(f"derbyfig format {layout.path()} --slots {SLOTS} && mkdir {layout.path('books')}")

    def work(self, machine, layout, preload, note):
        """Lets offices answer, and notes each answer, and what is archived at a close."""
        told = shelves.Told(0, 0)
        office = f"derbyfig serve {layout.path()} --archive {layout.path('books')} --terminal --no-hello < /tmp/said"
        preload = preload or shelves.ALL_SYNCED
        for number in range(self.count):
            machine.send("/tmp/said", said(number).encode())
            moment = random.Random(number).randint(1, CALLS)
            for before in (f"KILLED={moment} ", ""):
                machine.say(f"{before}{preload}{office}")
                told, status = self.listen(machine, told, note)
                require(status in ((0, 137) if before else (0,)), f"round {number}: the office ends as {status}")
                self.kills += status == 137
            require(told.posted == POSTINGS * (number + 1), f"round {number}: {told}")
        require(2 * self.kills > self.count, f"{self.kills} of {self.count} offices were killed")

    @staticmethod
    def listen(machine, told, note):
        """Notes what an office tells, until it ends: what was told by then, and its status."""
        while not (line := machine.until(b"\n").removeprefix(b"office> ")).startswith(b"done "):
            words = line.decode().split()
            if words[0] == "posted":
                told = dataclasses.replace(told, posted=max(told.posted, int(words[2])))
            elif words[0] == "archived":
                told = dataclasses.replace(told, archived=int(words[1]))
            else:
                require(words[0] in ("opened", "closing", "closed", "bits") or "Killed" in words, f"it tells {line!r}")
            note(told)
        return told, int(line.split()[1])

    def hear_rest(self, machine, note):
        """Nothing more is heard of a machine that is off."""
        machine.cut()

    def require_kept(self, ledgers, told):
        """That the ledger and the archive have what was told, and an office goes on with both."""
        if not told:
            return None
        shelf = shelves.Shelf(ledgers)
        shelf.require_told(told[-1])
        ledgers.image.file("ledger.counters")
        shelf.go_on("serve", shelf.ledger, "--archive", shelf.folder, "--terminal", "--no-hello", said=b"close\n")
        found = [[*row[2:4], row[4], row[5], row[6]] for row in shelf.rows()]
        wanted = [["deposit", "", str(1 + number % 7), str(number), str(number)] for number in range(1, len(found) + 1)]
        require(found == wanted, f"the archive lists other postings: {found[-3:]}")
        require(told[-1].posted <= len(found) <= POSTINGS * self.count, f"{len(found)} postings, behind {told[-1]}")
        return len(found)
