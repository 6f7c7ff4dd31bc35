"""What a crash leaves of a ledger and its archive, together."""
import csv
import dataclasses
import io
import re

from rounds import require

# What stands before a program's words, so that it can be killed at a call and skips no sync.
ALL_SYNCED = "UNSYNCED=none LD_PRELOAD=/lib/unsynced.so "


@dataclasses.dataclass(frozen=True)
class Told:
    """How much was told as posted, and how many batches as archived."""

    posted: int
    archived: int


class Shelf:
    """The ledger, and the folder of its archive, taken out of a disk."""

    def __init__(self, ledgers):
        self.programs = ledgers.programs
        self.ledger = ledgers.image.file()
        self.folder = ledgers.image.tree("books")
        self.posted = 0

    def go_on(self, *words, said=b""):
        """What derbyfig prints, which has to end well."""
        status, told = self.programs.derbyfig_run(words, said)
        require(status == 0, f"derbyfig {words[0]} ends as {status}: {told[-200:]!r}")
        return told

    def reach(self, *words):
        """The number of the next batch, by a check that finds all sound."""
        told = self.go_on("check", *words).decode()
        require(not re.search(r"^first [1-9]", told, re.MULTILINE), f"batches are missing before the first: {told!r}")
        return int(re.search(r"^next (\d+)$", told, re.MULTILINE)[1])

    def require_told(self, told):
        """That both are sound, the archive has all batches that were told as archived, and none that the ledger lacks."""
        is_empty = not list(self.folder.glob("[0-9]*"))
        archived, self.posted = 0 if is_empty else self.reach(self.folder), self.reach(self.ledger)
        require(archived >= told.archived, f"{told.archived} batches were told as archived, and {archived} are there")
        require(archived <= self.posted, f"the archive has {archived} batches, and the ledger {self.posted}")

    def rows(self):
        """The entries of the archive, which has to have all batches of the ledger now."""
        rows = []
        if self.posted:
            _, *listed = csv.reader(io.StringIO(self.go_on("journal", self.folder, "--as", "csv").decode()))
            rows = [row for row in listed if row[1]]
        reach = int(rows[-1][0]) + 1 if rows else 0
        require(reach == self.posted, f"the archive has {reach} batches now, and the ledger {self.posted}")
        return rows
