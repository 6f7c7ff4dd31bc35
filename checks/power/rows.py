"""What is run: machines that are cut, and recordings with the kinds of disks that crashes of them are made for."""
import dataclasses

import crashes
import disks
from archive_office import ArchiveOffice
from archiving import Archiving, KilledArchiving
from copying import Copying
from counters import Counters
from disks import EXT4, JOURNALED, RAW, UNFLUSHED, XFS
from turns import Turns

# What stands before a program's words so that it skips its syncs: all of them, every second one, or those of some files.
ALL, EVEN, ODD, OF_ARCHIVE, OF_LEDGER = (
    f"UNSYNCED={which} LD_PRELOAD=/lib/unsynced.so " for which in ("all", "0/2", "1/2", "/mnt/books", "/mnt/ledger"))


@dataclasses.dataclass(frozen=True)
class Row:
    """A recording, the kind of disk that crashes, how often, and whether it has to lose: a control does, what is measured
    alone may."""

    name: str
    layout: disks.Layout
    work: type
    kind: crashes.Kind
    count: int
    preload: str = ""
    loses: bool = False

    def told(self):
        return f"{self.name}, {self.work.name}"

    def recorded(self):
        """What tells its recording from others."""
        return self.layout, self.work, self.preload


CUT = crashes.Kind("killed with its machine")

CUTS = (
    Row("ext4, cuts", EXT4, Turns, CUT, 10),
    Row("ext4, cuts", EXT4, Turns, CUT, 10),
    Row("ext4, cuts", EXT4, Counters, CUT, 10),
    Row("ext4, cuts, no syncs", EXT4, Turns, CUT, 5, ALL, True),
    Row("ext4, cuts, no syncs", EXT4, Counters, CUT, 5, ALL, True),
)

ROWS = (
    Row("ext4", EXT4, Turns, crashes.SECTORS, 1200),
    Row("ext4", EXT4, Counters, crashes.SECTORS, 1200),
    Row("ext4", EXT4, Copying, crashes.SECTORS, 600),
    Row("ext4", EXT4, Archiving, crashes.SECTORS, 600),
    Row("ext4", EXT4, KilledArchiving, crashes.SECTORS, 600),
    Row("ext4", EXT4, ArchiveOffice, crashes.SECTORS, 600),
    Row("ext4, `data=journal`", JOURNALED, Turns, crashes.SECTORS, 400),
    Row("ext4, `data=journal`", JOURNALED, Turns, crashes.TORN, 300),
    Row("ext4, `data=journal`", JOURNALED, Counters, crashes.TORN, 300),
    Row("no file system", RAW, Turns, crashes.SECTORS, 400),
    Row("no file system", RAW, Counters, crashes.SECTORS, 300),
    Row("no file system", RAW, Turns, crashes.BLOCKS, 150),
    Row("no file system", RAW, Counters, crashes.BLOCKS, 150),
    Row("xfs", XFS, Turns, crashes.SECTORS, 300),
)

MEASURED = (Row("ext4, `data=journal`", JOURNALED, Turns, crashes.ALL_TORN, 600, "", None),)

CONTROLS = (
    Row("ext4, no syncs", EXT4, Turns, crashes.SECTORS, 200, ALL, True),
    Row("ext4, no syncs", EXT4, Counters, crashes.SECTORS, 200, ALL, True),
    Row("ext4, no syncs", EXT4, Copying, crashes.SECTORS, 200, ALL, True),
    Row("ext4, no syncs", EXT4, Archiving, crashes.SECTORS, 200, ALL, True),
    Row("ext4, no syncs", EXT4, KilledArchiving, crashes.SECTORS, 200, ALL, True),
    Row("ext4, no syncs", EXT4, ArchiveOffice, crashes.SECTORS, 200, ALL, True),
    Row("ext4, no syncs of the archive", EXT4, KilledArchiving, crashes.SECTORS, 200, OF_ARCHIVE, True),
    Row("ext4, no syncs of the archive", EXT4, ArchiveOffice, crashes.SECTORS, 200, OF_ARCHIVE, True),
    Row("ext4, no syncs of the ledger", EXT4, ArchiveOffice, crashes.SECTORS, 200, OF_LEDGER, True),
    Row("ext4, every second sync, from the first, skipped", EXT4, Turns, crashes.SECTORS, 300, EVEN, True),
    Row("ext4, every second sync, from the second, skipped", EXT4, Turns, crashes.SECTORS, 300, ODD, True),
    Row("ext4, `barrier=0`", UNFLUSHED, Turns, crashes.SECTORS, 200, "", True),
    Row("ext4", EXT4, Turns, crashes.LYING, 200, "", True),
    Row("ext4", EXT4, Turns, crashes.TORN, 200, "", True),
    Row("no file system", RAW, Turns, crashes.LYING, 200, "", True),
    Row("no file system", RAW, Turns, crashes.TORN, 200, "", True),
    Row("no file system", RAW, Counters, crashes.TORN, 200, "", True),
)
