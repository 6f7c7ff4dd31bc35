"""What a power failure may leave of a disk, by the log of its writes and flushes.

A crash behind any entry of the log keeps all that was written before the last flush. Of what was written since, piece by
piece, it leaves the old bytes or those of any write since. How large a piece is, and whether it may be spoiled, is what
kinds of disks differ in.
"""
import dataclasses
import struct

SECTOR = 512
BLOCK = 8

# Flags of an entry.
FLUSH, FUA, DISCARD = 1, 2, 4

MAGIC = 0x6A736677736872


@dataclasses.dataclass(frozen=True)
class Entry:
    """A write, a discard or a flush: the sector it begins at, its bytes, and where it ends in the log."""

    flags: int
    sector: int
    data: bytes
    end: int


def entries_of(log):
    """The entries of a log in the format of dm-log-writes, version 1."""
    magic, version, count, size = struct.unpack_from("<QQQI", log)
    if (magic, version) != (MAGIC, 1):
        raise ValueError(f"the log begins with {magic:x} and {version}")
    at, entries = size, []
    for _ in range(count):
        sector, sectors, flags, _ = struct.unpack_from("<QQQQ", log, at)
        at += size
        data = bytes(sectors * size)
        if not flags & DISCARD:
            data = log[at:at + sectors * size]
            at += len(data)
        entries.append(Entry(flags, sector * size // SECTOR, data, at))
    return entries


@dataclasses.dataclass(frozen=True)
class Kind:
    """A kind of disk: how many sectors are left old or new as one, whether blocks of 4,096 bytes are torn, that of the
    superblock of ext4's journal too, and whether flushes are lost."""

    name: str
    together: int = 1
    tears: bool = False
    spares: bool = True
    lies: bool = False


SECTORS = Kind("leaves each sector old or new")
BLOCKS = Kind("leaves each 4,096 bytes old or new", together=BLOCK)
TORN = Kind("tears blocks of 4,096 bytes inside", tears=True)
ALL_TORN = Kind("tears them, that of the journal's superblock too", tears=True, spares=False)
LYING = Kind("keeps no flush", lies=True)


class Disk:
    """What is durable, and of each sector the versions written since the last flush. Some blocks are always left whole."""

    def __init__(self, base, kind, whole):
        self.durable, self.pending, self.kind, self.whole = bytearray(base), {}, kind, whole

    def apply(self, entry, number):
        if entry.flags & FLUSH and not self.kind.lies:
            for sector, versions in self.pending.items():
                self.keep(self.durable, sector, versions[-1][1])
            self.pending.clear()
        is_kept = entry.flags & FUA and not self.kind.lies
        for place in range(len(entry.data) // SECTOR):
            piece, sector = entry.data[place * SECTOR:(place + 1) * SECTOR], entry.sector + place
            if is_kept:
                self.keep(self.durable, sector, piece)
                self.pending.pop(sector, None)
            else:
                self.pending.setdefault(sector, []).append((number, piece))

    @staticmethod
    def keep(image, sector, piece):
        image[sector * SECTOR:(sector + 1) * SECTOR] = piece

    def crashed(self, moments):
        """A disk as a crash may leave it now."""
        image, chosen, spoiled = bytearray(self.durable), {}, {}
        share = moments.choice((0.1, 0.5, 0.9))
        for sector, versions in self.pending.items():
            block = sector // BLOCK
            piece = -1 - block if block in self.whole else sector // self.kind.together
            for number, data in versions:
                if (piece, number) not in chosen:
                    chosen[piece, number] = moments.random() < share
                if chosen[piece, number]:
                    self.keep(image, sector, data)
            if self.kind.tears and block not in self.whole:
                self.spoil(image, sector, spoiled, moments)
        return image

    def spoil(self, image, sector, spoiled, moments):
        """Leaves anything in a sector, if its block is torn, as some blocks are."""
        block = sector // BLOCK
        if block not in spoiled:
            spoiled[block] = moments.random() < 0.3
        if spoiled[block] and moments.random() < 0.5:
            self.keep(image, sector, moments.randbytes(SECTOR))
