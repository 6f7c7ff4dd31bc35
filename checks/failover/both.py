"""Both machines fail, one after the other: what the second one's disk has, if its cache is volatile, and if it isn't."""
import crashes
from failovers import LAYOUT
from replays import Ledgers
from rounds import Mismatch
from turns import Turns


def told_of_two(pair, count):
    """The lengths of both logs when each turn was told."""
    pair.make()
    lengths = []
    Turns(count=count).work(pair.machines[0], LAYOUT, "", lambda what: lengths.append((what, pair.log(1).stat().st_size)))
    for machine in pair.machines:
        machine.cut()
    return lengths


def left(log, size, lengths, is_volatile):
    """The peer's disk as it was when each turn was told: what was flushed, and where no cache is volatile all that was
    written."""
    disk, entries, place = crashes.Disk(bytes(size), crashes.SECTORS, frozenset()), crashes.entries_of(log), 0
    for turn, length in lengths:
        while place < len(entries) and entries[place].end <= length:
            disk.apply(entries[place], place)
            place += 1
        image = bytearray(disk.durable)
        for sector, versions in () if is_volatile else disk.pending.items():
            disk.keep(image, sector, versions[-1][1])
        yield turn, image


def kept(pair, lengths, programs, image, is_volatile):
    """Of the turns that were told, at how many telling moments the peer's disk had all."""
    size, holds = (pair.folder / "disk1").stat().st_size, 0
    for turn, data in left(pair.log(1).read_bytes(), size, lengths, is_volatile):
        image.put(data)
        try:
            Turns(count=1 << 20).require_kept(Ledgers(image, programs), [turn])
            holds += 1
        except Mismatch:
            pass
    return holds
