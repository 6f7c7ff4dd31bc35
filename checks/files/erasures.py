"""Disks that a ledger would erase: by what they hold, and by who uses them. Each command that makes a ledger is refused."""
import dataclasses
import os
import pathlib
import shutil
import subprocess

from copies import first_layout
from holdings import FOREIGN, LEDGER
from parts import make
from programs import Said, kept, require_same

SECTORS = 600
NUMBER = "7:200"

NO_LEDGER = "it is a disk that holds no ledger; --overwrite takes it all the same"
IN_USE = "it is a disk that is in use"
DENIED = "it is a disk that may not be read and written"
FAILS = "the system fails to open, lock, read or write it"

# What other programs write, and where: partition tables, LVM, RAID, LUKS, file systems, swap; and the last byte looked at.
MARKS = {
    "MBR": (510, b"\x55\xaa"), "GPT": (512, b"EFI PART"), "LVM": (512, b"LABELONE"), "RAID": (4096, b"\xfc\x4e\x2b\xa9"),
    "LUKS": (0, b"LUKS\xba\xbe"), "ext4": (1080, b"\x53\xef"), "xfs": (0, b"XFSB"), "btrfs": (65600, b"_BHRfS_M"),
    "swap": (4086, b"SWAPSPACE2"), "the last one": (131071, b"x"),
}

# A line of mountinfo, of a mount that has the disk's number, and of one that has another, as btrfs.
MOUNTS = {
    "its number": "36 25 7:200 / /mnt rw,relatime shared:1 - ext4 /dev/elsewhere rw\n",
    "another number": "36 25 0:45 / /mnt rw,relatime shared:1 master:2 - btrfs DISK rw,subvol=/\n",
}


@dataclasses.dataclass
class Disk:
    """A file that the program takes for a disk, and what the system's tables tell of it."""

    programs: object
    path: pathlib.Path
    tables: pathlib.Path

    def environment(self):
        library = self.programs.folder.parent / "disk.so"
        told = {"LD_PRELOAD": library, "DISK": self.path, "DISK_NUMBER": NUMBER, "DISK_TABLES": self.tables}
        return {**os.environ, **{name: str(word) for name, word in told.items()}}

    def write(self, held):
        self.path.write_bytes(held.ljust(512 * SECTORS, b"\0"))

    def tell(self, table, text):
        """What stands in a table."""
        path = self.tables / table
        path.parent.mkdir(parents=True, exist_ok=True)
        path.write_text(text.replace("DISK", str(self.path)))

    def forget(self):
        """A machine on which nobody uses the disk."""
        shutil.rmtree(self.tables, ignore_errors=True)
        self.tell("proc/self/mountinfo", "25 1 254:0 / / rw,relatime shared:1 - ext4 /dev/elsewhere rw\n")
        self.tell("proc/swaps", "Filename\tType\tSize\tUsed\tPriority\n/swapfile file 1048572 0 -2\n")
        self.tell(f"sys/dev/block/{NUMBER}/ro", "0\n")
        (self.tables / f"sys/dev/block/{NUMBER}/holders").mkdir()

    def run(self, *words):
        return self.programs.run(self.programs.derbyfig, *map(str, words), said="close\n", env=self.environment())


def commands(programs, disk):
    """Each command that makes a ledger there, with what it prints."""
    old, older, books = (programs.folder / name for name in ("old", "older", "books"))
    if not old.exists():
        make(programs, "old", 4, 30)
        older.write_bytes(first_layout())
        books.mkdir()
        require_same(programs.run(programs.derbyfig, "archive", str(old), str(books)).status, 0, "an archive")
    office = ("serve", disk, "--terminal", "--counters-anew", "--counters-file", programs.folder / "counters", "--format", "4")
    return ((("format", disk, "--slots", "4"), "formatted 4\n"), (("copy", old, disk, "--slots", "4"), "copied 4\n"),
            (("migrate", older, disk, "--slots", "4"), "migrated 4\n"), (("restore", books, disk, "--slots", "4"), "restored 4\n"),
            (office, "formatted 4\n"))


def new_disk(programs):
    disk = Disk(programs, programs.folder / "disk", programs.folder / "tables")
    disk.forget()
    return disk


def require_kept(disk, told, status, of, *more):
    """That each command is refused so, and the disk keeps its bytes."""
    before = disk.path.read_bytes()
    for words, _ in commands(disk.programs, disk.path):
        said = disk.run(*words, *more)
        require_same(said, Said(status, "", f"{disk.path}: {told}"), f"{words[0]} on a disk, {of}, with {more}")
        require_same(disk.path.read_bytes() == before, True, f"a disk behind {words[0]}, {of}, with {more}")


def of_what_a_disk_holds(programs, _moments):
    """A ledger, an older one and whatever another program has there is kept, and taken only with --overwrite."""
    disk = new_disk(programs)
    disk.write(kept(make(programs, "ledger", 4, 30)))
    require_kept(disk, LEDGER, 1, "with a ledger")
    disk.write(first_layout())
    told = "it holds a ledger of version 1; derbyfig migrate copies one of version 1 or 2 to a new file"
    require_kept(disk, told, 1, "with an older ledger")
    for name, (place, mark) in MARKS.items():
        disk.write(bytes(place) + mark)
        require_kept(disk, NO_LEDGER, 1, f"with the mark of {name}")
    for held in (b"", bytes(1080) + b"\x53\xef"):
        for words, printed in commands(programs, disk.path):
            disk.write(held)
            said = disk.run(*words, *(("--overwrite",) if held else ()))
            found = said.status, said.told, said.printed[:len(printed)]
            require_same(found, (0, "", printed), f"{words[0]} on {len(held)} bytes")
            require_same(disk.run("check", disk.path).status, 0, f"the check behind {words[0]}")
            require_same(disk.path.stat().st_size, 512 * SECTORS, "the length of the disk")


def of_who_uses_a_disk(programs, _moments):
    """A disk without anything that is mounted, swapped to or below another one is kept, also with --overwrite; and so is one
    that may not be written, and one of which a table can't be read."""
    disk = new_disk(programs)
    disk.write(b"")
    for name, line in MOUNTS.items():
        disk.tell("proc/self/mountinfo", line)
        require_kept(disk, IN_USE, 3, f"mounted with {name}")
        require_kept(disk, IN_USE, 3, f"mounted with {name}", "--overwrite")
        disk.forget()
    disk.tell("proc/swaps", "Filename\tType\tSize\tUsed\tPriority\nDISK partition 1048572 0 -2\n")
    require_kept(disk, IN_USE, 3, "swapped to", "--overwrite")
    disk.forget()
    # LVM, RAID and dm-crypt stand there
    disk.tell(f"sys/dev/block/{NUMBER}/holders/dm-0", "")
    require_kept(disk, IN_USE, 3, "below another disk", "--overwrite")
    disk.forget()
    disk.tell(f"sys/dev/block/{NUMBER}/ro", "1\n")
    require_kept(disk, DENIED, 3, "that is read-only", "--overwrite")
    disk.forget()
    for table in ("proc/self/mountinfo", "proc/swaps"):
        (disk.tables / table).unlink()
        # whose beginning can't be read
        (disk.tables / table).symlink_to("/proc/self/mem")
        require_kept(disk, FAILS, 3, f"without {table}", "--overwrite")
        disk.forget()
    holders = disk.tables / f"sys/dev/block/{NUMBER}/holders"
    holders.rmdir()
    holders.symlink_to("holders")
    require_kept(disk, FAILS, 3, "with holders that can't be listed", "--overwrite")


def of_files_that_begin_with_zeros(programs, _moments):
    """A file is looked at to its end: one byte behind a megabyte of zeros, or more, keeps it."""
    path = programs.folder / "file"
    for before in (512 * 256, 512 * 256 + 511, 1 << 20, (1 << 21) + 512 - 1):
        path.write_bytes((bytes(before) + b"\1").ljust(-(-(before + 1) // 512) * 512, b"\0"))
        held = kept(path)
        for words, _ in commands(programs, path):
            said = programs.run(programs.derbyfig, *map(str, words), said="close\n")
            require_same(said, Said(1, "", f"{path}: {FOREIGN}"), f"{words[0]} on a byte behind {before} zeros")
            require_same(kept(path) == held, True, f"a file behind {words[0]}")


def attached(file, sectors):
    """A loop device over a file, if there is one for this user."""
    with open(file, "wb") as made:
        made.truncate(512 * sectors)
    if not shutil.which("losetup"):
        return None
    made = subprocess.run(["losetup", "-f", "--show", str(file)], capture_output=True, text=True, check=False)
    return made.stdout.strip() if made.returncode == 0 else None


# What uses a real disk: the words that prepare it, those that begin to use it and those that end that. What may be written
# meanwhile is changed by the system itself, so file systems are only read.
USES = {
    "ext4": (("mkfs.ext4", "-q", "-F", "DISK"), ("mount", "-o", "ro,noload", "DISK", "FOLDER"), ("umount", "FOLDER")),
    "btrfs": (("mkfs.btrfs", "-q", "-f", "-M", "DISK"), ("mount", "-o", "ro", "DISK", "FOLDER"), ("umount", "FOLDER")),
    "a swap": (("mkswap", "DISK"), ("swapon", "DISK"), ("swapoff", "DISK")),
}


def of_real_disks(programs, _moments):
    """The same on loop devices: with a ledger, with file systems and a swap, and while these are in use."""
    device = attached(programs.folder / "backing", 1 << 16)
    if not device:
        print("not tried: real disks, since there is no loop device")
        return
    disk = Disk(programs, pathlib.Path(device), programs.folder)
    try:
        ledger = kept(make(programs, "ledger", 4, 30))
        with open(device, "r+b") as file:
            file.write(ledger)
            os.fsync(file.fileno())
        require_real(disk, LEDGER, 1)
        for name, words in USES.items():
            require_unused(disk, name, *words)
    finally:
        subprocess.run(["losetup", "-d", device], check=True)


def require_unused(disk, name, prepare, begin, end):
    """That a real disk which holds this is kept, and with --overwrite too while it is used."""
    folder = disk.programs.folder / "mounted"
    folder.mkdir(exist_ok=True)

    def done(words):
        known = {"DISK": str(disk.path), "FOLDER": str(folder)}
        words = [known.get(word, word) for word in words]
        return shutil.which(words[0]) and subprocess.run(words, capture_output=True, check=False).returncode == 0

    if not done(prepare):
        print(f"not tried: a real disk with {name}")
        return
    require_real(disk, NO_LEDGER, 1)
    if not done(begin):
        print(f"not tried: a real disk in use by {name}")
        return
    try:
        require_real(disk, IN_USE, 3, "--overwrite")
    finally:
        require_same(bool(done(end)), True, f"{name} lets go of {disk.path}")


def require_real(disk, told, status, *more):
    """That each command is refused on a real disk, which keeps its bytes; the first ones, where a system that uses it may write
    others."""
    count = 4096 if more else -1
    before = bytes_of(disk.path, count)
    for words, _ in commands(disk.programs, disk.path):
        said = disk.programs.run(disk.programs.derbyfig, *map(str, words), *more, said="close\n")
        require_same(said, Said(status, "", f"{disk.path}: {told}"), f"{words[0]} on a real disk, with {more}")
        require_same(bytes_of(disk.path, count) == before, True, f"a real disk behind {words[0]}, with {more}")


def bytes_of(path, count):
    with open(path, "rb") as file:
        return file.read(count)
