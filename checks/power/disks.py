"""Disks of a machine, and where on them the files of a ledger lie."""
import dataclasses
import re
import shutil
import subprocess

from rounds import Mismatch

# How long a disk is, and one for xfs, which takes one of this size only if it is said that nobody supports it.
SIZE = 8 << 20
XFS_SIZE = 16 << 20


def volatile(name):
    """A device that tells the machine of a volatile cache, so that a sync flushes it."""
    return ["-device", f"virtio-blk-pci,drive={name},write-cache=on"]


def plain(path):
    """The words for a disk over a file."""
    return ["-drive", f"file={path},format=raw,if=none,id=d0,cache=writeback", *volatile("d0")]


def logged(path, log):
    """The words for a disk over a file whose writes and flushes are logged, in the format of the kernel's dm-log-writes."""
    nodes = (f"driver=file,node-name=bytes,filename={path}", f"driver=file,node-name=log,filename={log}",
             "driver=blklogwrites,node-name=d0,file=bytes,log=log,log-super-update-interval=1")
    return [word for node in nodes for word in ("-blockdev", node)] + volatile("d0")


@dataclasses.dataclass(frozen=True)
class Layout:
    """How a disk is used: by a file system, mounted with these options, or without one as the ledger's device."""

    system: str = ""
    options: str = ""

    def size(self):
        return XFS_SIZE if self.system == "xfs" else SIZE

    def make(self, path):
        with open(path, "wb") as image:
            image.truncate(self.size())
        words = {"ext4": ["mkfs.ext4", "-q", "-b", "4096"], "xfs": ["mkfs.xfs", "-q", "--unsupported"]}.get(self.system)
        if words:
            run([*words, path])

    def mount(self, machine):
        if self.system:
            options = f"-o {self.options}" if self.options else ""
            machine.ask(f"mount -t {self.system} {options} /dev/vda /mnt")

    def unmount(self, machine):
        machine.ask("umount /mnt && sync" if self.system else "sync")

    def path(self, name="ledger"):
        """Where the machine finds a file. Without a file system there is one, the disk."""
        return f"/mnt/{name}" if self.system else "/dev/vda"

    def whole(self, path, with_journal):
        """The blocks of 4,096 bytes that a crash always leaves whole: the superblock of ext4, and if it is asked for that of
        its journal. No journal has a copy of them."""
        if self.system != "ext4":
            return frozenset()
        if not with_journal:
            return frozenset((0,))
        told = run(["debugfs", "-R", "stat <8>", path]).decode()
        return frozenset((0, int(re.search(r"\(0[-\d]*\):(\d+)", told)[1])))


EXT4 = Layout("ext4")
JOURNALED = Layout("ext4", "data=journal")
UNFLUSHED = Layout("ext4", "barrier=0")
XFS = Layout("xfs")
RAW = Layout()


def run(words, ok=(0,)):
    """What a program of the host prints."""
    done = subprocess.run(words, stdout=subprocess.PIPE, stderr=subprocess.STDOUT, stdin=subprocess.DEVNULL, check=False)
    if done.returncode not in ok:
        raise Mismatch(f"{words[0]}: status {done.returncode}: {done.stdout[-300:]!r}")
    return done.stdout


class Image:
    """A disk as a crash left it, and its files."""

    def __init__(self, layout, folder):
        self.layout, self.folder, self.disk = layout, folder, folder / "disk"
        self.is_replayed = False

    def put(self, data):
        self.disk.write_bytes(data)
        self.is_replayed = self.layout.system == ""

    def file(self, name="ledger"):
        """The path of a file on the disk, taken out of it behind a replay of the file system's journal."""
        if not self.layout.system:
            return self.disk
        target = self.folder / name
        target.parent.mkdir(exist_ok=True)
        target.unlink(missing_ok=True)
        if self.layout.system == "xfs":
            self.take_by_mount(name, target)
        else:
            self.take_unmounted(name, target)
        if not target.exists():
            raise Mismatch(f"there is no {name}")
        return target

    def tree(self, name):
        """The path of a folder on the disk, taken out of its ext4 with all that lies in it."""
        target = self.folder / name
        shutil.rmtree(target, ignore_errors=True)
        self.replay()
        run(["debugfs", "-R", f"rdump /{name} {self.folder}", self.disk])
        if not target.is_dir():
            raise Mismatch(f"there is no folder {name}")
        return target

    def replay(self):
        """Replays the journal of its ext4, which needs no root."""
        if not self.is_replayed:
            run(["e2fsck", "-fy", "-E", "journal_only", self.disk], ok=(0, 1))
            self.is_replayed = True

    def take_unmounted(self, name, target):
        """By e2fsck and debugfs, which need no root."""
        self.replay()
        run(["debugfs", "-R", f"dump /{name} {target}", self.disk])

    def take_by_mount(self, name, target):
        """By the host's kernel, which needs root and a loop device."""
        mounted = self.folder / "mounted"
        mounted.mkdir(exist_ok=True)
        run(["mount", "-t", self.layout.system, "-o", "loop,nouuid", self.disk, mounted])
        try:
            if (mounted / name).exists():
                target.write_bytes((mounted / name).read_bytes())
        finally:
            run(["umount", mounted])
