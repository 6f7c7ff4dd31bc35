"""Recordings without a machine: a disk over a loop device of this system, whose writes and flushes qemu's storage daemon
logs. It is faster than a machine without KVM, needs root, and has the file systems of the kernel that is there."""
import base64
import dataclasses
import contextlib
import os
import pathlib
import subprocess
import time

from machine import PATIENCE, Machine
from rounds import require

NODES = ("driver=file,node-name=bytes,filename={bytes}", "driver=file,node-name=log,filename={log}",
         "driver=blklogwrites,node-name=d0,file=bytes,log=log,log-super-update-interval=1")
EXPORT = "type=fuse,id=e0,node-name=d0,mountpoint={mounted},writable=on"


@dataclasses.dataclass(frozen=True)
class HereKit:
    """What works on a disk is the programs of this system and these."""

    folder: pathlib.Path
    derbyfig: str
    console: str
    preload: pathlib.Path

    accelerator = "none: recorded here"

    def state_for(self, size):
        """Nothing has to boot."""

    def on(self, disk, log=None):
        return Here(self, disk, log)


class Here(Machine):
    """What stands for a machine that is on: a shell that sees the disk as /dev/vda."""

    def __init__(self, kit, disk, log):
        self.kit, self.read, self.loop, self.daemon, self.run = kit, b"", "", None, None
        try:
            self.loop = self.attached(self.exported(disk, log) if log else disk)
            numbers = os.stat(self.loop).st_rdev
            programs = kit.folder / "programs"
            programs.mkdir(exist_ok=True)
            for name, program in (("derbyfig", kit.derbyfig), ("console", kit.console)):
                # several are recorded at once
                with contextlib.suppress(FileExistsError):
                    (programs / name).symlink_to(program)
            words = ["unshare", "--mount", "sh", pathlib.Path(__file__).parent / "here.sh", str(os.major(numbers)),
                     str(os.minor(numbers))]
            path = {**os.environ, "PATH": f"{programs}:{os.environ['PATH']}"}
            self.run = subprocess.Popen(words, stdin=subprocess.PIPE, stdout=subprocess.PIPE, env=path, bufsize=0)
            self.until(b"ready\n")
        except BaseException:
            self.end()
            raise

    def exported(self, disk, log):
        """The file by which a disk is written and logged."""
        mounted = disk.with_suffix(".exported")
        mounted.touch()
        words = [word for node in NODES for word in ("--blockdev", node.format(bytes=disk, log=log))]
        self.daemon = subprocess.Popen(["qemu-storage-daemon", *words, "--export", EXPORT.format(mounted=mounted)],
                                       stdin=subprocess.DEVNULL)
        end = time.monotonic() + PATIENCE
        while not os.path.ismount(mounted):
            require(time.monotonic() < end and self.daemon.poll() is None, "the storage daemon exports nothing")
            time.sleep(0.01)
        return mounted

    @staticmethod
    def attached(path):
        done = subprocess.run(["losetup", "--find", "--show", path], check=True, capture_output=True, text=True)
        return done.stdout.strip()

    def more(self, patience=PATIENCE):
        piece = os.read(self.run.stdout.fileno(), 65536)
        require(piece, "the shell has ended")
        self.read += piece

    def say(self, command):
        self.run.stdin.write(command.replace("/lib/unsynced.so", str(self.kit.preload)).encode() + b"\n")

    def send(self, path, data):
        self.ask(f"echo {base64.b64encode(data).decode()} | base64 -d > {path}")

    def cut(self):
        """The end of its work: what the system still writes then is behind all that was told."""
        self.end()
        return self.read

    def end(self):
        """Lets the system take the disk back."""
        if self.run is not None:
            self.run.kill()
            self.run.wait()
            self.run = None
        if self.loop:
            subprocess.run(["losetup", "--detach", self.loop], check=True)
            self.loop = ""
        if self.daemon is not None:
            self.daemon.terminate()
            self.daemon.wait()
            self.daemon = None
