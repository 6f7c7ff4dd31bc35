"""A virtual machine whose power can be cut: qemu, a kernel, an initramfs with an agent, a disk, and ports."""
import contextlib
import dataclasses
import os
import pathlib
import signal
import socket
import subprocess
import sys
import tempfile
import time

import disks
from rounds import Mismatch, require

# How many seconds a machine may take for one thing, and how many for its start by an accelerator that is only tried.
PATIENCE = 120
TRIED = 15


@dataclasses.dataclass(frozen=True)
class Kit:
    """What each machine of a run is made of, and the folder for what it keeps. Beside the agent's ports it has others."""

    kernel: pathlib.Path
    initramfs: pathlib.Path
    folder: pathlib.Path
    ports: tuple
    accelerator: str = "tcg"

    def state_for(self, size):
        """The state of a machine that has booted, with a disk of this size, before anything of it is used."""
        state = self.folder / f"state_{size}"
        if not state.exists():
            blank = self.folder / f"blank_{size}"
            blank.touch()
            os.truncate(blank, size)
            with Machine(self, disks.plain(blank)) as machine:
                machine.save(state)
            blank.unlink()
        return state

    def on(self, disk, log=None):
        """A machine that has booted, with this disk, whose writes and flushes may be logged."""
        words = disks.logged(disk, log) if log else disks.plain(disk)
        return Machine(self, words, state=self.state_for(disk.stat().st_size))

    def names(self):
        return "agent", "bytes", *self.ports


class Machine:
    """A machine that is on, and its disk."""

    # the machines that are on, and whether all are to be ended
    all_on, is_over = set(), False

    def __init__(self, kit, disk, state=None, patience=PATIENCE):
        require(not Machine.is_over, "no machine starts any more")
        self.folder = tempfile.TemporaryDirectory(prefix="machine.", dir=kit.folder)
        self.names = kit.names()
        listeners = [self.listener(name, patience) for name in self.names]
        self.run = subprocess.Popen([*self.words(kit, state), *disk], stdin=subprocess.DEVNULL)
        Machine.all_on.add(self.run)
        self.read = b""
        try:
            self.ports = dict(zip(self.names, map(self.accepted, listeners)))
            if state is None:
                self.until(b"ready\n", patience)
            else:
                self.ask("true", patience)
        except BaseException:
            self.end()
            raise

    def words(self, kit, state):
        words = ["qemu-system-x86_64", "-accel", kit.accelerator, "-cpu", "max", "-m", "256", "-nodefaults",
                 "-display", "none", "-no-reboot", "-kernel", str(kit.kernel), "-initrd", str(kit.initramfs),
                 "-append", "quiet panic=-1 mitigations=off", "-device", "virtio-serial-pci",
                 "-monitor", f"unix:{self.folder.name}/monitor,server=on,wait=off"]
        for name in self.names:
            words += ["-chardev", f"socket,id={name},path={self.folder.name}/{name}",
                      "-device", f"virtserialport,chardev={name},name={name}"]
        return words + (["-incoming", f"exec:cat {state}"] if state else [])

    def listener(self, name, patience):
        listener = socket.socket(socket.AF_UNIX)
        listener.bind(f"{self.folder.name}/{name}")
        listener.listen()
        listener.settimeout(patience)
        return listener

    def accepted(self, listener):
        try:
            return listener.accept()[0]
        finally:
            listener.close()

    def __enter__(self):
        return self

    def __exit__(self, *_):
        self.end()

    def more(self, patience=PATIENCE):
        """Reads what the agent tells next."""
        self.ports["agent"].settimeout(patience)
        try:
            piece = self.ports["agent"].recv(65536)
        except TimeoutError as told:
            raise Mismatch(f"the machine tells nothing for {patience} seconds, behind {self.read[-200:]!r}") from told
        require(piece, "the machine is off")
        self.read += piece

    def until(self, mark, patience=PATIENCE):
        """What is told up to this mark and with it."""
        while mark not in self.read:
            self.more(patience)
        told, _, self.read = self.read.partition(mark)
        return told + mark

    def say(self, command):
        self.ports["agent"].sendall(command.encode() + b"\n")

    def ended(self, patience=PATIENCE):
        """What a command prints that was said, and its status."""
        told = []
        while not (line := self.until(b"\n", patience)).startswith(b"done "):
            told.append(line)
        return b"".join(told), int(line.split()[1])

    def ask(self, command, patience=PATIENCE):
        """What a command prints, which has to succeed."""
        self.say(command)
        told, status = self.ended(patience)
        require(status == 0, f"{command}: status {status}: {told[-300:]!r}")
        return told

    def send(self, path, data):
        """Makes a file in the machine."""
        self.say(f"head -c {len(data)} /dev/bytes > {path}")
        self.ports["bytes"].sendall(data)
        told, status = self.ended()
        require(status == 0, f"{path} isn't made: {told!r}")

    def save(self, state):
        """Keeps the state of the machine, which is off then: one that starts from it has booted already."""
        self.ask("echo 3 > /proc/sys/vm/drop_caches; blockdev --flushbufs /dev/vda")
        with socket.socket(socket.AF_UNIX) as monitor:
            monitor.connect(f"{self.folder.name}/monitor")
            monitor.sendall(f'migrate "exec:cat > {state}"\n'.encode())
            told, end = b"", time.monotonic() + PATIENCE
            while b"status: completed" not in told:
                require(time.monotonic() < end and b"status: failed" not in told, f"the state isn't kept: {told[-300:]!r}")
                time.sleep(0.1)
                monitor.sendall(b"info migrate\n")
                told += monitor.recv(65536)
        self.end()

    def cut(self):
        """Cuts the power, and gives what the agent had told before."""
        self.run.kill()
        self.run.wait()
        agent = self.ports["agent"]
        agent.settimeout(PATIENCE)
        # where the machine hadn't read all, the end comes as a reset, behind what it told
        with contextlib.suppress(ConnectionResetError):
            while piece := agent.recv(65536):
                self.read += piece
        return self.read

    @staticmethod
    def end_all():
        """Ends what was started, where an end comes from outside."""
        Machine.is_over = True
        for run in list(Machine.all_on):
            run.kill()

    def end(self):
        if self.run.poll() is None:
            self.run.kill()
        self.run.wait()
        Machine.all_on.discard(self.run)
        for port in getattr(self, "ports", {}).values():
            port.close()
        self.folder.cleanup()


def end_if_told():
    """Ends all machines, and the program, where it is ended from outside."""
    def end(*_):
        Machine.end_all()
        sys.exit("it was ended from outside")

    for ended_by in (signal.SIGTERM, signal.SIGINT, signal.SIGHUP):
        signal.signal(ended_by, end)


def with_accelerator(kit, disk):
    """The kit with KVM, if a machine starts by it here."""
    by_kvm = dataclasses.replace(kit, accelerator="kvm")
    if not os.access("/dev/kvm", os.R_OK | os.W_OK):
        return kit
    try:
        with Machine(by_kvm, disk, patience=TRIED):
            return by_kvm
    except (Mismatch, OSError):
        return kit
