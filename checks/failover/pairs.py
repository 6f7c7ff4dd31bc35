"""Two machines with a wire between them, and DRBD, which keeps a disk of one on the other too."""
import dataclasses
import pathlib
import time

import disks
from machine import PATIENCE, Kit, Machine
from rounds import require

NAMES = ("one", "two")


def wire(here, there, number):
    """The words for a network card whose frames go to the peer's socket, while there is one."""
    ends = f"local.type=unix,local.path={here},remote.type=unix,remote.path={there}"
    return ["-netdev", f"dgram,id=n0,{ends}", "-device", f"virtio-net-pci,netdev=n0,mac=52:54:00:00:00:0{number}"]


@dataclasses.dataclass(frozen=True)
class Replicated(disks.Layout):
    """The ledger's device is DRBD's."""

    def path(self, name="ledger"):
        return "/dev/drbd0"


class Pair:
    """Two machines, by their numbers, 0 and 1, and the disk of each."""

    def __init__(self, kit: Kit, folder: pathlib.Path, protocol="C", is_logged=False):
        self.kit, self.folder, self.protocol, self.is_logged = kit, folder, protocol, is_logged
        self.machines = [None, None]
        folder.mkdir()
        for number in (0, 1):
            Replicated().make(folder / f"disk{number}")

    def __enter__(self):
        return self

    def __exit__(self, *_):
        for machine in self.machines:
            if machine is not None:
                machine.end()

    def log(self, number):
        return self.folder / f"log{number}"

    def wire(self, number):
        return self.folder / f"wire{number}"

    def start(self, number):
        """Starts a machine, and gives it its name, its address and what DRBD is told."""
        disk = self.folder / f"disk{number}"
        self.wire(number).unlink(missing_ok=True)
        if self.is_logged:
            self.log(number).touch()
        words = disks.logged(disk, self.log(number)) if self.is_logged else disks.plain(disk)
        words += wire(self.wire(number), self.wire(1 - number), number + 1)
        machine = self.machines[number] = Machine(self.kit, words)
        machine.ask(f"hostname {NAMES[number]}; ip addr add 10.0.0.{number + 1}/24 dev eth0")
        machine.ask("ip link set lo up; ip link set eth0 up")
        machine.ask("mkdir -p /var/lib/drbd /var/run /var/lock /run/lock /dev/vg; ln -s /dev/vda /dev/vg/ledger")
        if self.protocol != "C":
            # with fencing DRBD refuses protocol A
            machine.ask(f"sed -i 's/protocol C/protocol {self.protocol}/; s/fencing [^;]*;//' /etc/drbd.conf")
        return machine

    def make(self):
        """Starts both, makes the first one the primary, and waits until the second one has its bytes."""
        for number in (0, 1):
            self.start(number).ask("drbdadm create-md --force ledger && drbdadm up ledger")
        self.machines[0].ask("drbdadm primary --force ledger")
        self.await_synced(0)

    def come_back(self, number):
        """Starts a machine again, as the other one's peer."""
        self.start(number).ask("drbdadm up ledger")
        self.await_synced(1 - number)

    def promote(self, number):
        self.machines[number].ask("until drbdadm primary ledger; do sleep 0.2; done")

    def part(self, number):
        """Cuts the wire of a machine: what it sends reaches nobody, and it hears nothing."""
        self.wire(1 - number).unlink()

    def state(self, number):
        return self.machines[number].ask("grep ' 0:' /proc/drbd").decode().strip()

    def await_synced(self, number):
        end = time.monotonic() + PATIENCE
        while "ds:UpToDate/UpToDate" not in (state := self.state(number)):
            require(time.monotonic() < end, f"the disks aren't alike: {state}")
            time.sleep(0.5)
