"""Cuts: a machine is killed amid its work, started again, its file system mounted, the ledger opened by the machine, and
what is there compared with what was told.

A cut takes what the machine held in memory, and nothing of its disk's cache, which is the host's memory. So it shows that
what was told had left the machine, and not that it was flushed: that is what crashes out of recordings are for."""
import dataclasses

import disks
from counters import Counters
from machine import Machine
from replays import Outcome
from rounds import Mismatch, wait
from turns import Turns


class Moment(Exception):
    """The power is cut now."""


@dataclasses.dataclass
class InMachine:
    """The ledgers in a machine that is on."""

    machine: Machine
    layout: disks.Layout

    def said(self, name, script, by="console"):
        path = self.layout.path(name)
        words = f"console --device {path}" if by == "console" else f"derbyfig run {path}"
        lines = script.decode().replace("\n", "\\n")
        return self.machine.ask(f"printf '{lines}' | {words}; true")


def cut_amid(machine, layout, work, preload, moments):
    """Cuts the power of a machine at a random moment of its work, and gives what was told."""
    told, last, part = [], moments.randrange(1, 150), moments.uniform(0, 0.02)

    def note(what):
        told.append(what)
        if len(told) == last:
            wait(part)
            raise Moment

    try:
        work.work(machine, layout, preload, note)
    except Moment:
        work.hear_rest(machine, told.append)
        return told
    raise Mismatch("the work was done before its moment")


def series(kit, name, work_of, count, preload, moments):
    """The outcome of so many cuts of one disk, and how many turns or answers were told in all."""
    layout, outcome, told_in_all, held = disks.EXT4, Outcome(), 0, None
    disk = kit.folder / name
    layout.make(disk)
    for number in range(1, count + 1):
        work = work_of(number, held)
        with Machine(kit, disks.plain(disk), state=kit.state_for(layout.size())) as machine:
            layout.mount(machine)
            told = cut_amid(machine, layout, work, preload, moments)
        told_in_all += told_of(work, told)
        with Machine(kit, disks.plain(disk), state=kit.state_for(layout.size())) as machine:
            outcome.crashes += 1
            held = found_by(machine, layout, work, told, outcome)
    disk.unlink()
    return outcome, told_in_all


def of_turns(_number, held):
    """Turns behind those that the ledger holds."""
    return Turns(count=400, first=held)


def of_counters(number, _held):
    """An office on a new ledger, which is asked until its end."""
    return Counters(count=100_000, round=number)


WORK = {Turns: of_turns, Counters: of_counters}


def told_of(work, told):
    """How many turns or answers were told."""
    if isinstance(work, Turns):
        return told[-1] - (work.first or 0)
    return sum(dict(told).values())


def found_by(machine, layout, work, told, outcome):
    """How many turns the ledger holds, or nothing, if it has to be made again."""
    try:
        layout.mount(machine)
        outcome.behind += 1
        held = work.require_kept(InMachine(machine, layout), told)
    except Mismatch as fault:
        outcome.note(outcome.crashes, fault)
        held = None
    machine.ask("rm -f /mnt/ledger?*; sync" if held is not None else "rm -f /mnt/ledger*; sync")
    layout.unmount(machine)
    return held
