"""Recordings: the work of a machine, with each write and flush of its disk, and how long the log was when something was
told. The log may have grown between the telling and the look at it; then less is demanded of a crash, and never more."""
import dataclasses
import pathlib
import shutil

import disks


@dataclasses.dataclass
class Recording:
    """What is needed to make crashes: the disk before, the log, and what was told at which length of it."""

    layout: disks.Layout
    work: object
    folder: pathlib.Path
    tellings: list = dataclasses.field(default_factory=list)

    def base(self):
        return (self.folder / "base").read_bytes()

    def log(self):
        return (self.folder / "log").read_bytes()

    def whole(self, kind):
        return self.layout.whole(self.folder / "base", kind.spares)

    def told_by(self, end):
        """What was told when the log was no longer than this."""
        return [what for length, what in self.tellings if length <= end]


def record(kit, name, layout, work, preload=""):
    """A machine that works on a new disk, until its work is done."""
    folder = kit.folder / name
    folder.mkdir()
    base, live, log = folder / "base", folder / "live", folder / "log"
    layout.make(base)
    with kit.on(base) as machine:
        layout.mount(machine)
        work.prepare(machine, layout)
        layout.unmount(machine)
    shutil.copyfile(base, live)
    log.touch()
    recording = Recording(layout, work, folder)
    with kit.on(live, log) as machine:
        layout.mount(machine)
        work.work(machine, layout, preload, lambda what: recording.tellings.append((log.stat().st_size, what)))
        machine.cut()
    live.unlink()
    return recording
