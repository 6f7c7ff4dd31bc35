"""Copies of ledgers and of older ones, and what is left where one is refused."""
import os
import shutil
import subprocess

from holdings import FOREIGN, LEDGER
from parts import make
from programs import Said, kept, require_same

MIGRATES = "derbyfig migrate copies one of version 1 or 2 to a new file"


def word(number, length):
    return number.to_bytes(length, "big")


def deposit(amount, reference):
    """An entry that deposits in account 1."""
    return word(1, 1) + bytes(7) + word(1, 4) + bytes(4) + word(amount, 8) + word(reference, 8)


def record(station, sequence, entry):
    return (b"TLB1" + word(station, 2) + word(1, 2) + word(sequence, 8) + bytes(16) + entry).ljust(512, b"\0")


OPEN = b"\xa5".ljust(512, b"\0")


def first_layout(slots=4):
    """A ledger of layout 1, with a deposit of 500."""
    superblock = (b"TLDG" + word(1, 2) + bytes(2) + word(slots, 8)).ljust(512, b"\0")
    return (superblock + record(0, 0, deposit(500, 3)) + OPEN).ljust(512 * (1 + 2 * slots), b"\0")


def second_layout():
    """One of layout 2 with one slot in each bank, of which the second is live: 5 in account 1, and a deposit of 5."""
    superblock = (b"TLDG" + word(2, 2) + bytes(2) + word(1, 8)).ljust(512, b"\0")
    heads = [(b"TLBK" + bytes(4) + word(epoch, 8) + word(epoch, 8)).ljust(512, b"\0") for epoch in (0, 1)]
    first = OPEN + heads[0] + bytes(512 * 3)
    second = OPEN + heads[1] + word(5, 8).ljust(512, b"\0") + record(1, 1, deposit(5, 1)) + OPEN
    return superblock + first + second


def migrate(programs, old, new, *words):
    return programs.run(programs.derbyfig, "migrate", str(old), str(new), "--slots", "4", *words)


def closed(ledger, slots):
    """A ledger neither of whose banks is open."""
    second = 512 * (1 + 19 + 2 * slots)
    return ledger[:512] + bytes(512) + ledger[1024:second] + bytes(512) + ledger[second + 512:]


def copy(programs, old, new, slots, *words):
    return programs.run(programs.derbyfig, "copy", str(old), str(new), "--slots", str(slots), *words)


def of_ledgers(programs, _moments):
    """A copy has the balances and the seals, the next number and its own slots, and goes on; the ledger stays."""
    old, new = programs.folder / "old", programs.folder / "new"
    posted = "open 2 00 10\npost 0 deposit 7 70\nturn 0\npost 1 seal 7\nturn 1\n"
    require_same(programs.run_script(old, f"format 3\n{posted}", "--sectors", "51").status, 0, "the ledger")
    old.chmod(0o400)
    before = kept(old)
    for slots in (5_000, 1):
        require_same(copy(programs, old, new, slots), Said(0, f"copied {slots}\n", ""), f"a copy to {slots} slots")
        require_same(new.stat().st_size, 512 * (39 + 4 * slots), "the length of the copy")
        told = [programs.run(programs.derbyfig, "balances", str(path)).printed for path in (old, new)]
        require_same(told[1], told[0], "the balances of the copy")
        goes_on = "opened 2 next 2 total 70\n"
        require_same(programs.run_script(new, "open 2 00 10\n").printed, goes_on, "the copy that is opened")
        require_same(copy(programs, old, new, 1), Said(1, "", f"{new}: {LEDGER}"), "a copy onto a ledger")
        require_same(copy(programs, old, new, 1, "--overwrite"), Said(0, "copied 1\n", ""), "a copy that erases one")
        new.unlink()
    require_same(kept(old), before, "the ledger that was copied")


def that_are_no_ledgers(programs, _moments):
    """What isn't a sound ledger is told with its path, and nothing is made of it."""
    old, new = programs.folder / "old", programs.folder / "new"
    present = kept(make(programs, "present", 4, 30))
    for held, status, sentence in (
        (None, 3, "there is no such file"),
        (first_layout(), 1, f"it holds a ledger of version 1; {MIGRATES}"),
        (present[:512 * 50], 1, "its number of slots is out of range, or it is too short for them"),
        (closed(present, 4), 1, "damage at 0: a bank isn't sound, or none is live"),
        (b"2026-11-26 opening balance\n".ljust(512), 1, "it holds no ledger"),
    ):
        if held is not None:
            old.write_bytes(held)
        require_same(copy(programs, old, new, 4), Said(status, "", f"{old}: {sentence}"), "a copy of what is no ledger")
        require_same(kept(new), None, f"the copy of what is told as {sentence}")


def of_earlier_versions(programs, _moments):
    """The copy holds what the older file does, which keeps its bytes; a file that is there has to hold nothing."""
    for number, (older, opened) in enumerate(((first_layout(), "next 1 total 500"), (second_layout(), "next 2 total 10"))):
        old, new = (programs.folder / f"{name}_{number}" for name in ("old", "new"))
        old.write_bytes(older)
        old.chmod(0o400)
        for before in (None, bytes(512 * 3), bytes(512 * 70)):
            new.unlink(missing_ok=True)
            if before is not None:
                new.write_bytes(before)
            require_same(migrate(programs, old, new), Said(0, "migrated 4\n", ""), f"the copy of {old.name} over {before}")
            require_same(new.stat().st_size, max(512 * 55, len(before or b"")), "the length of the copy")
            require_same(programs.run_script(new, "open 2 00 10\n").printed, f"opened 2 {opened}\n", "the copy")
        require_same(kept(old), older, "the older ledger")
        require_same(migrate(programs, old, new), Said(1, "", f"{new}: {LEDGER}"), "a copy onto a ledger")
        require_same(migrate(programs, old, new, "--overwrite"), Said(0, "migrated 4\n", ""), "a copy that erases one")


def that_are_refused(programs, moments):
    """Nothing is made, and what was there keeps its bytes."""
    new = programs.folder / "new"
    missing = programs.folder / "missing"
    require_refused(programs, missing, new, 3, f"{missing}: there is no such file")
    require_same(kept(missing), None, "an older file that isn't there")
    present = make(programs, "present", 4, 30)
    require_refused(programs, present, new, 1, f"{present}: it holds a ledger of version 3; {MIGRATES}")
    damaged = programs.folder / "damaged"
    older = first_layout()
    damaged.write_bytes(older[:512 + 32] + b"\4" + older[512 + 33:])
    require_refused(programs, damaged, new, 1, f"{damaged}: damage at 0: place 0 of a record is no entry")
    text = programs.folder / "text"
    text.write_bytes(b"2026-11-26 opening balance\n".ljust(512))
    require_refused(programs, text, new, 1, f"{text}: it holds no ledger")
    old = programs.folder / "old"
    old.write_bytes(older)
    for held, sentence in ((moments.randbytes(1024), FOREIGN), (kept(present), LEDGER)):
        new.write_bytes(held)
        require_refused(programs, old, new, 1, f"{new}: {sentence}")
    # blank, and damaged: a file that was there stays
    new.write_bytes(bytes(512 * 55))
    require_refused(programs, damaged, new, 1, f"{damaged}: damage at 0: place 0 of a record is no entry")


def require_refused(programs, old, new, status, told):
    before = kept(new)
    require_same(migrate(programs, old, new), Said(status, "", told), f"a copy of {old.name}")
    require_same(kept(new) == before, True, f"{new} behind a copy of {old.name} that is refused")


def unsound(programs, moments):
    """What isn't a ledger to copy: by name, the bytes."""
    present = kept(make(programs, "sound", 4, 30))
    broken = bytearray(present)
    broken[512 * 20] ^= 1
    return {"empty": b"", "zeros": bytes(512 * 55), "text": b"2026-11-26 opening balance\n".ljust(512),
            "part": present[:512 * 50], "closed": closed(present, 4), "noise": moments.randbytes(512 * 55),
            "broken": bytes(broken), "unknown": b"TLDG\0\4".ljust(512 * 55, b"\0")}


def disk_over(file):
    """A disk over a file, if this user may have one."""
    file.write_bytes(bytes(512 * 600))
    if not shutil.which("losetup"):
        return None
    made = subprocess.run(["losetup", "-f", "--show", str(file)], capture_output=True, text=True, check=False)
    return made.stdout.strip() if made.returncode == 0 else None


def that_leave_the_new_file(programs, moments):
    """A copy that is refused with status 1 leaves NEW as it was: none, an empty file, zeros, a ledger, a disk."""
    olds = unsound(programs, moments)
    refused = {"copy": olds | {"first": first_layout(), "second": second_layout()},
               "migrate": olds | {"present": kept(make(programs, "present", 4, 30))}}
    news = {"missing": None, "nothing": b"", "blank": bytes(512 * 70), "ledger": kept(make(programs, "another", 8, 45))}
    old, new, link = (programs.folder / name for name in ("old", "new", "link"))
    link.symlink_to(programs.folder / "behind")
    backing = programs.folder / "backing"
    disk = disk_over(backing)
    try:
        for command, found in refused.items():
            for name, held in found.items():
                old.write_bytes(held)
                for before in news.values():
                    new.unlink(missing_ok=True)
                    if before is not None:
                        new.write_bytes(before)
                    for words in ((), ("--overwrite",)):
                        require_left(programs, (command, old, new, *words), name, lambda: kept(new))
                require_left(programs, (command, old, link), name, lambda: (os.readlink(link), (programs.folder / "behind").exists()))
                if disk:
                    require_left(programs, (command, old, disk), name, backing.read_bytes)
    finally:
        if disk:
            subprocess.run(["losetup", "-d", disk], check=True)
    if not disk:
        print("not tried: copies to a disk, since there is no loop device")


def require_left(programs, words, name, held):
    """That a copy of what isn't a ledger is refused, and what is held stays."""
    before = held()
    said = programs.run(programs.derbyfig, *map(str, words), "--slots", "64")
    require_same((said.status, said.printed, said.told != ""), (1, "", True), f"{words} of {name}")
    require_same(held() == before, True, f"{words} of {name} leaves what was there")
