"""Block devices: the steps of an opening, and which disks are refused for what they hold or for who uses them.

A library lets the programs take a file for a block device.
"""
import errno

from noted import SECTOR, WHOLE, failing_at, require_same

# How many sectors are asked for, and how many bytes are looked at.
ASKED = 300
FRONT = 131_072

FOUND = ("open file to write", "open folder to read", "lock file alone", "look at file", "end of file")

# The steps of an opening of a disk, whose first 256 sectors are looked at, and of one that may be written over.
LOOKED_AT = (*FOUND, f"read {FRONT} at 0", "sync file")
OVERWRITTEN = (*FOUND, "sync file")

NO_LEDGER = "is a disk that holds no ledger; --overwrite takes it all the same"
TOO_SMALL = "is a disk with too few sectors"
IN_USE = "is a disk that is in use"
DENIED = "is a disk that may not be read and written"
NO_DISK = "is no disk, and --overwrite is for disks alone"


def begin(programs, number="7:1"):
    """Writes the tables of a machine on which nobody uses the disk with this number."""
    programs.disk = number
    tell(programs, "proc/self/mountinfo", "25 1 254:0 / / rw,relatime shared:1 - ext4 /dev/elsewhere rw\n")
    tell(programs, "proc/swaps", "Filename\tType\tSize\tUsed\tPriority\n")
    tell(programs, f"sys/dev/block/{number}/ro", "0\n")
    (programs.tables / f"sys/dev/block/{number}/holders").mkdir(exist_ok=True)


def tell(programs, table, text):
    """Writes one of the system's tables."""
    path = programs.tables / table
    path.parent.mkdir(parents=True, exist_ok=True)
    path.write_text(text, encoding="ascii")


def require_answered(programs, held, wanted, steps=None, limits=WHOLE, more=()):
    """That a disk with these bytes is opened, or refused as wanted, and keeps its bytes. If steps are given, that the
    opening asks for exactly these."""
    of = f"a disk of {len(held) // SECTOR} sectors that begins with {held[:8]!r}, {more}, {limits}"
    programs.holds(held)
    run = programs.script(ASKED, limits, more=more)
    told = {None: "", "": "device failed"}.get(wanted, f"device failed: {programs.path} {wanted}")
    require_same(run.ended(), (0 if wanted is None else 1, "", told), of)
    if steps is not None:
        require_same(run.steps, tuple(steps), f"the steps of {of}")
    require_same(programs.held() == held, True, f"the bytes of {of}")


def of_which_a_step_fails(programs):
    """A disk is locked, looked at and synced. If a step fails, it is the last one, and the disk is refused."""
    begin(programs)
    blank = bytes(SECTOR * 400)
    require_answered(programs, blank, None, LOOKED_AT)
    for fails in range(len(LOOKED_AT)):
        require_answered(programs, blank, "", LOOKED_AT[:fails + 1], failing_at(fails))


def that_have_a_cause(programs):
    """A disk that may not be opened, and one that another program has, are reported as disks by both programs."""
    begin(programs)
    whole, blank = str(programs.folder.resolve()), bytes(SECTOR * 400)
    # The library knows a disk by its whole path.
    programs.at(f"{whole}/ledger", whole)
    for fails, error, wanted in ((0, errno.EACCES, DENIED), (0, errno.EROFS, DENIED), (2, errno.EWOULDBLOCK, IN_USE),
                                 (2, errno.EBUSY, IN_USE)):
        limits = failing_at(fails, error=error)
        require_answered(programs, blank, wanted, LOOKED_AT[:fails + 1], limits)
        told = f"{programs.path}: it {wanted}"
        require_same(programs.run_script(ASKED, limits).ended(), (3, "", told), f"derbyfig with {limits}")


def that_hold_a_ledger_or_nothing(programs):
    """A disk is opened if it begins as a ledger does or with 256 sectors of zeros, and is large enough."""
    begin(programs)
    for sectors, held, rest, wanted in (
            (300, b"TLDG", b"\7", None), (300, b"TLDF", b"\7", NO_LEDGER), (300, b"TLD", b"\0", NO_LEDGER),
            (300, bytes(FRONT - 1), b"\1", NO_LEDGER), (300, bytes(FRONT), b"\1", None),
            (299, b"TLDG", b"\7", TOO_SMALL), (0, b"", b"\0", TOO_SMALL)):
        require_answered(programs, held.ljust(SECTOR * sectors, rest), wanted)


def that_are_written_over(programs):
    """With --overwrite a disk is opened whatever it holds, unless it is too small. A file is refused; none is made."""
    begin(programs)
    full, more = b"TLDF".ljust(SECTOR * ASKED, b"\7"), ("--overwrite",)
    require_answered(programs, full, None, OVERWRITTEN, more=more)
    for fails in range(len(OVERWRITTEN)):
        require_answered(programs, full, "", OVERWRITTEN[:fails + 1], failing_at(fails), more)
    require_answered(programs, full[SECTOR:], TOO_SMALL, more=more)
    programs.disk = ""
    require_answered(programs, full, NO_DISK, FOUND[:4], more=more)
    programs.holds(None)
    require_same(programs.script(ASKED, more=more).ended(), (1, "", "device failed"), "a disk that isn't there")
    require_same(programs.held(), None, "a disk that isn't there")


# Lines of the table of mounts. One has the disk's number where numbers stand, one has it in other places.
MOUNTED = "37 35 7:1 / /mnt rw - ext4 /dev/elsewhere rw\n"
LIKE_IT = "37 35 7:11 / /7:1 rw - ext4 7:1 rw\n"
OTHER = "36 35 8:1 / /srv rw,noatime master:1 - ext4 /dev/elsewhere rw\n"


def that_are_mounted(programs):
    """A disk is refused if a line of the mounts has its number, and isn't if a word of a line only looks like it."""
    begin(programs)
    for line, wanted in ((MOUNTED, IN_USE), (LIKE_IT, None)):
        tell(programs, "proc/self/mountinfo", OTHER + line)
        require_answered(programs, bytes(SECTOR * 400), wanted)


def that_have_a_number(programs):
    """A disk's tables are found by its number as the system prints it, whichever bits of the system's word it takes."""
    for number in ("7:0", "8:16", "253:259", "8:65537", "4104:0"):
        begin(programs, number)
        require_answered(programs, bytes(SECTOR * 400), None)
        tell(programs, f"sys/dev/block/{number}/ro", "1\n")
        require_answered(programs, bytes(SECTOR * 400), DENIED)
        tell(programs, f"sys/dev/block/{number}/ro", "0\n")
        tell(programs, "proc/self/mountinfo", MOUNTED.replace("7:1", number))
        require_answered(programs, bytes(SECTOR * 400), IN_USE)


def that_are_too_small_for_a_ledger(programs):
    """If a disk is too small for a ledger, both numbers of sectors are printed, and the disk keeps its bytes."""
    begin(programs)
    programs.holds(bytes(SECTOR * 54))
    run = programs.run([programs.derbyfig, "format", programs.path, "--slots", "4"])
    told = "ledger: it has 54 sectors, and a ledger of 4 slots needs 55"
    require_same(run.ended(), (1, "", told), "a ledger on a disk that is too small")
    require_same(programs.held(), bytes(SECTOR * 54), "a disk that is too small")
    programs.holds(bytes(SECTOR * 55))
    run = programs.run([programs.derbyfig, "format", programs.path, "--slots", "4"])
    require_same(run.ended(), (0, "formatted 4\n", ""), "a ledger on a disk that isn't too small")
