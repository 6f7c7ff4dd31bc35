"""Files that are made and grown: each step of an opening, and what is left where one fails."""
import errno
import os

from copies import first_layout
from noted import FAILS, NO_ROOM, NOT_WRITABLE, SECTOR, WHOLE, Limits, failing_at, require, require_same

# How many sectors are asked for, and their length in bytes.
SECTORS = 600
LENGTH = 307_200

# A file that lacks three of these sectors. None of its bytes is zero.
OLD_LENGTH = 305_664
OLD = b"\7" * OLD_LENGTH

OPENED = ("open file to write", "open folder to read")
LOCKED = ("lock file alone", "look at file")
FIRST = ("read 512 at 0",)
SYNCED = ("sync file", "sync folder")

# The steps by which a new file is opened. It grows by 256 sectors at a time.
GROWN = ("length 131072", "write 131072 at 0", "length 262144", "write 131072 at 131072", "length 307200",
         "write 45056 at 262144")
MADE = (*OPENED, "open file to make", *LOCKED)
NEW_STEPS = (*MADE, *GROWN, *SYNCED)

# The steps for a file that lacks three sectors, and for one that has them all. Its first sector is read first.
FOUND = (*OPENED, *LOCKED, *FIRST)
OLD_STEPS = (*FOUND, "length 307200", "write 1536 at 305664", *SYNCED)
FULL_STEPS = (*FOUND, *SYNCED)

# What follows if a growth fails: a file that this opening made is removed, another one gets its old length back.
TAKEN_BACK = ("length 0", "remove")
CUT_BACK = ("length 305664",)


def require_opening(programs, before, limits, wanted, steps, after):
    """That an opening ends as wanted, asks for exactly these steps, and leaves these bytes, by each of both programs.
    Only derbyfig names the cause of a refusal."""
    path, of = programs.path, f"an opening of {programs.path} with {limits}"
    for run_it, refused in ((programs.run_script, (3, f"{path}: {wanted}")), (programs.script, (1, "device failed"))):
        programs.holds(before)
        run = run_it(SECTORS, limits)
        status, told = refused if wanted else (0, "")
        require_same(run.ended(), (status, "", told), of)
        require_same(run.steps, tuple(steps), f"the steps of {of}")
        require_same(programs.held() == after, True, f"the bytes behind {of}")


def of_a_new_file(programs):
    """The third step makes it. If a step fails from the sixth one on, the file is removed again."""
    require_opening(programs, None, WHOLE, None, NEW_STEPS, bytes(LENGTH))
    for fails in range(len(NEW_STEPS)):
        then = () if fails < 5 else TAKEN_BACK if fails < 11 else TAKEN_BACK[1:]
        after = b"" if fails in (3, 4) else None
        require_opening(programs, None, failing_at(fails), FAILS, NEW_STEPS[:fails + 1] + then, after)


def of_an_old_file(programs):
    """If a step fails, it keeps its bytes, and its length unless only a sync failed. If its first sector can't be read,
    a script's file isn't grown."""
    grown = OLD + bytes(LENGTH - OLD_LENGTH)
    require_opening(programs, OLD, WHOLE, None, OLD_STEPS, grown)
    for fails in range(len(OLD_STEPS)):
        steps = OLD_STEPS[:fails + 1]
        if fails == len(FOUND) - 1:
            require_opening(programs, OLD, failing_at(fails), None, (*steps, *SYNCED), OLD)
            continue
        is_growing = fails in (5, 6)
        then = CUT_BACK if is_growing else ()
        require_opening(programs, OLD, failing_at(fails), FAILS, steps + then, grown if fails > 6 else OLD)


def of_a_file_that_has_them_all(programs):
    """A file that has all sectors is only synced, and its folder too."""
    for length in (LENGTH, LENGTH + SECTOR):
        require_opening(programs, b"\7" * length, WHOLE, None, FULL_STEPS, b"\7" * length)


# The number of the step that fails, its error, and the cause that is printed.
CAUSES = (
    (0, errno.EACCES, NOT_WRITABLE),
    (0, errno.EROFS, NOT_WRITABLE),
    (0, errno.EISDIR, "it is neither a file nor a disk"),
    (0, errno.ENOTDIR, "there is no such file; derbyfig format makes a ledger there"),
    (0, errno.EMFILE, FAILS),
    (1, errno.ENOENT, "there is no such folder; make it first"),
    (1, errno.EACCES, NOT_WRITABLE),
    (2, errno.ENOSPC, NO_ROOM),
    (3, errno.EWOULDBLOCK, "another program has it; end that one first"),
    (3, errno.ENOSYS, FAILS),
    (5, errno.EFBIG, NO_ROOM),
    (6, errno.EDQUOT, NO_ROOM),
    (6, errno.ENOSPC, NO_ROOM),
    (11, errno.ENOSPC, NO_ROOM),
    (12, errno.EIO, FAILS),
)


def that_have_a_cause(programs):
    """derbyfig prints the cause of a failed step, and both programs print that they are out of memory."""
    for fails, error, told in CAUSES:
        programs.holds(None)
        run = programs.run_script(SECTORS, failing_at(fails, error=error))
        require_same(run.ended(), (3, "", f"ledger: {told}"), f"step {fails} with {errno.errorcode[error]}")
        programs.holds(None)
        run = programs.script(SECTORS, failing_at(fails, error=error))
        require_same(run.ended(), (1, "", "device failed"), f"step {fails} of the console, {errno.errorcode[error]}")
    for run_it, status in ((programs.run_script, 3), (programs.script, 1)):
        programs.holds(None)
        run = run_it(SECTORS, failing_at(0, error=errno.ENOMEM))
        require_same(run.ended(), (status, "", "out of memory"), "an opening without memory")


def in_a_folder_that_may_not_be_read(programs):
    """A file that is there is opened, and its folder isn't synced. No file is made in such a folder."""
    limits = failing_at(1, error=errno.EACCES)
    require_opening(programs, OLD, limits, None, OLD_STEPS[:-1], OLD + bytes(LENGTH - OLD_LENGTH))
    require_opening(programs, None, limits, NOT_WRITABLE, NEW_STEPS[:2], None)


def in_parts(programs):
    """If the system writes only a part of the zeros, the rest is written too. A piece takes three writes of 50,000
    bytes, and the last piece takes one. If one of these calls fails, the file is removed."""
    parts = []
    for at, count in ((0, 131_072), (131_072, 131_072), (262_144, 45_056)):
        parts.append(f"length {at + count}")
        parts += [f"write {count - moved} at {at + moved}" for moved in range(0, count, 50_000)]
    steps = (*MADE, *parts, *SYNCED)
    require_same(len(steps), 5 + 10 + 2, "how many steps there are")
    require_opening(programs, None, Limits(most=50_000), None, steps, bytes(LENGTH))
    for fails in range(5, 16):
        then = TAKEN_BACK if fails < 15 else TAKEN_BACK[1:]
        require_opening(programs, None, failing_at(fails, most=50_000), FAILS, steps[:fails + 1] + then, None)


def in_the_folder_of_the_name(programs):
    """The folder that a name stands in is opened and synced, however the path is written."""
    whole = str(programs.folder.resolve())
    (programs.folder / "books" / "1").mkdir(parents=True)
    for path, parent in (("ledger", "."), ("./ledger", "."), ("books/ledger", "books"), ("books/1/ledger", "books/1"),
                         (f"{whole}/ledger", whole), (f"{whole}/books/ledger", f"{whole}/books")):
        programs.at(path, parent)
        require_opening(programs, None, WHOLE, None, NEW_STEPS, bytes(LENGTH))
    # The third step fails, so that nothing is made in the root folder.
    path = f"/{programs.folder.parent.name}"
    require(not os.path.lexists(path), f"{path} is there")
    programs.at(path, "/")
    require_opening(programs, None, failing_at(2), FAILS, NEW_STEPS[:3], None)


def with_closed_streams(programs):
    """If the file has the number of a standard stream, it gets another one before it is locked. If that fails, it is
    refused."""
    for closed in ((0,), (1,), (2,), (0, 1, 2)):
        for before in (None, bytes(LENGTH)):
            programs.holds(before)
            run = programs.script(SECTORS, closed=closed)
            lock, of = run.steps.index(LOCKED[0]), f"an opening without the streams {closed}"
            steps = tuple(step for step in run.steps if step != "move file")
            require_same(steps, NEW_STEPS if before is None else FULL_STEPS, f"the steps of {of}")
            # A new file is opened after its folder, which takes the lowest free number.
            is_moved = before is not None or len(closed) > 1
            require_same(run.steps[lock - 1] == "move file", is_moved, f"whether the file is moved in {of}")
            behind = zip(run.steps[lock:], run.numbers[lock:])
            low = [step for step, number in behind if number <= 2 and step != "sync folder"]
            require_same(low, [], f"what is asked of a stream's number in {of}")
    programs.holds(bytes(LENGTH))
    run = programs.script(SECTORS, failing_at(2), closed=(1,))
    wanted = (1, "", "device failed"), (*OPENED, "move file")
    require_same((run.ended(), run.steps), wanted, "a file that can't be moved")
    require_same(programs.held() == bytes(LENGTH), True, "the bytes of a file that can't be moved")


def that_never_cut(programs):
    """A file is made and grown, and keeps its bytes, however few sectors are asked for."""
    require_same(programs.script(3).ended(), (0, "", ""), "a file of three sectors")
    require_same(programs.held(), bytes(3 * SECTOR), "three sectors that were made")
    second = b"\x5a" * SECTOR
    programs.holds(bytes(SECTOR) + second + bytes(SECTOR))
    for asked, found in ((1, 3), (2, 3), (600, 600), (1, 600), (601, 601)):
        require_same(programs.script(asked).ended(), (0, "", ""), f"a file with {asked} sectors")
        wanted = bytes(SECTOR) + second + bytes(SECTOR * (found - 2))
        require_same(programs.held() == wanted, True, f"the bytes of {found} sectors")


def of_an_older_ledger(programs):
    """An older ledger is opened with all the sectors that it has, and keeps its bytes and its length. If a step fails,
    nothing is made beside it."""
    old, steps = first_layout(), (*OPENED, *LOCKED, *SYNCED)
    programs.holds(old)
    words = [programs.console, "--migrate", programs.path, "--device", "new", "--sectors", "60", "--slots", "4"]
    for fails in range(len(steps)):
        run = programs.run(words, failing_at(fails))
        require_same((run.ended(), run.steps), ((1, "", "device failed"), steps[:fails + 1]), f"a copy, step {fails}")
        require_same(sorted(path.name for path in programs.folder.iterdir()), ["ledger"], f"what is made, step {fails}")
    run = programs.run(words)
    require_same(run.ended(), (0, "migrated 4\n", ""), "a copy of an older ledger")
    require_same(run.steps[:len(steps)], steps, "the steps of an older ledger")
    require_same(programs.held() == old, True, "the bytes of an older ledger")
