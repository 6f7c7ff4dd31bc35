"""What an office knows of a counter that posted long ago: its postings stand in an archive alone, or can't be seen."""
import contextlib
import fcntl
import os
import pathlib
import subprocess

from office import Mismatch, await_until, require, require_same

# The posting of the idle counter, and the one that it would post next.
FIRST, NEXT = "deposit 1 5 7", "deposit 1 5 8"


def derbyfig(case, *words):
    """A command that has to be done."""
    run = subprocess.run([case.program, *map(str, words)], capture_output=True, text=True, check=False)
    require_same((run.returncode, run.stderr), (0, ""), f"{words}")


def close(client, office):
    require_same(client.ask("close"), ["closing"], "the answer to close")
    office.closed()


def post(client, count, number):
    """So many postings without references, of which the first is the batch of that number."""
    for at in range(count):
        require_same(client.ask("deposit 2 1"), [f"posted {number + at} 0"], "a posting")


def several_files(case, idle, busy, files=3, slots=2):
    """A ledger and its archive of so many files; the idle counter's posting is in the first alone."""
    books = case.folder / "books"
    books.mkdir()
    with case.formatted([idle, busy], slots) as office:
        office.opened(idle, busy)
        require_same(idle.ask(FIRST), ["posted 0 7"], "the posting of the idle counter")
        close(idle, office)
    derbyfig(case, "archive", case.device, books)
    for number in range(1, files):
        forget(idle, busy)
        with case.office([idle, busy]) as office:
            office.opened(idle, busy)
            post(busy, slots, 1 + slots * (number - 1))
            close(busy, office)
        derbyfig(case, "archive", case.device, books)
    forget(idle, busy)
    require_same(len(ledgers(books)), files, "the files of the archive")
    return books


def forget(*counters):
    for counter in counters:
        counter.hear_rest()
        counter.leave()


def ledgers(books):
    return sorted(path for path in books.iterdir() if path.name.isdigit())


def require_once(case, idle, words, before=(), around=()):
    """That the idle counter's posting, said again, isn't posted, nor is it refused for its reference; or no office opens."""
    with case.office([idle], *words, before=before) as office:
        if not is_open(office):
            require(office.status() in (1, 2, 3) and office.told(), f"{around}: it ends as {office.all_said()}")
            return False
        try:
            idle.come()
        except Mismatch:  # it has ended since
            require(office.status() in (1, 2, 3) and office.told(), f"{around}: it ends as {office.all_said()}")
            return False
        wanted = {"last": ("last 7 0", "last unknown", "refused"),
                  FIRST: ("posted 0 7", "refused Unknown", "refused Device", "refused Closed")}
        for said in (*wanted, NEXT):
            told = answer(idle, said)
            if told == "closing":  # the device failed
                break
            if said == NEXT:
                require(not told.startswith("refused Reference"), f"{around}: {NEXT} is answered {told!r}")
            else:
                require(told.startswith(wanted[said]), f"{around}: {said} is answered {told!r}")
        with contextlib.suppress(BrokenPipeError):
            idle.say(b"close\n")
        office.status()
    forget(idle)
    return told.startswith("posted")


def answer(client, said):
    """The next line that is told, behind which an office that closes may tell more; "closing" of one that has closed."""
    try:
        client.say(said.encode() + b"\n")
    except BrokenPipeError:
        return "closing"
    await_until(lambda: b"\n" in client.heard or client.listen() and b"\n" in client.heard, lambda: f"{said} isn't answered")
    line, _, client.heard = client.heard.partition(b"\n")
    return line.decode()


def is_open(office):
    """Whether the office opens; if not, it ends."""
    def found():
        opens = any(line.startswith("opened ") for line in office.printed())
        return (opens,) if opens or office.run.poll() is not None else None

    return await_until(found, lambda: f"it neither opens nor ends, but has said {office.all_said()}")[0]


def over_several_files(case):
    """The posting of a counter that was idle since the first of four files is found there. With a file that is damaged, locked,
    no ledger or another one's, nothing is posted in its place."""
    idle, busy = case.counters(2)
    books = several_files(case, idle, busy, files=4)
    archive = ("--archive", str(books))
    kept = {path: path.read_bytes() for path in ledgers(books)}
    first, *others = kept
    spoilt = {
        "a damaged superblock": lambda path: path.write_bytes(b"\xff" + kept[path][1:]),
        "a damaged record": lambda path: path.write_bytes(damaged(kept[path])),
        "no ledger": lambda path: path.write_bytes(b""),
        "half of it": lambda path: path.write_bytes(kept[path][:512 * 8]),
        "another file's": lambda path: path.write_bytes(kept[first if path != first else others[0]]),
        "a folder": lambda path: (path.unlink(), path.mkdir()),
        "a link that leads nowhere": lambda path: (path.unlink(), path.symlink_to(case.folder / "nowhere")),
    }
    for path in (first, others[0], others[-1]):
        for name, spoil in spoilt.items():
            spoil(path)
            before = ledger_of(case)
            posts = require_once(case, idle, archive, around=f"{name} at {path.name}")
            if path == first:
                require(not posts, f"{name} at {path.name}: {NEXT} is posted")
            path.rmdir() if path.is_dir() else path.unlink()
            path.write_bytes(kept[path])
            put_back(case, books, kept, before)
    with open(first, "rb") as held:
        fcntl.flock(held, fcntl.LOCK_EX)
        require(not require_once(case, idle, archive, around="a locked file"), f"a locked file: {NEXT} is posted")
    require(require_once(case, idle, archive, around="a sound archive"), f"a sound archive: {NEXT} isn't posted")


def damaged(ledger):
    """A ledger with another byte in the body of its first record, which its gate still says to be there."""
    at = ledger.index(b"TLB1") + 40
    return ledger[:at] + bytes([ledger[at] ^ 1]) + ledger[at + 1:]


def ledger_of(case):
    """What is kept of a ledger: its bytes, and those of its counters."""
    beside = case.device.with_name(f"{case.device.name}.counters")
    return case.device.read_bytes(), beside, beside.read_bytes()


def put_back(case, books, kept, before):
    """The ledger, its counters and its archive, as they were."""
    held, beside, counters = before
    case.device.write_bytes(held)
    beside.write_bytes(counters)
    for path in set(ledgers(books)) - set(kept):
        path.unlink()


def begun_late(case):
    """An archive that was begun behind a posting doesn't tell of it: nothing is posted in its place."""
    idle, busy = case.counters(2)
    books = case.folder / "books"
    books.mkdir()
    with case.formatted([idle, busy], 2) as office:
        office.opened(idle, busy)
        require_same(idle.ask(FIRST), ["posted 0 7"], "the posting of the idle counter")
        post(busy, 6, 1)
        close(busy, office)
    forget(idle, busy)
    derbyfig(case, "archive", case.device, books)
    require(ledgers(books)[0].name > "0" * 20, "the archive begins with the first batch")
    require(not require_once(case, idle, ("--archive", str(books)), around="an archive that was begun late"), f"{NEXT} is posted")


def in_a_long_file(case):
    """The first of 700 batches of one file, as many as are added at once, is found."""
    idle, busy = case.counters(2)
    books = case.folder / "books"
    books.mkdir()
    with case.formatted([idle, busy], 700) as office:
        office.opened(idle, busy)
        require_same(idle.ask(FIRST), ["posted 0 7"], "the posting of the idle counter")
        post(busy, 699, 1)
        close(busy, office)
    forget(idle, busy)
    derbyfig(case, "archive", case.device, books)
    require_same(len(ledgers(books)), 1, "the files of the archive")
    few = case.folder / "few"
    derbyfig(case, "copy", case.device, few, "--slots", "2")
    case.device = few
    require(require_once(case, idle, ("--archive", str(books)), around="a long file"), f"{NEXT} isn't posted")


def in_many_batches_at_once(case):
    """More than 4,096 batches that are added at once are all there, in order."""
    books, count = case.folder / "books", 4_100
    books.mkdir()
    case.formatted_ledger(count)
    turns = "".join(f"post {at % 2} deposit {1 + at % 1_024} 1\nturn {at % 2}\n" for at in range(count))
    script = f"open 2 00 10\n{turns}"
    run = subprocess.run([case.program, "run", case.device], input=script, capture_output=True, text=True, check=False)
    require_same((run.returncode, run.stderr), (0, ""), "the script")
    derbyfig(case, "archive", case.device, books)
    rows = [row for path in ledgers(books) for row in case.rows(path)]
    wanted = [(at, str(1 + at % 1_024)) for at in range(count)]
    require_same([(row.sequence, row.target) for row in rows], wanted, "what is archived")
    derbyfig(case, "check", books, case.device)


def amid_a_fault(case):
    """Whatever read fails while a repeated posting is looked for, in the ledger or in the archive: it isn't posted again, and no
    free reference is told as used."""
    idle, busy = case.counters(2)
    books = several_files(case, idle, busy)
    for path in (case.device, ledgers(books)[0]):
        fail_each_read(case, idle, ("--archive", str(books)), path, books)


def amid_a_fault_of_a_long_ledger(case):
    """The same of a ledger that is too long for what is read ahead: each look reads it anew, and fails alone."""
    idle, busy = case.counters(2)
    books = case.folder / "books"
    books.mkdir()
    with case.formatted([idle, busy], 500) as office:
        office.opened(idle, busy)
        require_same(idle.ask(FIRST), ["posted 0 7"], "the posting of the idle counter")
        post(busy, 499, 1)
        close(busy, office)
    forget(idle, busy)
    opening, known, looked = fail_each_read(case, idle, (), case.device, books)
    require(opening < known < looked, f"the looks read nothing: {opening}, {known}, {looked}")


def fail_each_read(case, idle, archive, path, books):
    """Fails the first reads of a file, and some of each look's, each with all behind it. Gives how many reads there are until the
    office is open, until it knows what the counter posted last, and until it has judged what that says again."""
    before, kept = ledger_of(case), {path: path.read_bytes() for path in ledgers(books)}
    opening, known, looked = counts = reads(case, idle, archive, path)
    put_back(case, books, kept, before)
    # what is read of its counters, before the ledger, counts too
    later = [*range(opening + 1, known), *range(known, looked + 8)]
    for number in sorted({1, 2, opening, *later[::len(later) // 16 + 1]}):
        around = f"a read of {path.name} that fails, from the {number}th on"
        require_once(case, idle, archive, failing_reads(case, path, number), around)
        put_back(case, books, kept, before)
    return counts


def failing_reads(case, path, number):
    """What lets an office's reading of that number of a file fail, in whichever thread, and all behind it."""
    library = case.folder / "fail.so"
    if not library.exists():
        source = pathlib.Path(__file__).parents[1] / "faults" / "fail.c"
        subprocess.run(["cc", "-O1", "-Wall", "-shared", "-fPIC", "-o", library, source], check=True)
    fails = {"LD_PRELOAD": library, "FAIL_KIND": "read", "FAIL_AT": number, "FAIL_COUNT": 1 << 30, "FAIL_UNDER": path}
    return ("env", *(f"{name}={word}" for name, word in fails.items()), "sh", "-c", 'exec "$@" 9> /dev/null', "sh")


def strace(case, path, what):
    """The words before an office of which the calls on that path are traced."""
    return ("strace", "-f", "-o", str(case.folder / "trace"), "-P", str(path), "-e", what)


def reads(case, idle, words, path):
    """How often an office has read that file when it is open, when it knows what the counter posted last, and when it has judged
    what that says again."""
    def count():
        return (case.folder / "trace").read_text().count("pread64(")

    with case.office([idle], *words, before=strace(case, path, "trace=pread64")) as office:
        require(is_open(office), f"it ends as {office.all_said()}")
        opening = count()
        idle.come()
        require_same(idle.ask("last"), ["last 7 0"], "what is known")
        known = count()
        idle.ask(FIRST)
        looked = count()
        idle.say(b"close\n")
        office.status()
    forget(idle)
    return opening, known, looked


def before_hello(case):
    """What stands in a pipe before its client says hello isn't run: no posting, and no close."""
    client, other = case.counters(2)
    left = os.open(client.folder / "in", os.O_RDWR | os.O_NONBLOCK)
    os.write(left, f"{FIRST}\nclose\n".encode())
    with case.formatted([client, other], 8, "--hello") as office:
        office.opened(client, other)
        require_same(client.hear(2), ["wrong no hello"] * 2, "what was said before")
        client.say(f"{FIRST}\nclose\nhello 3\n".encode())
        require_same(client.hear(3), ["wrong no hello"] * 2 + ["hello 3"], "what is said before hello")
        require_same(client.ask(FIRST), ["posted 0 7"], "the posting")
        other.say(b"close\nhello 4\n")
        require_same(other.hear(2), ["wrong no hello", "hello 4"], "a close before hello, at the other counter")
        close(client, office)
    os.close(left)
