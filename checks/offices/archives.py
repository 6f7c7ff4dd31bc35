"""An office that keeps an archive, and makes copies of its ledger."""
import random
import shutil
import subprocess

from kills import Client, talk_until, wait
from office import require, require_same

# Slots of a bank: an archive is added to after as many turns.
SLOTS = 3
COUNTERS = 4

# How often it is opened, and killed, with one archive; and how many postings are told each time.
ROUNDS = 4
TOLD = 500


def folder_of(case):
    folder = case.folder / "books"
    folder.mkdir()
    return folder


def archived(case, books):
    """The entries of all files of an archive, in order."""
    return [row for file in sorted(books.iterdir()) if file.name.isdigit() for row in case.rows(file)]


def require_whole(rows):
    """That each batch is there, in order and once: the entries of one stand together, behind those of the one before."""
    numbers = sorted({row.sequence for row in rows})
    require_same(numbers, list(range(len(numbers))), "the batches in the archive")
    require_same([row.sequence for row in rows], sorted(row.sequence for row in rows), "the order in the archive")


def keeps_each_posting(case):
    """Killed again and again amid postings of four counters, on banks of three slots: each posting that was told is in the
    archive, once and in order, behind the next opening; and by the word of a counter that asks at once."""
    moments, books = random.Random(case.words.seed), folder_of(case)
    case.formatted_ledger(SLOTS)
    counters, told = case.counters(COUNTERS + 1), []
    for number in range(ROUNDS):
        clients = [Client(at, 1_000_000 * number + 10_000 * at + 1, counter) for at, counter in enumerate(counters[:-1])]
        with case.office(counters, "--archive", str(books)) as office:
            office.opened(*counters)
            talk_until(clients, moments.randint(1, TOLD))
            before = [row for client in clients for row in client.postings()]
            answer, = counters[-1].ask("archive")
            rows = {(row.sequence, row.reference) for row in archived(case, books)}
            require_same({(row.sequence, row.reference) for row in before} - rows, set(), f"told before {answer!r}")
            require(max(sequence for sequence, _ in rows) < int(answer.split()[1]), f"{answer!r} is too few")
            talk_until(clients, moments.randint(1, TOLD))
            wait(moments.uniform(0, 0.01))
            office.kill()
        for client in clients:
            client.heard += client.counter.hear_rest()
        for counter in counters:
            counter.leave()
        told += clients
    with case.office(counters, "--archive", str(books)) as office:
        opening, = office.opened(*counters)
        require_same(counters[0].ask("close"), ["closing"], "the answer to close")
        office.closed()
        require_same(office.printed()[-1], f"archived {opening.split()[3]}", "the last line")
    rows = archived(case, books)
    require_whole(rows)
    for client in told:
        own = range(client.first, client.first + 10_000)
        client.require_rows([row for row in rows if row.station == client.number and row.reference in own])
    require_same(rows[-1].sequence + 1, int(opening.split()[3]), "the end of the archive")
    return sum(len(client.postings()) for client in told)


def without_an_archive(case):
    """A counter that asks for it is told that there is none; and the office goes on."""
    one, other = case.counters(2)
    with case.formatted([one, other], 8) as office:
        office.opened(one, other)
        require_same(one.ask("archive"), ["refused NoArchive"], "without an archive")
        require_same(other.ask("deposit 1 5"), ["posted 0 0"], "a posting behind it")
        one.say(b"deposit 1 1\narchive\ncopy\nbalance 1\n")
        told = ["posted 1 0", "refused NoArchive", "refused NoFolder", "balance 1 6"]
        require_same(one.hear(4), told, "the answers in order")
        require_same(one.ask("close"), ["closing"], "the answer to close")
        office.closed()
        require(not any(line.startswith("archived") for line in office.printed()), f"it prints {office.printed()}")


def counters_of(ledger):
    """The file of a ledger's counters."""
    return ledger.with_name(f"{ledger.name}.counters")


def makes_copies(case):
    """A copy has all that was told before it, and the slots of the ledger, under the number of its next batch. A file that is
    there keeps its bytes, and the office goes on."""
    one, other = case.counters(2)
    copies = case.folder / "copies"
    copies.mkdir()
    first, letter = copies / f"{21:020}", copies / f"{22:020}"
    letter.write_bytes(b"a letter" * 64)
    with case.formatted([one, other], 8, "--copies", str(copies)) as office:
        office.opened(one, other)
        for number in range(20):
            require_same(one.ask(f"deposit {number + 1} 5"), [f"posted {number} 0"], "a posting")
        other.say(b"deposit 1 1\ncopy\nbalance 1\n")
        require_same(other.hear(3), ["posted 20 0", "copied 21", "balance 1 6"], "the answers in order")
        copied, seats = first.read_bytes(), counters_of(first).read_bytes()
        require_same(one.ask("copy"), ["refused Occupied"], "where nothing was posted since")
        require_same(one.ask("deposit 2 1"), ["posted 21 0"], "a posting behind the copy")
        require_same(one.ask("copy"), ["refused Occupied"], "where something else is")
        require_same((first.read_bytes(), letter.read_bytes()), (copied, b"a letter" * 64), "both files")
        shutil.rmtree(copies)
        require_same(one.ask("copy"), ["refused Unwritten"], "without the folder")
        require_same(one.ask("deposit 1 1"), ["posted 22 0"], "a posting behind all that")
        require_same(one.ask("close"), ["closing"], "the answer to close")
        office.closed()
    first.parent.mkdir()
    first.write_bytes(copied)
    counters_of(first).write_bytes(seats)
    held = case.listed("balances", first)
    require_same([row[:2] for row in held[:2]] + [held[-1][:2]], [["1", "6"], ["2", "5"], ["total", "101"]], "what the copy holds")
    with case.run(str(first), "--counter", str(one.folder), kept_as="second") as office:
        require_same(office.opened(), ["opened 2 next 21 total 101"], "an office on the copy")


def an_archive_that_fails(case):
    """The office closes and says why; what was told stands, and the next one archives it. Where something is missing
    between the archive and the ledger, it doesn't open."""
    client, = case.counters(1)
    books = folder_of(case)
    with case.formatted([client], SLOTS, "--archive", str(books)) as office:
        office.opened(client)
        require_same(client.ask("deposit 1 5 1"), ["posted 0 1"], "a posting")
        (books / "unfinished").mkdir()
        require_same(client.ask("archive", 2), ["refused Closed", "closing"], "an archive that can't be written")
        require_same((office.status(), office.told()),
                     (3, [f"{books}: the system fails to open, lock, list, change or sync it"]), "its end")
    client.leave()
    (books / "unfinished").rmdir()
    with case.office([client], "--archive", str(books)) as office:
        office.opened(client)
        require_same([row.reference for row in archived(case, books)], [1], "what is archived at the start")
        words = [case.program, "archive", str(case.device), str(books)]
        run = subprocess.run(words, capture_output=True, text=True, check=False)
        require_same((run.returncode, run.stdout), (3, ""), "another who archives")
        require_same(client.ask("close"), ["closing"], "the answer to close")
        office.closed()
    client.leave()
    with case.office([client]) as office:
        office.opened(client)
        for number in range(2 * SLOTS + 1):
            require_same(client.ask("deposit 1 1"), [f"posted {number + 1} 0"], "a posting without the archive")
        require_same(client.ask("close"), ["closing"], "the answer to close")
        office.closed()
    client.leave()
    with case.office([client], "--archive", str(books)) as office:
        require_same(office.status(), 1, "an archive with a gap")
        told = f"{case.device}: its earliest batch is 3, and the archive ends before 1; those between are lost"
        require_same((office.told(), office.printed()), ([told], []), "what is told of a gap")
