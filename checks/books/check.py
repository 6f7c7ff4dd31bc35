"""Tries `derbyfig archive` on real files: python3 checks/books/check.py DERBYFIG FOLDER"""
import fcntl
import os
import random
import shutil
import subprocess
import sys
from pathlib import Path

import exports
from books import Ledger, Mismatch, Said, Shelf, require_same

# How many times the ledger is archived, and how many of these runs are killed first.
ROUNDS = 60
KILLS = 20

# How many files the archive of a book has.
FILES = 24

# More requests for memory than a run makes.
MOST_REQUESTS = 1000


def each_posting(shelf):
    """Every posting is in the archive, in order, once, whichever runs were killed."""
    ledger, books = shelf.ledger("ledger", 3), shelf.folder("books")
    choice = random.Random(7)
    for number in range(ROUNDS):
        ledger.post(choice.randint(1, 3), choice)
        if number % (ROUNDS // KILLS) == 0:
            shelf.kill_archive(ledger, books, choice.uniform(0, 0.004))
        shelf.require_archived(ledger, books)
    shelf.require_whole(ledger, books)


def a_book(shelf):
    """The folder, alone and with the ledger behind it, is read as one ledger that has each posting once."""
    ledger, books = shelf.ledger("ledger", 3), shelf.folder("books")
    choice = random.Random(11)
    for _ in range(FILES):
        ledger.post(choice.randint(1, 3), choice)
        shelf.require_archived(ledger, books)
    shelf.require_book(ledger, books)
    names = shelf.names(books)
    shelf.require_book(ledger, *(books / name for name in names))
    small = shelf.memory("journal", books / names[0])
    require_same(shelf.memory("journal", books) <= small + 2048, True, f"memory of {len(names)} files")
    # the ledger lists some of what the archive has, and more
    ledger.post(2, choice)
    shelf.require_book(ledger, books, ledger.path)
    shelf.require_archived(ledger, books)
    shelf.require_book(ledger, books, ledger.path)
    shelf.require_book(ledger, *(books / name for name in names), ledger.path)
    statement = [row for row in ledger.rows if "34" in (row[3], row[4])]
    batches = {row[0] for row in statement}
    wanted = [row for row in ledger.rows if row[0] in batches]
    require_same(shelf.rows(books, ledger.path, "--account", "34"), statement, "the statement of an account")
    require_same(shelf.rows(books, ledger.path, "--account", "34", "--whole"), wanted, "its batches")
    require_same(len(statement) > 1, True, "an account with postings")


def a_late_book(shelf):
    """An archive that was begun late is told behind its own snapshot; batches out of it are out of reach."""
    ledger, books = shelf.ledger("ledger", 3), shelf.folder("books")
    ledger.post(8)
    ledger.first = 3
    require_same(shelf.archive(ledger.path, books), Said(0, "archived 5 from 3\n", ""), "a first run")
    ledger.post(2)
    shelf.require_archived(ledger, books)
    ledger.post(1)
    shelf.require_book(ledger, books, ledger.path)
    for at in (2, 12):
        told = f"{ledger.path}: batch {at} is out of reach: the earliest is 3, and the next one will be 11"
        said = shelf.run("balances", str(books), str(ledger.path), "--at", str(at))
        require_same(said, Said(1, "", told), f"the balances before {at}")
    told = f"{ledger.path}: batch 5 is out of reach: the earliest is 6, and the next one will be 11"
    require_same(shelf.run("balances", str(ledger.path), "--at", "5"), Said(1, "", told), "the balances of the ledger")
    require_same(shelf.balances(ledger.path, "--at", "7"), shelf.balances(books, "--at", "7"), "the balances before 7")


def no_book(shelf):
    """A file of the archive is missing, cut, of another ledger, or has another's name; and paths in another order."""
    ledger, books = shelf.ledger("ledger", 3), shelf.folder("books")
    for _ in range(4):
        ledger.post(2)
        shelf.require_archived(ledger, books)
    files = [books / name for name in shelf.names(books)]
    aside = shelf.path / "aside"
    files[1].rename(aside)
    told = f"{files[2]}: its earliest batch is 4, and {files[0]} ends before 2; those between are missing"
    shelf.require_no_book(told, books)
    shelf.require_no_book(told, books, ledger.path)
    shelf.require_book(ledger, files[0], aside, files[2], ledger.path)
    aside.rename(files[1])
    whole = files[1].read_bytes()
    files[1].write_bytes(whole[:-512])
    told = f"{files[1]}: its number of slots is out of range, or it is too short for them (sector 0, byte 8)"
    shelf.require_no_book(told, books)
    files[1].write_bytes(files[2].read_bytes())
    told = f"{files[1]}: it isn't of this archive: its first record doesn't have the number that is its name"
    shelf.require_no_book(told, books)
    other, shelved = shelf.ledger("other", 3), shelf.folder("shelved")
    other.post(1)
    other.post_entries([["deposit 9 999"]])
    for _ in range(2):
        shelf.require_archived(other, shelved)
        other.post(2)
    files[1].write_bytes((shelved / files[1].name).read_bytes())
    sentence = f"before batch 2, where {files[0]} ends, it held other balances or seals; it isn't of the same ledger"
    shelf.require_no_book(f"{files[1]}: {sentence}", books)
    files[1].write_bytes(whole)
    told = f"{files[0]}: its next batch is 2, and that of {files[1]} is 4; it isn't of the same ledger, or an old copy"
    shelf.require_no_book(told, files[1], files[0])
    shelf.require_no_book(f"{shelf.folder('empty')}: it has no ledger of an archive", shelf.path / "empty")
    missing = shelf.path / "missing"
    said = shelf.run("journal", str(books), str(missing))
    require_same(said, Said(3, "", f"{missing}: there is no such file"), "a ledger that isn't there")
    (books / "unfinished").write_bytes(b"left")
    shelf.require_book(ledger, books, ledger.path)


def an_export(shelf):
    """What is exported for hledger day by day is what is exported at once."""
    ledger, books = shelf.ledger("ledger", 3), shelf.folder("books")
    exported = ""
    for batches in (2, 3, 0, 1):
        ledger.post(batches)
        first = shelf.archive(ledger.path, books).printed.split()[-1]
        exported += shelf.printed("journal", books, "--from", first, "--as", "hledger")
    require_same(exported, shelf.printed("journal", books, "--as", "hledger"), "the days' exports")
    require_same(exported.count("opening balance"), 1, "an opening")
    if shutil.which("hledger"):
        words = ["hledger", "-f", "-", "balance", "account", "--flat", "--no-total", "-O", "csv"]
        found = subprocess.run(words, input=exported, capture_output=True, text=True, check=True).stdout
        held = [row[4:6] for row in ledger.held_before(ledger.next)]
        rows = [line.replace('"', "").removeprefix("account:").split(",") for line in found.splitlines()[1:]]
        require_same(sorted(rows), sorted(held), "the balances that hledger finds")


def a_restored_ledger(shelf):
    """A ledger that is restored is byte by byte a copy of the archive's newest file, and goes on in the archive."""
    ledger, books = shelf.ledger("ledger", 3), shelf.folder("books")
    new, copy = shelf.path / "new", shelf.path / "copy"
    told = f"{books}: it has no ledger of an archive"
    require_same(shelf.run("restore", str(books), str(new), "--slots", "4"), Said(1, "", told), "an empty archive")
    for _ in range(3):
        ledger.post(2)
        shelf.require_archived(ledger, books)
    (books / "unfinished").write_bytes(b"left")
    require_same(shelf.printed("restore", books, new, "--slots", "4"), "restored 4\n", "a restored ledger")
    shelf.printed("copy", books / shelf.names(books)[-1], copy, "--slots", "4")
    require_same(new.read_bytes() == copy.read_bytes(), True, "a restored ledger as a copy")
    said = shelf.run("restore", str(books), str(new), "--slots", "4")
    found = said.status, said.printed, new.read_bytes() == copy.read_bytes()
    require_same(found, (1, "", True), "a file that holds a ledger")
    said = shelf.run("restore", str(books), str(new), "--slots", "4", "--overwrite")
    require_same(said, Said(0, "restored 4\n", ""), "a file that is written over")
    require_same(new.read_bytes() == copy.read_bytes(), True, "a restored ledger as a copy")
    ledger.path = new
    ledger.post(3)
    shelf.require_book(ledger, books, new)
    shelf.require_archived(ledger, books)
    shelf.require_whole(ledger, books)
    newest = books / shelf.names(books)[-1]
    newest.write_bytes(newest.read_bytes()[:-512])
    said = shelf.run("restore", str(books), str(shelf.path / "none"), "--slots", "4")
    require_same((said.status, said.printed, (shelf.path / "none").exists()), (1, "", False), "a damaged archive")


def what_isnt_restored(shelf):
    """An archive that `check` refuses is refused as a whole, by the same line, and no ledger is made of it."""
    ledger, books = shelf.ledger("ledger", 3), shelf.folder("books")
    for _ in range(3):
        ledger.post(2)
        shelf.require_archived(ledger, books)
    files = [books / name for name in shelf.names(books)]
    new = shelf.path / "new"
    # a byte of what account 1 held when the newest file, and one before it, began
    for file in files[1:]:
        whole = file.read_bytes()
        at = 512 * 3 + 6
        file.write_bytes(whole[:at] + bytes([whole[at] ^ 1]) + whole[at + 1:])
        require_unrestored(shelf, books, new)
        file.write_bytes(whole)
    files[1].rename(shelf.path / "aside")
    require_unrestored(shelf, books, new)
    (shelf.path / "aside").rename(files[1])
    shelf.printed("restore", books, new, "--slots", "4")
    require_same(shelf.balances(new), shelf.balances(ledger.path), "the balances of a restored ledger")


def require_unrestored(shelf, books, new):
    """That `restore` is refused as `check` is, and makes nothing."""
    said = shelf.run("check", str(books))
    require_same((said.status, said.printed != ""), (1, True), "the check")
    wanted = Said(1, "", said.printed.removesuffix("\n"))
    require_same(shelf.run("restore", str(books), str(new), "--slots", "4"), wanted, "what isn't restored")
    require_same(new.exists(), False, "a ledger of what isn't restored")


def a_book_without_memory(shelf):
    """Each request for memory is refused in turn: out of memory, behind a prefix of what is printed."""
    ledger, books = shelf.ledger("ledger", 3), shelf.folder("books")
    for _ in range(2):
        ledger.post(2)
        shelf.require_archived(ledger, books)
    for words in (("journal", books, ledger.path), ("check", books), ("balances", books, "--at", "3")):
        wanted = shelf.printed(*words)
        for request in range(1, MOST_REQUESTS):
            said, was_refused = shelf.refused(request, *words)
            if said.status == 0:
                require_same(said, Said(0, wanted, ""), f"{words}, request {request} refused")
            else:
                told = (said.status, said.told, wanted.startswith(said.printed))
                require_same(told, (3, "out of memory", True), f"{words}, request {request} refused")
            if not was_refused:
                break


def a_second_run(shelf):
    """Nothing is new: status 0, and the folder keeps its files and their times."""
    ledger, books = shelf.ledger("ledger", 3), shelf.folder("books")
    require_same(shelf.archive(ledger.path, books), Said(0, "archived 0 from 0\n", ""), "a new ledger")
    require_same(os.listdir(books), [], "the files of a new ledger")
    ledger.post(2)
    shelf.require_archived(ledger, books)
    shelf.require_kept(books, ledger.path, Said(0, "archived 0 from 2\n", ""))
    shelf.require_whole(ledger, books)


def both_banks(shelf):
    """A first run has what both banks have, from the earliest batch that is listed."""
    ledger, books = shelf.ledger("ledger", 3), shelf.folder("books")
    ledger.post(8)
    require_same(shelf.archive(ledger.path, books), Said(0, "archived 5 from 3\n", ""), "a first run")
    ledger.first = 3
    shelf.require_whole(ledger, books)


def a_gap(shelf):
    """Batches between the archive's end and the earliest that is listed are lost: both numbers are told."""
    ledger, books = shelf.ledger("ledger", 3), shelf.folder("books")
    ledger.post(2)
    shelf.require_archived(ledger, books)
    ledger.post(7)
    told = f"{ledger.path}: its earliest batch is 3, and the archive ends before 2; those between are lost"
    shelf.require_kept(books, ledger.path, Said(1, "", told))


def another_ledger(shelf):
    """A ledger with other balances, with another seal, copies of these, and an old copy are refused."""
    ledger, books = shelf.ledger("ledger", 3), shelf.folder("books")
    ledger.post(2)
    old = shelf.path / "old"
    shutil.copy(ledger.path, old)
    ledger.post(1)
    shelf.require_archived(ledger, books)
    told = (f"{old}: its next batch is 2, and that of the archive is 3; it isn't the archive's ledger, or an old copy, or lost"
            " those between; derbyfig restore makes a ledger that has them")
    shelf.require_kept(books, old, Said(1, "", told))
    batch = "its batch 2 isn't the one in the archive; it isn't the archive's ledger"
    held = "before batch 3, where the archive ends, it held other balances or seals; it isn't the archive's ledger"
    for name, entry in (("richer", "deposit 9 9"), ("sealed", "seal 8")):
        other = shelf.ledger(name, 3)
        other.post(2)
        other.post_entries([[entry]])
        shelf.require_kept(books, other.path, Said(1, "", f"{other.path}: {batch}"))
        # a copy has no records
        other.copy(shelf.path / f"{name}_copy", 3)
        shelf.require_kept(books, other.path, Said(1, "", f"{other.path}: {held}"))
    shelf.require_whole(ledger, books)


def another_order(shelf):
    """A ledger that came to the same balances by other batches is refused, by the first that isn't the archive's."""
    deposits = [["deposit 1 5"], ["deposit 1 7"], ["deposit 2 3"], ["deposit 1 9"]]
    for name, order, differs in (("swapped", (1, 0, 2), 0), ("late", (0, 2, 1), 1), ("split", (0, 1, 2), None)):
        ledger, books = shelf.ledger(f"ledger_{name}", 3), shelf.folder(f"books_{name}")
        ledger.post_entries(deposits[:3])
        shelf.require_archived(ledger, books)
        other = shelf.ledger(name, 3)
        other.post_entries([deposits[number] for number in order] + deposits[3:])
        if differs is None:
            require_same(shelf.archive(other.path, books), Said(0, "archived 1 from 3\n", ""), "the same batches")
            continue
        told = f"{other.path}: its batch {differs} isn't the one in the archive; it isn't the archive's ledger"
        shelf.require_kept(books, other.path, Said(1, "", told))
        shelf.require_whole(ledger, books)


def what_was_left(shelf):
    """What an earlier run left unfinished is removed by the next one that adds something."""
    ledger, books = shelf.ledger("ledger", 3), shelf.folder("books")
    ledger.post(2)
    for left in (b"", b"TLDG", bytes(512 * 80), b"\xa5" * 512):
        (books / "unfinished").write_bytes(left)
        shelf.require_archived(ledger, books)
        ledger.post(1)
    shelf.require_archived(ledger, books)
    shelf.require_whole(ledger, books)


def a_folder_of_another(shelf):
    """Another program has the folder: nothing is written."""
    ledger, books = shelf.ledger("ledger", 3), shelf.folder("books")
    ledger.post(2)
    shelf.require_archived(ledger, books)
    ledger.post(1)
    held = os.open(books, os.O_RDONLY)
    fcntl.flock(held, fcntl.LOCK_EX | fcntl.LOCK_NB)
    told = f"{books}: another program adds to this archive; wait until it has ended"
    shelf.require_kept(books, ledger.path, Said(3, "", told))
    os.close(held)
    shelf.require_archived(ledger, books)
    shelf.require_whole(ledger, books)


def no_folder(shelf):
    """There is no folder, something else, or no ledger."""
    ledger, books = shelf.ledger("ledger", 3), shelf.folder("books")
    ledger.post(1)
    missing = shelf.path / "missing"
    told = f"{missing}: there is no such folder; make it first"
    require_same(shelf.archive(ledger.path, missing), Said(3, "", told), "a folder that isn't there")
    require_same(shelf.archive(ledger.path, ledger.path), Said(3, "", f"{ledger.path}: it is no folder"), "no folder")
    told = f"{missing}: there is no such file"
    require_same(shelf.archive(missing, books), Said(3, "", told), "a ledger that isn't there")
    require_same(os.listdir(books), [], "the files")


def a_damaged_file(shelf):
    """The archive's newest file is damaged, empty, or has another's name: nothing is added."""
    ledger, books = shelf.ledger("ledger", 3), shelf.folder("books")
    ledger.post(2)
    shelf.require_archived(ledger, books)
    newest = books / f"{0:020}"
    whole = newest.read_bytes()
    ledger.post(1)
    newest.write_bytes(whole[:512 * 21] + bytes([whole[512 * 21] ^ 1]) + whole[512 * 21 + 1:])
    shelf.require_refused(books, ledger.path, 1)
    newest.write_bytes(whole)
    for name in (f"{1:020}", f"{9:020}"):
        shutil.copy(newest, books / name)
        told = f"{books / name}: it isn't of this archive: its first record doesn't have the number that is its name"
        shelf.require_kept(books, ledger.path, Said(1, "", told))
        (books / name).unlink()
    shelf.require_archived(ledger, books)
    shelf.require_whole(ledger, books)


def a_copy(shelf):
    """A ledger that was copied to more slots goes on in the same archive."""
    ledger, books = shelf.ledger("ledger", 3), shelf.folder("books")
    ledger.post(5)
    ledger.first = 0
    shelf.require_archived(ledger, books)
    ledger.copy(shelf.path / "larger", 500)
    ledger.post(400)
    shelf.require_archived(ledger, books)
    require_same(len(os.listdir(books)), 2, "the files")
    shelf.require_whole(ledger, books)


def an_order(shelf):
    """The ledger and the folder are synced. A file is written, synced once behind all its writes, given its name, and then
    the folder is synced."""
    ledger, books = shelf.ledger("ledger", 3), shelf.folder("books")
    ledger.post(4)
    calls = shelf.calls_of_archive(ledger.path, books)
    require_same(calls[:2], [("fsync", "ledger"), ("fsync", "books")], "the first calls")
    made = calls.index(("fsync", "unfinished")) + 2
    wanted = [("fdatasync", "unfinished"), ("rename", "unfinished"), ("fsync", "books")]
    require_same(calls[-3:], wanted, "the last calls")
    require_same(set(calls[made:-3]), {("pwrite64", "unfinished")}, "the calls between")
    shelf.require_whole(ledger, books)


def no_memory(shelf):
    """Each request for memory is refused in turn: out of memory, or it is done without, and the archive stays whole."""
    ledger, books = shelf.ledger("ledger", 3), shelf.folder("books")
    ledger.post(2)
    shelf.require_archived(ledger, books)
    ledger.post(2)
    before = shelf.names(books)
    for request in range(1, MOST_REQUESTS):
        said, was_refused = shelf.refused(request, "archive", ledger.path, books)
        if said.status == 0:
            require_same(said, Said(0, "archived 2 from 2\n", ""), "an archive that is added to")
        else:
            require_same((said.status, said.told.endswith("out of memory")), (3, True), f"request {request} refused: {said.told}")
        added = set(shelf.names(books)) - set(before)
        # the last requests are of the line that tells of what was added
        require_same(said.status == 3 or len(added) == 1, True, f"request {request} refused: something is added")
        if added:
            shelf.require_whole(ledger, books)
        if not was_refused:
            break
        for name in added:
            (books / name).unlink()
    shelf.require_whole(ledger, books)


CASES = (each_posting, a_second_run, both_banks, a_gap, another_ledger, another_order, what_was_left, a_folder_of_another, no_folder,
         a_damaged_file, a_copy, an_order, no_memory, a_book, a_late_book, no_book, an_export, a_restored_ledger, what_isnt_restored,
         a_book_without_memory, exports.sealed_and_empty, exports.from_each_record_on)


def main():
    derbyfig, folder = sys.argv[1], Path(sys.argv[2])
    failed = 0
    for case in CASES:
        path = folder / case.__name__
        path.mkdir()
        try:
            case(Shelf(derbyfig, path))
            print(f"{case.__name__}: as it has to be", flush=True)
        except Mismatch as mismatch:
            failed += 1
            print(f"{case.__name__}: {mismatch}", flush=True)
    sys.exit(1 if failed else 0)


if __name__ == "__main__":
    main()
