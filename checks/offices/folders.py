"""The folders of an office: what can't be one, copies that are cut off, and an archive that lacks a file."""
import os
import subprocess

from office import require, require_same

# Slots of a bank: an archive is added to after as many turns.
SLOTS = 3

# What a copy is made under, before it has its name.
UNFINISHED = "unfinished"

# At which calls a copy is ended or fails, and how often they were made before: its writes, its syncs, those of its
# counters, and their naming and its own.
CALLS = (("pwrite64", 1), ("pwrite64", 2), ("pwrite64", 9), ("ftruncate", 1), ("fsync", 1), ("fdatasync", 1), ("write", 1),
         ("fsync", 2), ("rename", 1), ("rename", 2))


def folder(case, name):
    made = case.folder / name
    made.mkdir()
    return made


def close(office, counter):
    require_same(counter.ask("close"), ["closing"], "the answer to close")
    office.closed()
    counter.leave()


def require_unopened(case, counter, status, told, *words):
    """That no office is opened with these words, nothing is formatted, and this is told."""
    with case.formatted([counter], SLOTS, *map(str, words)) as office:
        require_same((office.status(), office.printed(), office.told()), (status, [], [told]), f"an office with {words}")
    require_same(case.device.exists(), False, f"a ledger behind an office with {words}")


def in_folders_that_cant_be_used(case):
    """What is no folder for copies is told at the start, with its path, before a ledger is made."""
    client, = case.counters(1)
    missing, letter = case.folder / "missing", case.folder / "letter"
    letter.write_bytes(b"a letter")
    require_unopened(case, client, 3, f"{missing}: there is no such folder; make it first", "--copies", missing)
    require_unopened(case, client, 3, f"{letter}: it is no folder", "--copies", letter)
    require_unopened(case, client, 3, "/proc: no file can be made in it", "--copies", "/proc")
    books, link = folder(case, "books"), case.folder / "link"
    link.symlink_to(books)
    for path in (books, f"{books}/", f"{books}/../books", link):
        told = f"{path}: it is the archive's folder; the copies need another one"
        require_unopened(case, client, 1, told, "--archive", books, "--copies", path)
    require_same(os.listdir(books), [], "the archive's folder")
    copies = folder(case, "copies")
    with case.formatted([client], SLOTS, "--archive", str(books), "--copies", str(copies)) as office:
        office.opened(client)
        require_same(client.ask("copy"), ["copied 0"], "a copy of an empty ledger")
        told = f"{copies}: another program adds to this folder; end that one first, or take another folder"
        second = case.folder / "second"
        words = [case.program, "serve", str(second), "--terminal", "--format", "3", "--copies", str(copies)]
        run = subprocess.run(words, stdin=subprocess.DEVNULL, capture_output=True, text=True, check=False)
        require_same((run.returncode, run.stdout, run.stderr, second.exists()), (3, "", f"{told}\n", False), "a second office")
        close(office, client)


def ledgers(copies):
    """The names in a folder, but for those of counters."""
    return sorted(name for name in os.listdir(copies) if "counters" not in name)


def counters(ledger):
    """The file of a ledger's counters."""
    return ledger.with_name(f"{ledger.name}.counters")


def cut(case, copies, name, call, number, what):
    """The words before an office, of which the call of that number on a copy is cut off."""
    made = (copies / UNFINISHED, copies / name, counters(copies / name), f"{counters(copies / name)}.new")
    paths = [word for path in made for word in ("-P", str(path))]
    return ("strace", "-f", "-o", str(case.folder / "trace"), *paths, "-e", f"inject={call}:{what}:when={number}")


def behind_kills(case):
    """A copy that is killed, at whatever call, leaves nothing under its name, or a whole one with its counters, and the next
    office makes it."""
    client, = case.counters(1)
    copies, name = folder(case, "copies"), f"{1:020}"
    with case.formatted([client], SLOTS) as office:
        office.opened(client)
        require_same(client.ask("deposit 1 5 1"), ["posted 0 1"], "a posting")
        close(office, client)
    for call, number in CALLS:
        before = cut(case, copies, name, call, number, "signal=KILL")
        with case.office([client], "--copies", str(copies), before=before) as office:
            office.opened(client)
            client.say(b"copy\n")
            require(office.status() != 0, f"it isn't ended at {call} {number}")
        client.leave()
        if (copies / name).exists():
            require_same(case.listed("balances", copies / name), case.listed("balances"), f"a copy killed at {call} {number}")
            require_same(counters(copies / name).read_text(), counters(case.device).read_text(), "its counters")
            (copies / name).unlink()
        with case.office([client], "--copies", str(copies)) as office:
            office.opened(client)
            require_same(ledgers(copies), [], f"what is left of a copy killed at {call} {number}")
            require_same(client.ask("copy"), ["copied 1"], f"a copy behind one killed at {call} {number}")
            require_same(ledgers(copies), [name], "the copies")
            close(office, client)
        require_same(case.listed("balances", copies / name), case.listed("balances"), "what the copy holds")
        (copies / name).unlink()


def where_the_name_is_taken(case):
    """Whatever has a copy's name stays as it is."""
    client, = case.counters(1)
    copies, away = folder(case, "copies"), case.folder / "away"
    name = copies / f"{0:020}"
    with case.formatted([client], SLOTS, "--copies", str(copies)) as office:
        office.opened(client)
        for make, held in ((name.mkdir, lambda: os.listdir(name)),
                           (lambda: name.symlink_to(away), lambda: (os.readlink(name), away.exists())),
                           (lambda: name.write_bytes(b""), name.read_bytes),
                           (lambda: name.write_bytes(bytes(512 * 51)), name.read_bytes)):
            make()
            before = held()
            require_same(client.ask("copy"), ["refused Occupied"], f"where {name} is {before}")
            require_same(held() == before, True, f"{name} stays {before}")
            require_same(ledgers(copies), [name.name], "what else is there")
            (name.rmdir if name.is_dir() else name.unlink)()
        require_same(client.ask("copy"), ["copied 0"], "where nothing is in the way")
        close(office, client)


def on_a_full_disk(case):
    """A copy for which there is no room leaves nothing, and the office goes on."""
    client, = case.counters(1)
    copies, name = folder(case, "copies"), f"{1:020}"
    with case.formatted([client], SLOTS) as office:
        office.opened(client)
        require_same(client.ask("deposit 1 5 1"), ["posted 0 1"], "a posting")
        close(office, client)
    for call, number in CALLS:
        before = cut(case, copies, name, call, number, "error=ENOSPC")
        with case.office([client], "--copies", str(copies), before=before) as office:
            office.opened(client)
            require_same(client.ask("copy"), ["refused Unwritten"], f"without room at {call} {number}")
            require_same(os.listdir(copies), [], f"what is left without room at {call} {number}")
            require_same(client.ask("copy"), ["copied 1"], "once there is room")
            require_same(counters(copies / name).read_text(), counters(case.device).read_text(), "the copy's counters")
            for path in (copies / name, counters(copies / name)):
                path.unlink()
            close(office, client)


def an_archive_with_a_gap(case):
    """An office isn't opened on an archive that lacks a file between others, and tells by which numbers."""
    client, = case.counters(1)
    books = folder(case, "books")
    for number in range(3):
        with case.office([client], "--archive", str(books), *(() if number else ("--format", str(SLOTS)))) as office:
            office.opened(client)
            require_same(client.ask(f"deposit 1 5 {number + 1}"), [f"posted {number} {number + 1}"], "a posting")
            close(office, client)
    first, middle, last = (books / name for name in ledgers(books))
    aside = case.folder / "aside"
    middle.rename(aside)
    with case.office([client], "--archive", str(books)) as office:
        told = f"{last}: its earliest batch is 2, and {first} ends before 1; those between are missing"
        require_same((office.status(), office.printed(), office.told()), (1, [], [told]), "an office on an archive with a gap")
    aside.rename(middle)
    whole = middle.read_bytes()
    short = "its number of slots is out of range, or it is too short for them"
    for held, told in ((whole[:100], "it holds no ledger"), (whole[:-512], short), (b"a letter" * 100, "it holds no ledger")):
        middle.write_bytes(held)
        with case.office([client], "--archive", str(books)) as office:
            require_same((office.status(), office.told()), (1, [f"{middle}: {told}"]), "an office on a damaged archive")
    middle.write_bytes(whole)
    with case.office([client], "--archive", str(books)) as office:
        office.opened(client)
        require_same(client.ask("last"), ["last 3 2"], "the last one of a whole archive")
        close(office, client)
