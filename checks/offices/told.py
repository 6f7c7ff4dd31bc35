"""What an office, or a program that speaks to it, tells of what was done: neither more nor less than that."""
import os
import pathlib
import signal
import subprocess
import time

from earlier import forget
from office import await_until, require, require_same


def folders(case):
    """The folders of an archive and of copies."""
    made = [case.folder / name for name in ("books", "copies")]
    for folder in made:
        folder.mkdir()
    return made


def next_of(case, path):
    """The number of the next batch, of a ledger or an archive."""
    run = subprocess.run([case.program, "check", path], capture_output=True, text=True, check=False)
    require_same((run.returncode, run.stderr), (0, ""), f"the check of {path}")
    return int(next(line.split()[1] for line in run.stdout.splitlines() if line.startswith("next ")))


def exactly_as_far(case):
    """archived N and copied N are just as far as the archive and the copy, and as what was posted: behind each posting, and at
    the end."""
    client, = case.counters(1)
    books, copies = folders(case)
    with case.formatted([client], 3, "--archive", str(books), "--copies", str(copies)) as office:
        office.opened(client)
        for count in range(1, 6):
            require_same(client.ask("deposit 1 5"), [f"posted {count - 1} 0"], "a posting")
            require_same(client.ask("copy"), [f"copied {count}"], "a copy")
            require_same(next_of(case, copies / f"{count:020}"), count, "how far the copy is")
            require_same(client.ask("archive"), [f"archived {count}"], "the archive")
            require_same(next_of(case, books), count, "how far the archive is")
        require_same(client.ask("deposit 1 5"), ["posted 5 0"], "the last posting")
        require_same(client.ask("close"), ["closing"], "the answer to close")
        office.closed()
        require_same(office.printed()[-1], "archived 6", "the last line")
    require_same(next_of(case, books), 6, "how far the archive is at the end")


def held_by(case, **words):
    """The environment of a program that is slowed."""
    library, source = case.folder / "held.so", pathlib.Path(__file__).with_name("held.c")
    subprocess.run(["cc", "-O1", "-Wall", "-shared", "-fPIC", "-o", library, source], check=True)
    return {**os.environ, "LD_PRELOAD": str(library), **{name: str(word) for name, word in words.items()}}


def wishes_under_load(case):
    """Copies, archives and the office's standing are told to each counter that asks, while another one posts faster than it is
    answered: before all its postings are taken, and long before a span ends by itself."""
    posting, one, other = clients = case.counters(3)
    books, copies = folders(case)
    words = ("--archive", str(books), "--copies", str(copies))
    with case.formatted(clients, 5_000, *words, env=held_by(case, SYNCS_TAKE=2)) as office:
        office.opened(*clients)
        left = b"deposit 1 1\n" * 12_000

        def go_on_posting(holds):
            nonlocal left
            while not holds():
                left = left[posting.try_say(left):]
                require(left, f"before all was posted {one.heard} and {other.heard} are told")
                for client in clients:
                    client.listen()

        go_on_posting(lambda: posting.heard)
        for client in (one, other):
            client.say(b"archive\nstatus\ncopy\n")
        go_on_posting(lambda: min(client.heard.count(b"\n") for client in (one, other)) == 3)
        for client in (one, other):
            told = [line.split()[0] for line in client.hear(3)]
            require(told[:2] == ["archived", "office"] and told[2] in ("copied", "refused"), f"a wish is answered {told}")
        require_same({line.split()[0] for line in posting.lines()}, {"posted"}, "the answers to postings")


def wishes_amid_a_recess(case):
    """What is asked while a copy is made, at a counter before and at one behind, is answered."""
    before, copying, behind = clients = case.counters(3)
    books, copies = folders(case)
    pipe = case.folder / "held"
    os.mkfifo(pipe)
    held = held_by(case, HELD=copies / "unfinished", HELD_BY=pipe)
    with case.formatted(clients, 4, "--archive", str(books), "--copies", str(copies), env=held) as office:
        office.opened(*clients)
        for wish, answer in (("archive", "archived 0"), ("status", "office"), ("last", "last none")):
            copying.say(b"copy\n")
            hold = await_until(lambda: held_at(pipe), lambda: "no copy is made")
            for client in (before, behind):
                client.say(wish.encode() + b"\n")
            office.await_idle("while a copy is held")
            os.write(hold, b".")
            os.close(hold)
            require_same(copying.hear(1), ["copied 0"], "the copy")
            for client in (before, behind):
                told, = client.hear(1)
                require(told.startswith(answer), f"{wish} amid a copy is answered {told!r}")
            (copies / f"{0:020}").unlink()
        require_same(copying.ask("close"), ["closing"], "the answer to close")
        office.closed()


def held_at(pipe):
    """The end of the pipe by which what is held there goes on; nothing until it is held."""
    try:
        return os.open(pipe, os.O_WRONLY | os.O_NONBLOCK)
    except OSError:
        return None


def close_of_one_that_goes_on(case):
    """An office that doesn't end isn't told as closed; and it ends once it can, or once whoever spoke there has left."""
    client, = case.counters(1)
    with case.formatted([client], 4) as office:
        office.opened(client)
        require_same(client.ask("deposit 1 5"), ["posted 0 0"], "a posting")
        os.killpg(office.run.pid, signal.SIGSTOP)
        still = (1, "", f"{client.folder}: its office is still open\n")
        try:
            for seconds in ("0", "1"):
                status, *told = case.close(client, "--seconds", seconds)
                require_same((status != 0, *told), (True, *still[1:]), f"closing one that stands still, for {seconds} s")
        finally:
            os.killpg(office.run.pid, signal.SIGCONT)
        office.closed()
    forget(client)
    with case.office([client]) as office:
        office.opened()
        with client.held():
            closing = subprocess.Popen([case.program, "close", client.folder, "--seconds", "60"], stdout=subprocess.PIPE, text=True)
            time.sleep(0.3)
            require_same((closing.poll(), office.run.poll()), (None, None), "a closing beside another client")
        require_same((closing.communicate()[0], closing.returncode), ("closed\n", 0), "the closing, once that one has left")
        office.closed()


def behind_what_a_killed_one_left(case):
    """Whoever asks how an office stands isn't told what another one asked before, and was killed."""
    client, control = case.counters(2)
    with case.formatted([client], 4, "--control", str(control.folder)) as office:
        office.opened(client)
        for number in range(3):
            control.come()
            control.say(b" ?\nhello 5\nstatus\n")
            await_until(lambda: control.listen() and control.heard.count(b"\n") >= 1, lambda: "nothing is told")
            require_same(client.ask("deposit 1 5"), [f"posted {number} 0"], "a posting")
            control.say(b"status\nbalance 1\n")
            control.leave()
            status, told, _ = case.standing(control)
            require_same((status, told.split()[:2]), (0, ["next", str(number + 1)]), "how the office stands")
        require_same(case.close(control), (0, "closed\n", ""), "closing")
        office.closed()


def what_came_late(case):
    """What is asked behind a close, in whatever number, is listed as unanswered: each entry once, in order, and no part of it as
    another one."""
    client, other = case.counters(2)
    with case.formatted([client, other], 4) as office:
        office.opened(client, other)
        entries = b"".join(b"deposit 1 %d %d\n" % (number, number) for number in range(1, 301))
        client.say(b"close\n" + entries + b"deposit 1 9")
        unanswered = office.closed()
        numbers = [reference for counter, reference in unanswered if counter == 0]
        require_same(numbers, list(range(1, len(numbers) + 1)), "what is listed")
        require_same(client.hear_rest(), ["closing"], "what its counter is told")
        left = client.unread()
    read = len(b"close\n" + entries + b"deposit 1 9") - left
    whole = (b"close\n" + entries)[:read].count(b"\n") - 1
    require_same(len(numbers), whole, f"how many are listed, of {read} bytes that were read")
    require_same(case.rows(), [], "what is posted")
