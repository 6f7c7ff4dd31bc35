"""Counters that come and go, that don't listen, that never end a line, and that close the office."""
import contextlib

from office import await_until, require, require_same
from talking import require_closed


def hangs_up_and_comes_back(case):
    """A counter that hangs up finds its answers when it comes back."""
    one, other = clients = case.counters(2)
    with case.formatted(clients, 64) as office:
        office.opened(*clients)
        one.say(b"deposit 1 5 1\ndeposit 1 6 2\nbalance 1\nbal")
        one.leave()
        for number in range(1, 21):
            told = other.ask(f"deposit 2 1 {number}")
            require(told[0].split()[::2] == ["posted", str(number)], f"beside one that hung up: {told}")
        # its lines may be read late
        await_until(lambda: other.ask("balance 1") == ["balance 1 11"], lambda: "what one said that hung up isn't posted")
        one.come()
        told = one.hear(3)
        references = [line.split()[2] for line in told]
        require_same(references, ["1", "2", "11"], f"what was told in between, {told}")
        # the line that was begun goes on
        one.say(b"ance 2\n")
        require_same(one.hear(1), ["balance 2 20"], "a line that was begun before")
        require_same([line.split()[2] for line in one.ask("withdraw 1 11 5")], ["5"], "the next posting")
        for _ in range(30):
            one.leave()
            one.come()
            require_same(one.ask("balance 1"), ["balance 1 0"], "a counter that comes thirty times")
        one.leave()
        require_same(other.ask("close"), ["closing"], "the answer to close")
        require_same(office.closed(), [], "what is unanswered")
    rows = case.rows()
    for station, wanted in ((0, [1, 2, 5]), (1, list(range(1, 21)))):
        found = [row.reference for row in rows if row.station == station]
        require_same(found, wanted, f"the references of station {station}")


def says_and_never_listens(case):
    """A counter that reads nothing and says thousands of requests holds up nobody, nor the closing."""
    mute, other = clients = case.counters(2)
    said = b"".join(b"deposit 1 1 %05d\n" % (number + 1) for number in range(20_000))
    line = len(said) // 20_000
    with case.formatted(clients, 20_000) as office:
        office.opened(*clients)
        taken = 0
        for number in range(1, 201):
            while count := mute.try_say(said[taken:]):
                taken += count
            require_same(other.ask(f"deposit 2 1 {number}")[0].split()[::2], ["posted", str(number)], "the other counter")

        # until it rests and nothing of it is taken any more
        def is_stuck():
            nonlocal taken
            office.await_idle("where the one counter is stuck and the other waits")
            count = mute.try_say(said[taken:])
            taken += count
            return count == 0

        await_until(is_stuck, lambda: f"{taken} bytes are taken of one that never listens")
        require(taken > 4_000 * line, f"only {taken} bytes are taken of one that never listens")
        require_same(other.ask("balance 2"), ["balance 2 200"], "the other counter, when the first one is stuck")
        require_same(other.ask("close"), ["closing"], "the answer to close")
        unanswered = office.closed()
        require_closed(office, 2, 200)
        told = mute.hear_rest()
        untold = office.untold()
        left = mute.unread()
    rows = [row.reference for row in case.rows() if row.station == 0]
    require_same(rows, list(range(1, len(rows) + 1)), "the references of one that never listens")
    wanted = [f"{number}" for number in range(1, len(told) + 1)]
    require_same([line.split()[2] for line in told], wanted, "what it was told")
    require(len(told) <= len(rows) <= taken // line, f"it was told {len(told)}, and {len(rows)} of {taken / line} are posted")
    # each that is posted was told, or is listed; of those that were being written both
    references = [int(line.split()[-1]) for counter, line in untold if counter == 0]
    require_same(references, list(range(len(rows) + 1 - len(untold), len(rows) + 1)), "the references of what it wasn't told")
    require(len(told) + len(untold) >= len(rows), f"it was told {len(told)}, {len(untold)} are listed, {len(rows)} are posted")
    require_same(len(rows) + len(unanswered), (taken - left) // line, "posted and unanswered, of what was read")
    behind = [(0, reference) for reference in range(len(rows) + 1, len(rows) + 1 + len(unanswered))]
    require_same(unanswered, behind, f"what is unanswered behind {len(rows)} that are posted")


def never_ends_a_line(case):
    """10 MB without a line feed are one line that is too long, and take no memory."""
    client, other = clients = case.counters(2)
    with case.formatted(clients, 4) as office:
        office.opened(*clients)
        before = office.figure("VmHWM")
        for _ in range(160):
            client.say(b"deposit 1 5 " * 5_461)
        require_same(other.ask("balance 1"), ["balance 1 0"], "the other counter")
        client.say(b"\ndeposit 1 7\n")
        require_same(client.hear(2), ["wrong line too long", "posted 0 0"], "the answers")
        most = office.figure("VmHWM")
        require(most < min(100_000, before + 5_000), f"{most} kB of memory were taken, and {before} before")
        require_same(other.ask("close"), ["closing"], "the answer to close")
        office.closed()


def close_at_once(case):
    """Two counters close at once, and what comes behind is told as unanswered and isn't posted."""
    one, other = clients = case.counters(2)
    with case.formatted(clients, 4) as office:
        office.opened(*clients)
        one.say(b"close\ndeposit 1 1\ndeposit 1 1 50\nbalance 1\n# none\nseal 2 51\n")
        with contextlib.suppress(BrokenPipeError):  # where the office has ended by then
            other.say(b"close\ndeposit 1 1\n")
        unanswered = office.closed()
        require_closed(office, 2, 0)
        # the question isn't answered, since what is asked before it isn't
        require_same(one.hear_rest() + other.hear_rest(), ["closing"] * 2, "what the two are told")
        late = [(0, 0), (0, 50), (0, 51), (1, 0)]
        require(unanswered in (late, late[:3], late[3:]), f"unanswered is {unanswered} and not of {late}")
    require_same(case.rows(), [], "the records in the file")


def closed_from_outside(case):
    """derbyfig close ends an office at one of its counters, and no request comes of the part of a line that stood there."""
    one, other = clients = case.counters(2)
    none = f"{other.folder}: not open\n"
    require_same(case.close(other), (1, "", none), "closing one that was never opened")
    with case.formatted(clients, 4) as office:
        office.opened(*clients)
        require_same(one.ask("deposit 1 5 1"), ["posted 0 1"], "a posting")
        other.say(b"deposit 1 7 2\ndeposit 1 50")
        require_same(case.close(other), (0, "closed\n", ""), "closing")
        require_same(office.closed(), [], "what is unanswered")
        require_closed(office, 2, 2)
        told = other.hear_rest()
        require_same((told[0], told[1].split()[0], told[2:]), ("posted 1 2", "wrong", ["hello 0", "closing"]), "what its counter is told")
    require_same(case.close(other), (1, "", none), "closing one that has ended")
    (other.folder / "in").unlink()
    missing = f"{other.folder}/in: it isn't there; mkfifo makes it\n"
    require_same(case.close(other, "--seconds", "1"), (3, "", missing), "closing at no counter")
    require_same([row.reference for row in case.rows()], [1, 2], "the references in the file")


def tells_how_it_stands(case):
    """derbyfig status tells how an office stands, behind what an earlier client left there, and to one at a time."""
    one, other, control = case.counters(3)
    books = case.folder / "books"
    books.mkdir()

    def require_told(least, following, free, clients, archived):
        """That it tells these, and so many turns at least; how many there were."""
        status, told, errors = case.standing(control)
        turns = int(told.split()[5])
        wanted = f"next {following}\nfree {free}\nturns {turns}\nclients {clients}\narchived {archived}\n"
        require_same((status, told, errors), (0, wanted, ""), "how the office stands")
        require(turns >= least, f"{turns} turns are told, and {least} were taken")
        return turns

    none = (1, "", f"{control.folder}: not open\n")
    require_same(case.standing(control), none, "one that was never opened")
    with case.formatted([one, other], 4, "--control", str(control.folder)) as office:
        require_same(office.opened(one, other)[1], "opened 3 next 0 total 0", "the opening")
        require_told(0, 0, 4, 0, "none")
        for number in range(5):
            require_same(one.ask(f"deposit 1 5 {number + 1}"), [f"posted {number} {number + 1}"], "a posting")
        control.come()
        control.say(b"balance 1\nhelp\ndeposit 1 50")
        control.leave()
        with one.held():
            turns = require_told(5, 5, 3, 1, "none")
            with other.held():
                require_told(turns, 5, 3, 2, "none")
            with control.held():
                taken = (1, "", f"{control.folder}: another client has it\n")
                closing = case.close(control, "--seconds", "0")
                require_same([case.standing(control), closing], [taken] * 2, "beside another client")
        told = one.ask("status")[0].split()
        require_same(told[:6] + told[7:], "office next 5 free 3 turns clients 0 archived none".split(), "the line")
        require_same(other.ask("balance 1"), ["balance 1 25"], "a balance behind it")
        require_same(case.close(control), (0, "closed\n", ""), "closing")
        office.closed()
    one.leave()
    other.leave()
    require_same(case.standing(control), none, "one that has ended")
    with case.office([one, other], "--archive", str(books), "--control", str(control.folder)) as office:
        office.opened(one, other)
        require_told(0, 5, 3, 0, 5)
        require_same(other.ask("deposit 1 5"), ["posted 5 0"], "a posting")
        require_told(1, 6, 2, 0, 5)
        require_same(other.ask("archive"), ["archived 6"], "what is added to the archive")
        require_told(1, 6, 2, 0, 6)
        require_same(case.close(control), (0, "closed\n", ""), "closing")
        office.closed()
    require_same([row.reference for row in case.rows()], [1, 2, 3, 4, 5, 0], "the references in the file")


def close_amid_postings(case):
    """All that was submitted before the end is answered and in the file, and all else that was asked is told."""
    clients = case.counters(3)
    with case.formatted(clients, 1000) as office:
        office.opened(*clients)
        for number, client in enumerate(clients[:2]):
            client.say(b"".join(b"deposit 1 1 %d\n" % (1000 * number + place) for place in range(1, 301)))
        require_same(clients[2].ask("deposit 3 3 9")[0].split()[::2], ["posted", "9"], "a posting amid others")
        require_same(clients[2].ask("close"), ["closing"], "the answer to close")
        unanswered = office.closed()
        rows = case.rows()
        for number, client in enumerate(clients[:2]):
            wanted = [f"posted {row.sequence} {row.reference}" for row in rows if row.station == number]
            require_same(client.hear_rest(), wanted + ["closing"], f"what counter {number} was told, beside the file")
            late = [reference for counter, reference in unanswered if counter == number]
            first = 1000 * number + len(wanted) + 1
            require_same(late, list(range(first, first + len(late))), f"unanswered of counter {number}")
            require(len(wanted) + len(late) <= 300, f"counter {number} asked 300 and {len(wanted)}, {len(late)} are told")


def many_stations(case):
    """64 stations with one counter, and then with 64."""
    clients = case.counters(64)
    with case.formatted(clients[:1], 200, "--stations", "64") as office:
        require_same(office.opened(clients[0])[1], "opened 64 next 0 total 0", "the opening")
        for number in range(5):
            require_same(clients[0].ask("deposit 1 1"), [f"posted {number} 0"], "a posting")
        require_same(clients[0].ask("close"), ["closing"], "the answer to close")
        office.closed()
        require_closed(office, 64, 5)
    clients[0].leave()
    with case.office(clients) as office:
        require_same(office.opened(*clients), ["opened 64 next 5 total 5"], "the second opening")
        for client in clients:
            client.say(b"deposit 2 1 1\ndeposit 2 1 2\nbalance 5\n")
        for client in clients:
            told = [line.split()[::2] for line in client.hear(3)]
            require_same(told, [["posted", "1"], ["posted", "2"], ["balance", "0"]], client.folder.name)
        require_same(clients[63].ask("balance 2"), ["balance 2 128"], "the balance at last")
        require_same(clients[63].ask("close"), ["closing"], "the answer to close")
        require_same(office.closed(), [], "what is unanswered")
        require_closed(office, 64, 64)
    found = sorted((row.station, row.reference) for row in case.rows()[5:])
    wanted = [(station, reference) for station in range(64) for reference in (1, 2)]
    require_same(found, wanted, "the stations and references in the file")
