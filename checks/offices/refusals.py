"""What isn't opened, wrong words, and a device on which writes fail."""
import contextlib
import functools
import os
import resource
import shutil
import signal
import time

from office import await_until, require, require_same
from talking import require_closed


def require_refused(office, beginning, status=3):
    """That it ends with this status and one line on its errors, which begins so, and prints nothing."""
    require_same((office.status(), office.printed()), (status, []), f"the end of {office.run.args}, {office.all_said()}")
    told = office.told()
    require_same(len(told), 1, f"the lines that are told, {told}")
    require(told[0].startswith(beginning), f"{told[0]!r} is told and not {beginning!r}")


def counters_that_are_none(case):
    """A counter without its pipes is refused by name, before the device is made."""
    good, other = case.counters(2)
    for name in ("in", "out"):
        (other.folder / name).unlink()
        (other.folder / name).write_bytes(b"")
        with case.formatted([good, other], 4) as office:
            require_refused(office, f"{other.folder}/{name}: it is no pipe")
        (other.folder / name).unlink()
        (other.folder / name).mkdir()
        with case.formatted([good, other], 4) as office:
            require_refused(office, f"{other.folder}/{name}: ")
        (other.folder / name).rmdir()
        with case.formatted([good, other], 4) as office:
            require_refused(office, f"{other.folder}/{name}: ")
        require(not (other.folder / name).exists(), "a missing pipe was made")
        (other.folder / name).symlink_to(good.folder / name)
        with case.formatted([good, other], 4) as office:
            require_refused(office, f"{other.folder}/{name}: it is another counter's")
        (other.folder / name).unlink()
        os.mkfifo(other.folder / name)
    with case.formatted([good], 4, "--counter", f"other={good.folder}") as office:
        require_refused(office, f"{good.folder}/in: it is another counter's")
    other.folder = case.folder / "nowhere"
    with case.formatted([good, other], 4) as office:
        require_refused(office, f"{other.folder}/in: ")
    require(not case.device.exists(), "the device was made")


def a_ledger_that_is_there(case):
    """A ledger is neither formatted again nor used twice, nor a counter, and a file without one has to be formatted."""
    client, beside = case.counters(2)
    with case.office([client]) as office:
        require_refused(office, f"{case.device}: ")
    with case.formatted([client], 4) as office:
        office.opened(client)
        require_same(client.ask("deposit 1 5"), ["posted 0 0"], "a posting")
        before = case.device.read_bytes()
        with case.office([beside], kept_as="second") as other:
            require_refused(other, f"{case.device}: ")
        elsewhere = case.folder / "elsewhere"
        with case.run(str(elsewhere), "--format", "4", "--counter", str(client.folder), kept_as="second") as other:
            require_refused(other, f"{client.folder}/in: another office has it")
        require(not elsewhere.exists(), "a ledger is made for an office that is refused its counter")
        require_same(client.ask("close"), ["closing"], "the answer to close")
        office.closed()
    for slots in (4, 5):
        with case.office([client], "--format", str(slots)) as office:
            require_refused(office, f"{case.device}: ", status=1)
        require(case.device.read_bytes() == before, "the file is changed by the refusal to format it")
    with case.office([client]) as office:
        require_same(office.opened(), ["opened 2 next 1 total 5"], "the opening that is left")


def wrong_words(case):
    """Wrong words end it with status 2, and nothing is made."""
    clients = case.counters(3)
    one = ("--counter", str(clients[0].folder))
    device = (str(case.device),)
    all_three = [word for client in clients for word in ("--counter", str(client.folder))]
    too_many = [word for number in range(65) for word in ("--counter", f"c{number}={clients[0].folder}")]
    for words in (
        (), device, one, (*device, *one, "--stations", "1"), (*device, *one, "--stations", "65"),
        (*device, *one, "--stations", "x"),
        (*device, *one, "--format", "0"), (*device, *one, "--format", "1000001"), (*device, *one, "--sectors", "0"),
        (*device, *one, "--sectors", "4000040"), (*device, *one, "more"), (*device, *one, "--terminal", "yes"),
        (*device, "--counter"), (*device, *one, "--chart"), (*device, *device, *one), (*device, "--stations", "2"), (*device, *one, "--overwrite"),
    ):
        with case.run(*words) as office:
            status = office.status()
            require_same((status, office.printed()), (2, []), f"{words}: {office.all_said()}")
            require(office.told() != [], f"{words}: nothing is told")
    for words, wanted in (
        ((*device, *all_three, "--stations", "2"), "there are more counters than --stations"),
        ((*device, *too_many), "there are more counters than 64"),
    ):
        with case.run(*words) as office:
            require_refused(office, wanted, status=2)
    require(not case.device.exists(), "the device was made")


def closed_streams(case):
    """Where a standard stream is closed, what the program says on it reaches no counter."""
    for streams in ((0,), (1,), (2,), (0, 1, 2)):
        client, = case.counters(1)
        with case.formatted([client], 4, preexec_fn=functools.partial(close_all, streams)) as office:
            await_until(lambda: case.holds_ledger() or office.run.poll() is not None, lambda: "no ledger is there")
            # what can't be printed ends it
            if 1 not in streams:
                client.come()
                told = client.ask("deposit 1 1")
                require_same(told, ["posted 0 0"], f"the answer without the streams {streams}")
                require_same(client.ask("close"), ["closing"], f"the answer to close without the streams {streams}")
            require_same(office.status(), 3 if 1 in streams else 0, f"the end without the streams {streams}")
        client.leave()
        shutil.rmtree(client.folder)
        case.device.unlink(missing_ok=True)


def close_all(streams):
    for stream in streams:
        os.close(stream)


def limited(size):
    """What makes writes behind so many bytes of a file fail, before the program begins."""
    def limit():
        signal.signal(signal.SIGXFSZ, signal.SIG_IGN)
        resource.setrlimit(resource.RLIMIT_FSIZE, (size, size))

    return limit


def a_device_that_fails(case):
    """Where a write fails, the entries under way are undecided, the office ends, and the file keeps what was posted."""
    one, other = clients = case.counters(2)
    with case.formatted(clients, 8) as office:
        office.opened(*clients)
        require_same(one.ask("deposit 1 5 1"), ["posted 0 1"], "a posting")
        require_same(one.ask("close"), ["closing"], "the answer to close")
        office.closed()
    # the body of slot 2 is behind the limit
    limit = limited(512 * (1 + 19 + 2 * 2))
    with case.office(clients, preexec_fn=limit) as office:
        require_same(office.opened(), ["opened 2 next 1 total 5"], "the opening")
        require_same(one.ask("deposit 1 5 7"), ["posted 1 7"], "a posting before the limit")
        require_same(one.ask("deposit 1 5 8", 2), ["undecided 8", "closing"], "a posting behind the limit")
        require_same((office.status(), office.told()), (3, ["the device failed"]), "the end")
        require_closed(office, 2, 1)
        # the other one was told by the office before, too
        require_same((one.hear_rest(), other.hear_rest()), ([], ["closing"] * 2), "what is told then")
        require_same(office.unanswered(), [], "what is unanswered")
    require_same([row.reference for row in case.rows()], [1, 7], "the references in the file")
    with case.office(clients, preexec_fn=limit) as office:
        office.opened()
        one.say(b"deposit 1 5 100\n" + b"".join(b"deposit 1 5 %d\n" % (101 + place) for place in range(100)))
        with contextlib.suppress(BrokenPipeError):  # the office may have ended by then
            other.say(b"deposit 1 5 200\nbalance 1\n")
        require_same((office.status(), office.told()), (3, ["the device failed"]), "the end amid postings")
        for number, client, first in ((0, one, 100), (1, other, 200)):
            *told, last = client.hear_rest()
            require_same(last, "closing", f"what counter {number} is told last")
            if number == 1 and told:
                # behind an entry without an answer it has none
                closed = told.pop() in ("refused Faulted", "refused Closed")
                require(closed and told, f"a question behind it is answered behind {told}")
            # the other one may come to look for its references too late
            undecided = [f"undecided {first + place}" for place in range(len(told))]
            require(told == undecided or number == 1 and told == ["refused Faulted 200"], f"what counter {number} is told: {told}")
            late = [reference for counter, reference in office.unanswered() if counter == number]
            require_same(late, list(range(first + len(told), first + len(told) + len(late))), "what is unanswered")
            # what wasn't read would be asked of the next office
            client.unread()
    with case.office(clients) as office:
        require_same(office.opened(), ["opened 2 next 2 total 10"], "the opening without the limit")
        require_same(one.ask("deposit 1 5 9"), ["posted 2 9"], "a posting without the limit")


def an_exhausted_journal(case):
    """Where no number is left for a batch, the office ends, says why, and lists what it was asked."""
    one, other = clients = case.counters(2)
    with case.formatted(clients, 4) as office:
        office.opened(*clients)
        require_same(one.ask("close"), ["closing"], "the answer to close")
        office.closed()
    # the base of the first bank: one number is left
    ledger = bytearray(case.device.read_bytes())
    ledger[512 * 2 + 16:512 * 2 + 24] = (2 ** 64 - 2).to_bytes(8, "big")
    case.device.write_bytes(ledger)
    with case.office(clients) as office:
        require_same(office.opened(), [f"opened 2 next {2 ** 64 - 2} total 0"], "the opening")
        require_same(other.hear(1), ["closing"], "what the other counter was told")
        unknown = f"unknown since {2 ** 64 - 2}"
        require_same(one.ask("last"), [f"last {unknown}"], "references that nobody sees")
        require_same(one.ask("deposit 1 5 7"), [f"refused U{unknown[1:]} 7"], "a posting that may be a repeated one")
        require_same(one.ask("first 7"), ["first 7"], "where references begin")
        require_same(one.ask("deposit 1 5 7"), [f"posted {2 ** 64 - 2} 7"], "the last posting")
        one.say(b"deposit 1 5 8\nbalance 1\n")
        wanted = 1, ["there are no more sequence numbers or epochs"]
        require_same((office.status(), office.told()), wanted, "the end")
        require_same(office.unanswered(), [(0, 8)], "what is unanswered")
        require_same((one.hear_rest(), other.hear_rest()), (["closing"], ["closing"]), "what is told")
    require_same([row.reference for row in case.rows()], [7], "the references in the file")


def few_threads():
    """What leaves room for the stacks of a few threads alone, before the program begins."""
    resource.setrlimit(resource.RLIMIT_STACK, (1 << 30, 1 << 30))
    resource.setrlimit(resource.RLIMIT_AS, (4 << 30, 4 << 30))


def without_threads(case):
    """Where the system refuses threads, the office says so once, at once, and nothing but that it has made the ledger."""
    clients = case.counters(8)
    start = time.monotonic()
    with case.formatted(clients, 4, preexec_fn=few_threads) as office:
        require_same((office.status(), office.told()), (3, ["the system refused a thread"]), "the end")
        require_same(office.printed(), ["formatted 4"], "what is printed")
    require(time.monotonic() - start < 5, f"it takes {time.monotonic() - start} seconds to say so")
