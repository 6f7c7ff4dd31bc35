"""Two counters that ask at once, and references that are far above the last one."""
import fcntl
import pathlib
import sys

from office import require, require_same
from talking import require_closed

# These write the bytes of a record.
sys.path.append(str(pathlib.Path(__file__).parents[1] / "calls"))

from writing import body, deposit

# How often a counter asks the same.
QUESTIONS = 700

# How many batches have the reference that is looked for. More lines than fill a pipe of a page, and 256 that wait behind
# them.
BATCHES = 700

PAGE = 4096

# What one counter says, and what it is told. A reference more than 2^32 above the last one that was posted is refused, so
# that a mistake leaves the counter its references, unless it says that it begins with it.
FAR = (
    ("deposit 1 1 18446744073709551615", "refused Reference 18446744073709551615"),
    ("deposit 1 1 4294967297", "refused Reference 4294967297"),
    ("deposit 1 1 7", "posted 0 7"),
    ("deposit 1 1 4294967304", "refused Reference 4294967304"),
    ("deposit 1 1 4294967303", "posted 1 4294967303"),
    ("deposit 1 1 8589934600", "refused Reference 8589934600"),
    ("withdraw 1 900 8589934599", "refused Short 8589934599"),
    ("deposit 1 1 8589934600", "refused Reference 8589934600"),
    ("deposit 1 1", "posted 2 0"),
    ("first 18446744073709551615", "first 18446744073709551615"),
    ("deposit 1 1 18446744073709551615", "posted 3 18446744073709551615"),
    ("deposit 1 1 18446744073709551615", "posted 3 18446744073709551615"),
    ("last", "last 18446744073709551615 3"),
    ("balance 1", "balance 1 4"),
)


def references_far_above_the_last(case):
    """A refused entry has used no reference."""
    client, = case.counters(1)
    with case.formatted([client], 4) as office:
        office.opened(client)
        for said, told in FAR:
            require_same(client.ask(said), [told], f"the answer to {said}")
        require_same(client.ask("close"), ["closing"], "the answer to close")
        office.closed()


def each_is_told_what_it_asked(case):
    """As often as it asks, while the other one asks too. No turn is taken for that."""
    one, other = clients = case.counters(2)
    with case.formatted(clients, 4) as office:
        office.opened(*clients)
        one.say(b"balance 1\n" * QUESTIONS)
        other.say(b"find 7\n" * QUESTIONS)
        require_same(one.hear(QUESTIONS), ["balance 1 0"] * QUESTIONS, "the answers of the one")
        require_same(other.hear(QUESTIONS), ["found 0 since 0"] * QUESTIONS, "the answers of the other one")
        require_same(one.ask("close"), ["closing"], "the answer to close")
        office.closed()
        require_closed(office, 2, 0)
        require(office.printed()[-2].startswith("closed after 0 turns"), f"turns were taken: {office.printed()[-2]}")


def with_deposits(case):
    """A ledger with so many batches of station 0, each a deposit of 1 with the reference 1, on as many slots and 4 more."""
    case.formatted_ledger(BATCHES + 4)
    image = bytearray(case.device.read_bytes())
    for number in range(BATCHES):
        record = body(0, number, [deposit(1, 1)]) + b"\xa5"
        at = 512 * (20 + 2 * number)
        image[at:at + len(record)] = record
    case.device.write_bytes(image)


def a_search_tells_of_one_moment(case):
    """What the other counter posts with that reference while a search goes on isn't among its answers. It goes on since its
    answers aren't read: so many fit into no pipe of a page."""
    one, other = clients = case.counters(2)
    with_deposits(case)
    with case.office(clients, "--counters-anew") as office:
        office.opened(*clients)
        fcntl.fcntl(one.output, fcntl.F_SETPIPE_SZ, PAGE)
        one.say(b"find 1\n")
        require_same(other.ask("first 1"), ["first 1"], "where the other one's references begin")
        for _ in range(QUESTIONS):
            require_same(other.ask("balance 1"), [f"balance 1 {BATCHES}"], "a balance")
        require_same(other.ask("deposit 1 1 1"), [f"posted {BATCHES} 1"], "a posting meanwhile")
        wanted = [*(f"posted {number} 1" for number in range(BATCHES)), f"found {BATCHES} since 0"]
        require_same(one.hear(BATCHES + 1), wanted, "what the search tells")
        wanted = [*(f"posted {number} 1" for number in range(BATCHES + 1)), f"found {BATCHES + 1} since 0"]
        one.say(b"find 1\n")
        require_same(one.hear(BATCHES + 2), wanted, "what a later one tells")
        require_same(other.ask("close"), ["closing"], "the answer to close")
        office.closed()
