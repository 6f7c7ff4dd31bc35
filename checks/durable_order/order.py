"""The order that calls have to have: a turn is durable before it is printed."""
import dataclasses
import re

SECTOR = 512
POSTED = re.compile(rb"^turn \d+ station \d+ \w+ posted (\d+)$", re.MULTILINE)
TAKEN = re.compile(rb"^turn \d+ ", re.MULTILINE)


class Disorder(Exception):
    """A trace isn't in order."""


def require(holds, told):
    if not holds:
        raise Disorder(told)


@dataclasses.dataclass
class Step:
    """A call that has to be made, and of a write or a read its sector and how the bytes there begin."""

    name: str
    sector: int = None
    begin: bytes = b""

    def is_made_by(self, call):
        if call.name != self.name:
            return False
        if self.name == "fdatasync":
            return call.result == 0
        length, place = call.numbers
        at = SECTOR * self.sector - place
        is_whole = at == 0 and length == SECTOR if self.name == "pwrite64" else 0 <= at < length
        return is_whole and call.result == length and call.data[at:].startswith(self.begin)


# A snapshot has sixteen sectors of balances and one of marks; before it stand a bank's gate and its head.
SNAPSHOT = 17
FRONT = 2 + SNAPSHOT

OPEN = b"\xa5" + bytes(SECTOR - 1)
CLOSED = bytes(SECTOR)
SYNC = Step("fdatasync")


def checkpoint(front, slots, epoch, base):
    """The calls that make live the bank that begins in this sector. Its gate is open where it was live before."""
    yield Step("pread64", front, OPEN if epoch > 1 else CLOSED)
    if epoch > 1:
        yield from (Step("pwrite64", front, CLOSED), SYNC)
    yield Step("pwrite64", front + 1, b"TLBK" + bytes(4) + epoch.to_bytes(8) + base.to_bytes(8))
    for sector in range(SNAPSHOT):
        yield Step("pwrite64", front + 2 + sector)
    for slot in range(slots):
        yield Step("pwrite64", front + FRONT + 2 * slot + 1, CLOSED)
    yield from (SYNC, Step("pwrite64", front, OPEN), SYNC)


def steps(slots, sequence):
    """The calls that make the record of this sequence durable, where each bank has so many slots."""
    epoch, slot = divmod(sequence, slots)
    front = 1 + epoch % 2 * (FRONT + 2 * slots)
    if epoch > 0 and slot == 0:
        yield from checkpoint(front, slots, epoch, sequence)
    body = front + FRONT + 2 * slot
    yield from (Step("pwrite64", body, b"TLB1"), SYNC, Step("pwrite64", body + 1, OPEN), SYNC)


def require_durable(calls, slots, sequence):
    """That these are the calls that make a record durable."""
    wanted = list(steps(slots, sequence))
    for number, (call, step) in enumerate(zip(calls, wanted)):
        require(step.is_made_by(call), f"record {sequence} has {call.text()} as call {number}")
    require(len(calls) == len(wanted), f"record {sequence} has {len(calls)} calls, and not {len(wanted)}")


def parts(calls, ledger):
    """Each write to standard output, with the calls on the ledger since the one before."""
    since = []
    for call in calls:
        if call.path.endswith("/" + ledger):
            since.append(call)
        elif call.number == 1:
            require(call.name == "write" and call.result == len(call.data), f"a torn answer: {call.text()}")
            yield since, call
            since = []
    require(not since, "calls on the ledger behind the last answer")


def turns_in_order(calls, ledger, slots):
    """The calls of each turn with an accepted entry, the printing last, and how many turns had none."""
    posted, empty = [], 0
    for place, (since, printed) in enumerate(parts(calls, ledger)):
        sequences = [int(sequence) for sequence in POSTED.findall(printed.data)]
        require(len(TAKEN.findall(printed.data)) <= 1, f"several turns in one answer: {printed.text()}")
        if sequences:
            require_durable(since, slots, sequences[0])
            require(sequences[0] == len(posted), f"record {sequences[0]} is printed as turn {len(posted)}")
            posted.append([*since, printed])
        elif place == 0:
            require(all(call.name in ("fsync", "fdatasync", "pread64") for call in since), "the opening writes")
        else:
            require(not since, f"calls on the ledger without an accepted entry: {printed.text()}")
            empty += 1
    return posted, empty
