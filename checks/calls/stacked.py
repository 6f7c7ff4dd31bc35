"""What reaches a device behind another one: a buffer for its reads, one that stops behind a failed sync, and one that is
only read."""
from formats import calls

# The calls that are asked for, as lines and as they are noted; in the third one it is synced.
ASKED = (("write 2 01", "Write(2)"), ("read 1", "Read(1)"), ("sync", "Sync"), ("read 3", "Read(3)"), ("write 0 02", "Write(0)"))

FAULT = "refused DeviceFault: the device failed"

# From a call of this number on no call comes.
NEVER = len(ASKED)


def asked_of(begun, broken):
    """The lines that ask for these calls of a device of four sectors, which is broken from that call on."""
    fails = [f"fault stop any {broken}"] if broken < NEVER else []
    return ["device 4", begun, *fails, *(line for line, _ in ASKED), "close", "calls"]


def stopped(broken):
    """What is printed of a device that stops: a sync that fails is the last call that it hands on."""
    told, reaches = [], []
    for number, (line, noted) in enumerate(ASKED):
        has_stopped = broken <= 2 < number
        if not has_stopped:
            reaches.append(noted)
        if has_stopped or number >= broken:
            told.append(FAULT)
        elif line.startswith("read"):
            # all sectors but the second and the first are zero
            told.append("")
    return [*told, calls(*reaches)]


def each_call_reaches_a_device_that_stops_once_and_in_order():
    """Whichever call it is broken at."""
    asked = [line for broken in range(NEVER + 1) for line in asked_of("stop", broken)]
    return asked, [line for broken in range(NEVER + 1) for line in stopped(broken)]


def reads_alone_reach_a_device_that_is_only_read():
    """It is synced before, so that nothing of it is pending. Writes are refused, and a sync is answered at once."""
    asked, told = [], []
    for broken in range(3):
        asked += asked_of("only", broken if broken < 2 else NEVER)
        reads = [FAULT if number >= broken else "" for number in range(2)]
        told += [FAULT, reads[0], reads[1], FAULT, calls("Sync", "Read(1)", "Read(3)")]
    return asked, told


# A run begins at the eighth sector before the one that is read, and has as many as there are, of 256 at most.
RUN = "Run(92, 208)"


def a_buffer_asks_once_for_what_it_does_not_hold():
    """A write to a sector that is held empties it, and so does a call that fails. If a run can't be read, the sector alone
    is."""
    rows = (
        ("", ("read 100", "read 92", "read 299"), (RUN,), ()),
        ("", ("read 7", "read 0", "read 255"), ("Run(0, 256)",), ()),
        ("", ("read 20", "read 11", "read 259"), ("Run(12, 256)", "Run(3, 256)", "Run(251, 49)"), ()),
        ("", ("read 100", "write 91 00", "sync", "read 92", "write 92 00", "write 92 00", "read 100"),
         (RUN, "Write(91)", "Sync", "Write(92)", "Write(92)", RUN), ()),
        ("once run 0", ("read 100", "read 100"), (RUN, "Read(100)", RUN), ()),
        ("twice run 0 0", ("read 100", "read 100"), (RUN, "Read(100)") * 2, ()),
        # behind it no call passes, and so no read of the sector alone
        ("stop run 0", ("read 100", "read 100"), (RUN, "Read(100)") * 2, (0, 1)),
        ("once write 0", ("read 100", "write 5 00", "read 100"), (RUN, "Write(5)", RUN), (1,)),
        ("once sync 0", ("read 100", "sync", "read 100"), (RUN, "Sync", RUN), (1,)),
    )
    asked, told = [], []
    for fault, lines, reaches, failed in rows:
        asked += ["device 300", "ahead", *([f"fault {fault}"] if fault else []), *lines, "close", "calls"]
        told += [FAULT if number in failed else "" for number, line in enumerate(lines)
                 if line.startswith("read") or number in failed]
        told.append(calls(*reaches))
    return asked, told


TESTS = (
    each_call_reaches_a_device_that_stops_once_and_in_order,
    reads_alone_reach_a_device_that_is_only_read,
    a_buffer_asks_once_for_what_it_does_not_hold,
)
