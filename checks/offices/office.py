"""The program that is looked at, the clients at its counters, and what its file holds."""
import contextlib
import csv
import dataclasses
import fcntl
import io
import os
import select
import signal
import subprocess
import time

# How many seconds anything may take that has no limit of its own.
PATIENCE = 60

# How many seconds one looks whether something rests.
WHILE = 1


class Mismatch(Exception):
    """Something isn't as it has to be."""


def require(holds, told):
    if not holds:
        raise Mismatch(told)


def require_same(found, wanted, of):
    """That they are equal; of long lists the first difference is told."""
    if found == wanted:
        return
    if isinstance(found, list) and len(found) + len(wanted) > 12:
        least = min(len(found), len(wanted))
        place = next((at for at in range(least) if found[at] != wanted[at]), least)
        of = f"{of}: of {len(found)} and {len(wanted)} the ones at {place}"
        found, wanted = found[place:place + 2], wanted[place:place + 2]
    raise Mismatch(f"{of}: {found!r} and not {wanted!r}")


def await_until(holds, told, seconds=PATIENCE):
    """Waits until this holds, and gives what it gave. Words of what is missing come from a call where it never does."""
    end = time.monotonic() + seconds
    while not (found := holds()):
        require(time.monotonic() < end, f"after {seconds} seconds {told()}")
        time.sleep(0.0005)
    return found


class Counter:
    """A counter's folder, with its two pipes, and the client at it."""

    def __init__(self, folder):
        self.folder = folder
        self.input = self.output = None
        self.heard = b""
        folder.mkdir()
        for name in ("in", "out"):
            os.mkfifo(folder / name)

    def come(self):
        """Opens the client's ends, which an office has to hold open."""
        try:
            self.output = os.open(self.folder / "out", os.O_RDONLY | os.O_NONBLOCK)
            self.input = os.open(self.folder / "in", os.O_WRONLY | os.O_NONBLOCK)
        except OSError as told:
            raise Mismatch(f"nobody reads at {self.folder.name}: {told}") from told

    @contextlib.contextmanager
    def held(self):
        """Holds the folder's lock, as a client does."""
        with open(self.folder / "lock", "ab") as lock:
            fcntl.flock(lock, fcntl.LOCK_EX)
            yield

    def leave(self):
        """Hangs up. What it has heard in part is forgotten."""
        for end in (self.input, self.output):
            if end is not None:
                os.close(end)
        self.input = self.output = None
        self.heard = b""

    def try_say(self, said):
        """How many of the bytes the pipe takes now."""
        try:
            return os.write(self.input, said[:65536])
        except BlockingIOError:
            return 0

    def say(self, said):
        """Says these bytes, and waits for a place for them."""
        while said:
            count = self.try_say(said)
            said = said[count:]
            if count == 0:
                _, ready, _ = select.select([], [self.input], [], PATIENCE)
                require(ready, f"{self.folder.name}: {len(said)} bytes aren't taken")

    def listen(self):
        """Reads what there is; false if nothing is there, and where nobody can say anything any more."""
        try:
            piece = os.read(self.output, 65536)
        except BlockingIOError:
            return False
        self.heard += piece
        return piece != b""

    def lines(self):
        """What was heard in whole lines, once."""
        *whole, self.heard = self.heard.split(b"\n")
        return [line.decode() for line in whole]

    def hear(self, count, seconds=PATIENCE):
        """The next so many lines. More mustn't have come."""
        end = time.monotonic() + seconds
        while (missing := count - self.heard.count(b"\n")) > 0:
            left = end - time.monotonic()
            ready = left > 0 and select.select([self.output], [], [], left)[0]
            require(ready, f"{self.folder.name}: {missing} of {count} lines are missing behind {self.heard[-200:]!r}")
            require(self.listen(), f"{self.folder.name}: nobody is there, behind {self.heard[-200:]!r}")
        require_same(self.heard.count(b"\n"), count, f"{self.folder.name}: lines, of {self.heard[-200:]!r}")
        require(self.heard[-1:] in (b"", b"\n"), f"{self.folder.name}: a part of a line is told, {self.heard[-200:]!r}")
        return self.lines()

    def ask(self, said, count=1, seconds=PATIENCE):
        """The lines that one request is answered by."""
        self.say(said.encode() + b"\n")
        return self.hear(count, seconds)

    def unread(self):
        """How many bytes that it said stand in its pipe, of an office that has ended."""
        left = os.open(self.folder / "in", os.O_RDONLY | os.O_NONBLOCK)
        try:
            return len(os.read(left, 1 << 20))
        except BlockingIOError:
            return 0
        finally:
            os.close(left)

    def hear_rest(self):
        """All whole lines that are left, of an office that has ended."""
        while self.listen():
            pass
        return self.lines()


class Office:
    """A run of the program, whose output and errors are kept in two files."""

    def __init__(self, words, kept_at, **more):
        self.printed_at, self.told_at = kept_at.with_suffix(".printed"), kept_at.with_suffix(".told")
        with open(self.printed_at, "wb") as printed, open(self.told_at, "wb") as told:
            streams = {"stdin": subprocess.DEVNULL, "stdout": printed, "stderr": told} | more
            # a session of its own, so that all of it is ended together
            self.run = subprocess.Popen(words, start_new_session=True, **streams)

    def __enter__(self):
        return self

    def __exit__(self, *_):
        self.kill()

    def kill(self):
        if self.run.poll() is None:
            os.killpg(self.run.pid, signal.SIGKILL)
        self.run.wait()

    def printed(self):
        """The lines of its output, without prompts."""
        return self.printed_at.read_text().replace("office> ", "").splitlines()

    def told(self):
        return self.told_at.read_text().splitlines()

    def opened(self, *clients):
        """What it prints until it is open. Then these clients come."""
        def is_open():
            if any(line.startswith("opened ") for line in self.printed()):
                return self.printed()
            require(self.run.poll() is None, f"it ends as {self.all_said()} and never opens")
            return None

        lines = await_until(is_open, lambda: f"it isn't open, but has said {self.all_said()}")
        for client in clients:
            client.come()
        return lines

    def all_said(self):
        return f"{self.run.poll()}, {self.printed()}, {self.told()}"

    def status(self, seconds=PATIENCE):
        """How it ends."""
        try:
            return self.run.wait(seconds)
        except subprocess.TimeoutExpired as told:
            raise Mismatch(f"after {seconds} seconds it hasn't ended, and has said {self.all_said()}") from told

    def closed(self, seconds=PATIENCE):
        """The pairs of counter and reference that it tells as unanswered, of an office that closes well."""
        status = self.status(seconds)
        require((status, self.told()) == (0, []), f"it ends as {self.all_said()}")
        return self.unanswered()

    def unanswered(self):
        lines = [line.split() for line in self.printed() if line.startswith("unanswered ")]
        return [(int(counter), int(reference)) for _, counter, reference in lines]

    def untold(self):
        """The pairs of counter and answer that it tells as not read."""
        lines = [line.split(maxsplit=2) for line in self.printed() if line.startswith("untold ")]
        return [(int(counter), answer) for _, counter, answer in lines]

    def figure(self, name):
        """A number of its status, as of VmHWM."""
        with open(f"/proc/{self.run.pid}/status", encoding="ascii") as lines:
            return next(int(line.split()[1]) for line in lines if line.startswith(f"{name}:"))

    def processor(self):
        """The processor's seconds that all its threads took."""
        with open(f"/proc/{self.run.pid}/stat", encoding="ascii") as lines:
            words = lines.read().rpartition(")")[2].split()
        return (int(words[11]) + int(words[12])) / os.sysconf("SC_CLK_TCK")

    def switches(self):
        """How often its threads waited."""
        count = 0
        for thread in os.listdir(f"/proc/{self.run.pid}/task"):
            with open(f"/proc/{self.run.pid}/task/{thread}/status", encoding="ascii") as lines:
                count += next(int(line.split()[1]) for line in lines if line.startswith("voluntary_ctxt_switches:"))
        return count

    def await_idle(self, when):
        """Waits until nothing of it runs: a while in which it takes no time and none of its threads is woken. That comes at
        last, however slow the machine, unless a thread looks again and again."""
        last = None

        def rests():
            nonlocal last
            before, last = last, (self.processor(), self.switches())
            if before != last:
                time.sleep(WHILE)
            return before == last

        await_until(rests, lambda: f"{when} it goes on: {last} are its seconds and how often its threads waited")


@dataclasses.dataclass(frozen=True)
class Row:
    """An entry of a record, as derbyfig lists it."""

    sequence: int
    station: int
    kind: str
    source: str
    target: str
    amount: str
    reference: int


@dataclasses.dataclass
class Case:
    """What a case works with: the program, and a folder of its own."""

    program: str
    folder: object
    words: object

    def __post_init__(self):
        self.device = self.folder / "device"
        self.made = []

    def counters(self, count):
        counters = [Counter(self.folder / f"counter_{number}") for number in range(count)]
        self.made += counters
        return counters

    def end(self):
        """Hangs up at each counter."""
        for counter in self.made:
            counter.leave()

    def run(self, *words, kept_as="run", before=(), **more):
        """A run of the program that serves with these words alone, by a program before it where that is given. Nobody has to
        say hello unless that is among them."""
        alone = () if "--hello" in words else ("--no-hello",)
        return Office([*before, self.program, "serve", *words, *alone], self.folder / kept_as, **more)

    def close(self, counter, *words):
        """How a run of the program ends that closes the office at a counter: its status, its output, and its errors."""
        return self.speak("close", counter, *words)

    def standing(self, counter):
        """The same of one that asks there how the office stands."""
        return self.speak("status", counter)

    def speak(self, command, counter, *words):
        words = [self.program, command, counter.folder, *words]
        run = subprocess.run(words, capture_output=True, check=False, text=True, timeout=PATIENCE)
        return run.returncode, run.stdout, run.stderr

    def office(self, counters, *words, **more):
        """An office on the device."""
        said = [word for counter in counters for word in ("--counter", str(counter.folder))]
        return self.run(str(self.device), *said, *words, **more)

    def formatted(self, counters, slots, *words, **more):
        """An office on a device that it formats."""
        return self.office(counters, "--format", str(slots), *words, **more)

    def holds_ledger(self):
        """Whether the file begins as a ledger does."""
        return self.device.exists() and self.device.read_bytes()[:4] == b"TLDG"

    def formatted_ledger(self, slots):
        """An empty ledger on the device."""
        subprocess.run([self.program, "format", self.device, "--slots", str(slots)], check=True, capture_output=True)

    def listed(self, command, file=None):
        """What derbyfig lists of a file, without the header; without a name of the office's."""
        words = [self.program, command, file or self.device, "--as", "csv"]
        run = subprocess.run(words, capture_output=True, check=False)
        require((run.returncode, run.stderr) == (0, b""), f"derbyfig {command} ends as {run.returncode} with {run.stderr}")
        _, *lines = csv.reader(io.StringIO(run.stdout.decode()))
        return lines

    def rows(self, file=None):
        """The entries that the file holds, or another one."""
        return [
            Row(int(number), int(station), kind, source, target, amount, int(reference))
            for number, station, kind, source, target, amount, reference, *_ in self.listed("journal", file) if station
        ]

    def balances(self):
        """What accounts hold that hold something."""
        listed = self.listed("balances")
        return {int(account): int(held) for account, held, _ in listed if account != "total" and held != "0"}
