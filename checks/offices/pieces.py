"""Much that stands in a pipe before anybody reads it: reads that get all that they asked for lose no byte of it."""
import fcntl
import os
import pathlib
import subprocess
import sys
import termios

from office import PATIENCE, await_until, require, require_same

CLIENTS = pathlib.Path(__file__).parents[2] / "clients"

# How much a pipe holds by itself. A script is read by as much at once, what a counter says by a part of it.
SHORT = 65_536

# How many postings are said at once, as many as such a pipe holds.
NUMBERS = range(1, 2_401)

# How many lines a script has that is read in two pieces.
LINES = 3_000

# How many answers another client leaves in a pipe, more than 4 KB.
ANSWERS = 500


def amount_of(number):
    """Numbers of other lengths, so that a piece that was read ends at any byte of a line."""
    return number % 7 * 10 ** (number % 6) + number


def account_of(number):
    return 1 + number * 37 % 1024


def postings():
    """What is said: deposits with rising references, with spaces of other lengths between the words."""
    lines = [f"deposit{' ' * (1 + number % 3)}{account_of(number)} {amount_of(number)} {number}\n" for number in NUMBERS]
    return "".join(lines).encode()


def full_pipe(said):
    """A pipe that has these bytes, and then its end."""
    output, into = os.pipe()
    fcntl.fcntl(into, fcntl.F_SETPIPE_SZ, max(len(said), SHORT))
    require_same(os.write(into, said), len(said), "what the pipe takes")
    os.close(into)
    return output


def require_posted(case, lines, station):
    """That each posting was answered, in order, and stands as it was said."""
    require_same([line.split()[::2] for line in lines], [["posted", str(number)] for number in NUMBERS], "the answers")
    found = [(row.station, row.kind, row.source, row.target, row.amount, row.reference) for row in case.rows()]
    wanted = [(station, "deposit", "", str(account_of(number)), str(amount_of(number)), number) for number in NUMBERS]
    require_same(found, wanted, "what stands")


def hear_all(client):
    """All that is told before the answer to a line that is said last, however much was lost before."""
    client.say(b"\nhello 7\n")

    def is_all():
        client.listen()
        return client.heard.endswith(b"hello 7\n")

    await_until(is_all, lambda: f"hello isn't answered, behind {client.heard[-80:]!r}")
    return client.lines()[:-1]


def said_at_a_counter(case):
    """A client says as much as a pipe holds before its office is there; each line is answered, and posted as it was said."""
    client, = case.counters(1)
    # such an end is there without another one
    client.input, client.output = (os.open(client.folder / name, os.O_RDWR | os.O_NONBLOCK) for name in ("in", "out"))
    require_same(client.try_say(postings()), len(postings()), "what the pipe holds")
    with case.formatted([client], 1000) as office:
        lines = hear_all(client)
        require_same(client.ask("close"), ["closing"], "the answer to close")
        require_same(office.closed(), [], "what is unanswered")
    require_posted(case, lines, 0)


def said_at_a_terminal(case):
    """The same at a terminal whose input is such a pipe."""
    said = full_pipe(postings())
    with case.run(str(case.device), "--terminal", "--format", "1000", stdin=said) as office:
        os.close(said)
        office.closed()
        require_posted(case, [line for line in office.printed() if line.startswith("posted ")], 0)


def read_from_a_script(case):
    """A script from such a pipe, in which entries have the numbers of their lines as references."""
    lines = ["format 1000", "open 2 00 10"]
    for number in range(1, LINES + 1):
        lines.append(f"post 0 deposit{' ' * (number % 3)} {account_of(number)} {amount_of(number)}")
        if number % 15 == 0:
            lines += ["turn 0", "turn 1"]
    script = "".join(f"{line}\n" for line in lines).encode()
    require(len(script) > SHORT, f"the script has {len(script)} bytes")
    said = full_pipe(script)
    run = subprocess.run([case.program, "run", case.device, "--sectors", "4039"], stdin=said, capture_output=True, timeout=PATIENCE)
    os.close(said)
    require_same((run.returncode, run.stderr), (0, b""), "the script")
    entries = [(number, line.split()) for number, line in enumerate(lines, 1) if line.startswith("post ")]
    last = max(number for number, line in enumerate(lines, 1) if line == "turn 0")
    wanted = [(int(words[1]), words[2], words[3], words[4], number) for number, words in entries if number < last]
    require_same([(row.station, row.kind, row.target, row.amount, row.reference) for row in case.rows()], wanted, "what stands")


def left_by_another_client(case):
    """Behind hundreds of answers that nobody read, `derbyfig status` tells how the office stands, and both clients are
    answered."""
    one, control = case.counters(2)
    with case.office([one, control], "--format", "64") as office:
        office.opened(one)
        require_same(one.ask("deposit 1 5 1"), ["posted 0 1"], "a posting")
        for asks in (asks_how_it_stands, posts_by("python", 2), posts_by("shell", 3)):
            leave_answers(control)
            asks(case, control)
        require_same(one.ask("balance 1"), ["balance 1 10"], "what was posted")
        require_same(one.ask("close"), ["closing"], "the answer to close")
        office.closed()
    require_same([row.amount for row in case.rows()], ["5", "2", "3"], "what stands")


def leave_answers(counter):
    """A client that says much, and goes without having read an answer."""
    counter.come()
    counter.say(b"balance 2\n" * ANSWERS)
    unread = len(b"balance 2 0\n") * ANSWERS
    await_until(lambda: bytes_in(counter.output) == unread, lambda: f"{bytes_in(counter.output)} bytes of {unread} are told")
    counter.leave()


def bytes_in(pipe):
    """How many bytes stand in a pipe."""
    return int.from_bytes(fcntl.ioctl(pipe, termios.FIONREAD, bytes(4)), sys.byteorder)


def asks_how_it_stands(case, counter):
    status, told, errors = case.standing(counter)
    names = [line.split()[0] for line in told.splitlines()]
    require_same((status, names, errors), (0, ["next", "free", "turns", "clients", "archived"], ""), "how the office stands")
    require_same(told.splitlines()[0], "next 1", "the next batch")


def posts_by(kind, amount):
    """A posting by one of the clients."""
    program = "import sys; from derbyfig import Counter\nwith Counter(*sys.argv[1:3]) as c: print(c.post(sys.argv[3]))"

    def post(case, counter):
        state, entry = str(case.folder / f"{kind}.state"), f"deposit 1 {amount}"
        words = {"python": [sys.executable, "-c", program, str(counter.folder), state, entry],
                 "shell": [str(CLIENTS / "counter"), "-f", "-s", state, str(counter.folder), *entry.split()]}[kind]
        path = {**os.environ, "PYTHONPATH": str(CLIENTS), "PYTHONDONTWRITEBYTECODE": "1"}
        run = subprocess.run(words, env=path, capture_output=True, text=True, timeout=PATIENCE)
        require_same((run.returncode, run.stderr), (0, ""), f"the client in {kind}")
    return post
