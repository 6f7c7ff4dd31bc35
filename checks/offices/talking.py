"""One counter, and what each of its requests is answered."""
import os
import re

from office import Row, require, require_same

SPACES = b" " * 247

# What the counter says, a line each, and what it is told, where each answer is awaited before the next request. An
# entry without a reference has reference 0. References rise; an entry that is said again is told as it was then.
TALK = (
    (b"last", "last none"),
    (b"deposit 1 500 1", "posted 0 1"),
    (b"withdraw 1 120 2", "posted 1 2"),
    (b"transfer 1 2 80", "posted 2 0"),
    (b"balance 1", "balance 1 300"),
    (b"balance 2", "balance 2 80"),
    (b"balance 1024", "balance 1024 0"),
    (b"balance 1025", "refused NoAccount"),
    (b"balance 0", "refused NoAccount"),
    (b"deposit 1 500 1", "posted 0 1"),
    (b"withdraw 1 120 2", "posted 1 2"),
    (b"deposit 1 120 2", "refused Reference 2"),
    (b"deposit 1 501 1", "refused Reference 1"),
    (b"deposit 7 9 4711", "posted 3 4711"),
    (b"deposit 7 1 4711", "refused Reference 4711"),
    (b"deposit 7 9 4710", "refused Reference 4710"),
    (b"deposit 7 1", "posted 4 0"),
    (b"find 4711", "posted 3 4711", "found 1 since 0"),
    (b"find 12", "found 0 since 0"),
    (b"withdraw 7 11", "refused Short 0"),
    (b"withdraw 7 11 5000", "refused Short 5000"),
    (b"last", "last 4711 3"),
    (b"deposit 7 1 5000", "posted 5 5000"),
    (b"withdraw 7 11 5000", "refused Reference 5000"),
    (b"find 50", "found 0 since 0"),
    (b"deposit 1 0 5001", "refused ZeroAmount 5001"),
    (b"withdraw 1025 5", "refused NoAccount 0"),
    (b"transfer 2 2 5 7777", "refused SameAccount 7777"),
    (b"deposit 2 1000000000000000000", "refused OverLimit 0"),
    (b"seal 7 6000", "posted 6 6000"),
    (b"seal 7 6000", "posted 6 6000"),
    (b"deposit 7 1", "refused Sealed 0"),
    (b"seal 7", "refused Sealed 0"),
    (b"seal 0", "refused NoAccount 0"),
    (b"balance 7", "balance 7 11"),
    (b"first 6000", "refused Reference 6000"),
    (b"first 0", "refused Reference 0"),
    (b"first 7000", "first 7000"),
    (b"deposit 3 4 6999", "refused Reference 6999"),
    (b"last", "last 6000 6"),
    (b"deposit 3 18446744073709551615", "refused OverLimit 0"),
    (b"deposit 3 4 0", "posted 7 0"),
    (b"deposit 3 4 18446744073709551615", "refused Reference 18446744073709551615"),
    (b"first 18446744073709551615", "first 18446744073709551615"),
    (b"deposit 3 4 18446744073709551615", "posted 8 18446744073709551615"),
    (b"deposit 3 4 18446744073709551616", "wrong bad number"),
    (b"find 18446744073709551615", "posted 8 18446744073709551615", "found 1 since 0"),
    (b"deposit 3 4 18446744073709551615", "posted 8 18446744073709551615"),
    (b"find 0", "posted 2 0", "posted 4 0", "posted 7 0", "found 3 since 0"),
    (b"chart 1", "wrong unknown command"),
    (b"Deposit 1 1", "wrong unknown command"),
    (b"deposit 1", "wrong wrong number of words"),
    (b"deposit 1 2 3 4", "wrong wrong number of words"),
    (b"transfer 1 2", "wrong wrong number of words"),
    (b"deposit one 2", "wrong bad number"),
    (b"deposit 1 -2", "wrong bad number"),
    (b"balance 4294967296", "wrong bad number"),
    (b"balance 4294967295", "refused NoAccount"),
    (b"balance", "wrong wrong number of words"),
    (b"find", "wrong wrong number of words"),
    (b"find x", "wrong bad number"),
    (b"seal 3 x", "wrong bad number"),
    (b"last 1", "wrong wrong number of words"),
    (b"first", "wrong wrong number of words"),
    (b"first x", "wrong bad number"),
    (b"help now", "wrong wrong number of words"),
    (b"close now", "wrong wrong number of words"),
    (b"",),
    (b"   ",),
    (b"# deposit 1 5",),
    (b"  #",),
    (b"\r",),
    (b"  deposit   3   1  ", "posted 9 0"),
    (b"balance 0003\r", "balance 3 9"),
    (b"balance 3\r\r", "wrong bad number"),
    (b"balance\t3", "wrong unknown command"),
    (b"balance 3\0", "wrong bad number"),
    (b"\0", "wrong unknown command"),
    (b"\xff\xfe", "wrong unknown command"),
    (b"balance 3" + SPACES, "balance 3 9"),
    (b"balance 3" + SPACES + b"\r", "balance 3 9"),
    (b"balance 3" + SPACES + b" ", "wrong line too long"),
    (b"  #" + b"-" * 70_000,),
    (b"x" * 70_000, "wrong line too long"),
    (b"deposit 3 1", "posted 10 0"),
    (b"transfer 3 1 10", "posted 11 0"),
    (b"balance 3", "balance 3 0"),
    (b"balance 1", "balance 1 310"),
)

# What is then in the file.
ROWS = [
    Row(0, 0, "deposit", "", "1", "500", 1),
    Row(1, 0, "withdraw", "1", "", "120", 2),
    Row(2, 0, "transfer", "1", "2", "80", 0),
    Row(3, 0, "deposit", "", "7", "9", 4711),
    Row(4, 0, "deposit", "", "7", "1", 0),
    Row(5, 0, "deposit", "", "7", "1", 5000),
    Row(6, 0, "seal", "7", "", "", 6000),
    Row(7, 0, "deposit", "", "3", "4", 0),
    Row(8, 0, "deposit", "", "3", "4", 18446744073709551615),
    Row(9, 0, "deposit", "", "3", "1", 0),
    Row(10, 0, "deposit", "", "3", "1", 0),
    Row(11, 0, "transfer", "3", "1", "10", 0),
]

HELP = ["deposit", "withdraw", "transfer", "seal", "balance", "find", "last", "first", "hello", "copy", "archive", "name", "status",
        "help", "close", "Accounts", "Said"]


def require_closed(office, stations, turns):
    """That the output's end tells so many turns at least, and a line as it stands."""
    closed, bits = [line for line in office.printed() if not line.startswith(("unanswered ", "untold "))][-2:]
    told = re.fullmatch(r"closed after (\d+) turns", closed)
    require(told and int(told[1]) >= turns, f"the end is {closed!r} after {turns} batches")
    pattern = rf"bits [01]{{{stations}}}/[01]{{{stations}}} privileges [1-9]\d*"
    require(re.fullmatch(pattern, bits), f"the last line is {bits!r}")


def one_after_another(case):
    """Each kind of request, each answer awaited, and the same file opened again."""
    client, = case.counters(1)
    with case.formatted([client], 16) as office:
        require_same(office.opened(client), ["formatted 16", "opened 2 next 0 total 0"], "the output's beginning")
        for said, *told in TALK:
            client.say(said + b"\n")
            require_same(client.hear(len(told)), told, f"the answer to {said[:60]!r}")
        require_same([line.split()[0] for line in client.ask("help", len(HELP))], HELP, "help")
        for piece in (b"bal", b"ance", b" 2\nbal", b"ance 1\n"):
            client.say(piece)
        require_same(client.hear(2), ["balance 2 80", "balance 1 310"], "the answers to lines in pieces")
        require_same(client.ask("close"), ["closing"], "the answer to close")
        require_same(office.closed(), [], "what is unanswered")
        require_closed(office, 2, 12)
        require_same(len(office.printed()), 4, "the number of lines that are printed")
    require_same(case.rows(), ROWS, "the records in the file")
    client.leave()
    with case.office([client]) as office:
        require_same(office.opened(client), ["opened 2 next 12 total 401"], "the second opening")
        require_same(client.ask("balance 1"), ["balance 1 310"], "a balance of the second opening")
        require_same(client.ask("find 4711", 2), ["posted 3 4711", "found 1 since 0"], "a reference of the first opening")
        require_same(client.ask("deposit 7 9 4711"), ["posted 3 4711"], "a posting of the first opening, said again")
        require_same(client.ask("deposit 2 20"), ["posted 12 0"], "a posting of the second opening")
        require_same(client.ask("close"), ["closing"], "the answer to close")
        require_same(office.closed(), [], "what is unanswered")
        require_closed(office, 2, 1)


def all_at_once(case):
    """The same requests without waiting: the same answers but for the numbers of batches, which the file bears out."""
    client, = case.counters(1)
    # entries without a reference may stand in one batch
    talk = [(b"# find",) if said == b"find 0" else (said, *told) for said, *told in TALK]
    with case.formatted([client], 16) as office:
        office.opened(client)
        client.say(b"".join(said + b"\n" for said, *_ in talk))
        wanted = [line for _, *told in talk for line in told]
        found = client.hear(len(wanted))
        client.say(b"close\n")
        require_same(client.hear(1), ["closing"], "the answer to close")
        require_same(office.closed(), [], "what is unanswered")
    # the numbers of batches, which are fewer
    unnumbered = re.compile(r"(?<=posted )\d+ |(?<=last \d{4} )\d+")
    for line, other in zip(found, wanted):
        require_same(unnumbered.sub("", line), unnumbered.sub("", other), "an answer")
    rows = case.rows()
    require_same([row.reference for row in rows], [row.reference for row in ROWS], "the references in the file")
    posted = {f"posted {row.sequence} {row.reference}" for row in rows}
    told = {line for line in found if line.startswith("posted ")}
    require_same(told - posted, set(), "what is told as posted, and isn't in the file")


def behind_a_checkpoint(case):
    """On banks of two slots a reference is found in both banks, also by an office that didn't make the checkpoint."""
    client, = case.counters(1)
    with case.formatted([client], 2) as office:
        office.opened(client)
        for number in range(5):
            require_same(client.ask(f"deposit 1 1 {number + 1}"), [f"posted {number} {number + 1}"], "a posting")
        require_same(client.ask("find 5", 2), ["posted 4 5", "found 1 since 2"], "a reference behind the checkpoint")
        require_same(client.ask("find 3", 2), ["posted 2 3", "found 1 since 2"], "a reference of the bank before it")
        require_same(client.ask("find 1"), ["found 0 since 2"], "a reference before both banks")
        require_same(client.ask("deposit 1 1 3"), ["posted 2 3"], "a posting of the bank before it, said again")
        require_same(client.ask("deposit 1 1 1"), ["refused Unknown since 2 1"], "one before both banks, said again")
        require_same(client.ask("balance 1"), ["balance 1 5"], "a balance")
        require_same(client.ask("close"), ["closing"], "the answer to close")
        office.closed()
    client.leave()
    with case.office([client]) as office:
        office.opened(client)
        require_same(client.ask("find 3", 2), ["posted 2 3", "found 1 since 2"], "a reference of the bank before the checkpoint")
        require_same(client.ask("close"), ["closing"], "the answer to close")
        office.closed()


def said_before_it_opens(case):
    """What a client says before the office is there is answered once it is."""
    client, = case.counters(1)
    # such an end is there without another one
    client.input, client.output = (os.open(client.folder / name, os.O_RDWR | os.O_NONBLOCK) for name in ("in", "out"))
    client.say(b"deposit 1 5\nbalance 1\n")
    with case.formatted([client], 4):
        require_same(client.hear(2), ["posted 0 0", "balance 1 5"], "the answers")

