"""Scripts of turns for a line of three stations, which sweeps 0, 1, 2, 1 from the bits 000 and 100 on."""
import random

SWEEP = (0, 1, 2, 1)


def entry(words, accounts):
    """One entry's words: a deposit, a withdrawal or a transfer, which the rules may refuse."""
    account, other, amount = words.randint(1, accounts), words.randint(1, accounts), words.randint(1, 999)
    kind = words.randrange(3)
    if kind == 0:
        return f"deposit {account} {amount}"
    if kind == 1:
        return f"withdraw {account} {amount}"
    return f"transfer {account} {other} {amount}"


def turns(count, entries, accounts=64):
    """So many turns, each with a deposit, which is always accepted, and other entries up to this number, spread over so
    many accounts.
    """
    words = random.Random(1)
    yield "open 3 000 100"
    for number in range(count):
        station = SWEEP[number % 4]
        yield f"post {station} deposit {words.randint(1, accounts)} {words.randint(500, 999)}"
        for _ in range(entries - 1):
            yield f"post {station} {entry(words, accounts)}"
        yield f"turn {station}"
    yield "balances"


def in_memory(count, entries, accounts):
    """The same on a device in memory, which is formatted first."""
    yield f"format {count}"
    yield from turns(count, entries, accounts)


def write(path, lines):
    """Writes a script, which has to be one that the program takes."""
    text = "".join(line + "\n" for line in lines)
    assert len(text) <= 16_777_216, "the script is too long"
    path.write_text(text, encoding="ascii")
    return path
