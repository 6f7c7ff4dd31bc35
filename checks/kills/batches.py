"""Batches that their numbers determine: what a script says for each, what the console prints, and the balances after
so many of them.

Each accepted entry changes the balances by amounts of its batch's number, so that no two prefixes leave the same ones,
and a batch of which a part is missing leaves those of no prefix.
"""
SWEEP = ((0, "Bottom"), (1, "Raise"), (2, "Top"), (1, "Lower"))
ACCOUNTS = range(1, 1025)


def accounts_of(number):
    """Three accounts, different ones, of a batch."""
    return 1 + number % 341, 342 + number * 7 % 341, 683 + number * 11 % 342


def entries(number):
    """The entries of a batch, and whether the rules accept each."""
    one, two, three = accounts_of(number)
    amount = 10 * (number + 1)
    return [
        (f"deposit {one} {amount}", True),
        (f"deposit {two} {amount + 1}", True),
        (f"transfer {two} {three} {number + 2}", True),
        (f"withdraw {three} 1000000000000", False),
        (f"transfer {one} {three} {number + 1}", True),
        (f"withdraw {one} 3", True),
    ]


def post(held, number):
    """Posts a batch to the balances."""
    one, two, three = accounts_of(number)
    amount = 10 * (number + 1)
    held[one] += amount - (number + 1) - 3
    held[two] += amount + 1 - (number + 2)
    held[three] += (number + 2) + (number + 1)


def balances(batches):
    """What each account holds after the first so many batches."""
    held = dict.fromkeys(ACCOUNTS, 0)
    for number in range(batches):
        post(held, number)
    return held


def turn(index, number):
    """The script's lines of a batch in the turn of this index since the opening, and what the console prints."""
    station, rule = SWEEP[index % 4]
    said, printed = [], []
    for place, (entry, _) in enumerate(entries(number)):
        said.append(f"post {station} {entry}")
        printed.append(f"held {station} {place + 1}")
    said.append(f"turn {station}")
    printed.append(f"turn {index} station {station} {rule} posted {number}")
    for place, (_, accepted) in enumerate(entries(number)):
        printed.append(f"entry {place} {'ok' if accepted else 'Short'}")
    return as_text(said), as_text(printed)


def as_text(lines):
    return "".join(line + "\n" for line in lines).encode()


def opened(batches):
    """What the opening of a file with so many batches prints, in a line of three stations."""
    return f"opened 3 next {batches} total {sum(balances(batches).values())}\n".encode()


def shown(batches):
    """What the opening and the balances of such a file print."""
    held = balances(batches)
    lines = [f"account {account} {held[account]}" for account in ACCOUNTS if held[account]]
    return opened(batches) + as_text(lines + [f"total {sum(held.values())}"])
