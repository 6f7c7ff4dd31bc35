"""Images in which several things were changed at random, beside reading.py."""
import random
import re

import reading
from console import is_told, require
from images import put
from writing import (
    DEPOSIT, FIRST, HEAD, OPEN, SEAL, SECTOR, TRANSFER, WITHDRAWAL, ZERO, body, body_at, gate_at, head, place, second,
)

IMAGES, SEED = 100_000, 1974

# How many images are asked for at once.
AT_ONCE = 100

# What a byte among the first of a sector may become: a byte of a head, a count, a kind.
FIELDS = (0, 1, 2, 3, 4, 0xFF)

KINDS = (DEPOSIT, DEPOSIT, WITHDRAWAL, TRANSFER, SEAL, 5)
ACCOUNTS = (0, 1, 1, 2, 1024, 1025)
AMOUNTS = (0, 1, 5, 5, 500, 999_999_999_999_999_000, 1_000_000_000_000_000_001)

# The kinds of answers, each of which has to come.
ANSWERS = {"next", "Unformatted", "Version", "Size", "Bank", "Header", "Sequence", "Tail", "Entry", "Verdict"}

CHANGES = []


def change(function):
    """Something that may happen to an image."""
    CHANGES.append(function)
    return function


def some_place(some):
    """An entry, or something like one: kinds, accounts and amounts from both sides of each limit."""
    kind = some.choice(KINDS)
    source = 0 if kind == DEPOSIT else some.choice(ACCOUNTS)
    target = 0 if kind in (WITHDRAWAL, SEAL) else some.choice(ACCOUNTS)
    amount = some.choice((0, 0, 1)) if kind == SEAL else some.choice(AMOUNTS)
    return place(kind, source, target, amount, 0)


def some_body(some, sequence):
    """A body that is a record of this sequence, or nearly."""
    return body(some.choice((0, 0, 1, 63, 64)), sequence, [some_place(some) for _ in range(some.randrange(5))])


def some_bank(some):
    """The first bank, or the second one where each has 1 slot, or 4."""
    return some.choice((FIRST, second(1), second(4)))


def set_byte(image, at, place, value):
    image[at] = image[at][:place] + bytes([value]) + image[at][place + 1 :]


@change
def byte(some, image):
    set_byte(image, some.randrange(len(image)), some.randrange(SECTOR), some.randrange(256))


@change
def field(some, image):
    set_byte(image, some.randrange(len(image)), some.randrange(32), some.choice(FIELDS))


@change
def zeros(some, image):
    image[some.randrange(len(image))] = ZERO


@change
def ones(some, image):
    image[some.randrange(len(image))] = b"\xff" * SECTOR


@change
def copied(some, image):
    image[some.randrange(len(image))] = some.choice(image)


@change
def exchanged(some, image):
    one, other = some.randrange(len(image)), some.randrange(len(image))
    image[one], image[other] = image[other], image[one]


@change
def opened(some, image):
    set_byte(image, some.randrange(len(image)), 0, OPEN[0])


@change
def another_head(some, image):
    """A sound head of a bank, behind an open gate."""
    bank = some_bank(some)
    set_byte(image, bank, 0, OPEN[0])
    image[bank + HEAD] = head(some.choice((0, 1, 2)), some.choice((0, 0, 1, reading.LAST - 1, reading.LAST)))


@change
def another_body(some, image):
    """A body in one of a bank's first slots, with the sequence that is due there, behind an open gate."""
    bank, slot = some_bank(some), some.randrange(3)
    _, base = reading.head(image[bank + HEAD]) or (0, 0)
    image[body_at(bank, slot)] = some_body(some, (base + slot) % 2**64)
    set_byte(image, gate_at(bank, slot), 0, OPEN[0])


def after_three_turns(console, slots):
    """With so many slots a bank, on the sectors that 4 of them need, after three turns with a deposit and a transfer of
    some of it: with 1 slot behind two checkpoints, with 4 without any."""
    turns = [f"turn {station} deposit 1 100 1 transfer 1 2 40 3" for station in (0, 1, 0)]
    console.ask(["device 55", f"format {slots}", "clerk 2 00 10", *turns, "close"])
    told = console.ask([f"sector {at}" for at in range(55)])
    return [bytes.fromhex(line).ljust(SECTOR, b"\0") for line in told]


def changed(some, sound):
    """An image with one to six changes, and the sectors that differ."""
    image = list(sound)
    for _ in range(some.randint(1, 6)):
        some.choice(CHANGES)(some, image)
    return image, [at for at in range(len(image)) if image[at] != sound[at]]


def asked(sound, image, differ):
    """Puts an image's sectors there, recovers, and puts the sound ones back."""
    there = [line for at in differ for line in put(at, image[at], sound[at])]
    back = [line for at in differ for line in put(at, sound[at], image[at])]
    return [*there, "recover", *back]


def kind_of(answer):
    return re.search(r"next|Unformatted|Version|Size|Bank|Header|Sequence|Tail|Entry|Verdict", answer)[0]


def compare(console, some, sound, count):
    """Compares so many images: the kinds of answers that come."""
    images = [changed(some, sound) for _ in range(count)]
    told = console.ask_each(asked(sound, image, differ) for image, differ in images)
    kinds = set()
    for (image, differ), answers in zip(images, told, strict=True):
        wanted = reading.read(image)
        if len(answers) != 1 or not is_told(answers[0], wanted):
            sectors = ", ".join(f"{at} as {image[at].rstrip(ZERO).hex() or '00'}" for at in differ)
            require(False, f"sector {sectors}: {answers!r} and not {wanted!r}")
        kinds.add(kind_of(wanted))
    return kinds


def at_several_places(console, every):
    """Each image is read as FORMATS says: half of them were made behind checkpoints, half in one bank."""
    some, kinds, count = random.Random(SEED), set(), IMAGES // every // AT_ONCE * AT_ONCE
    for slots in (1, 4):
        sound = after_three_turns(console, slots)
        for _ in range(0, count // 2, AT_ONCE):
            kinds |= compare(console, some, sound, AT_ONCE)
            console.ask(["crash"])
    require(every > 1 or kinds == ANSWERS, f"no image is answered by {sorted(ANSWERS - kinds)}")
    return count
