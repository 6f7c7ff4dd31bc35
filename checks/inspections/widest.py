"""Writes a file of layout 3 whose numbers fill their columns. Word: its path. Its first record is record 1, before which
account 3 holds the largest amount and account 4 is sealed."""
import sys

MOST = 10**18


def sector(start):
    return start.ljust(512, b"\0")


def number(value, size):
    return value.to_bytes(size, "big")


def entry(kind, first, second, amount, reference):
    return number(kind, 1) + bytes(3) + number(first, 4) + number(second, 4) + bytes(4) + number(amount, 8) + number(reference, 8)


def slot(station, sequence, *entries):
    body = b"TLB1" + number(station, 2) + number(len(entries), 2) + number(sequence, 8) + bytes(16) + b"".join(entries)
    return sector(body) + sector(b"\xa5")


balances = bytes(8 * 2) + number(MOST, 8) + bytes(8 * 1021)
seals = number(1 << 3, 1)
with open(sys.argv[1], "wb") as file:
    file.write(sector(b"TLDG" + number(3, 2) + bytes(2) + number(2, 8)))
    file.write(sector(b"\xa5") + sector(b"TLBK" + bytes(4) + number(0, 8) + number(1, 8)) + balances + sector(seals))
    file.write(slot(63, 1, entry(3, 3, 1024, MOST, 2**64 - 1), entry(2, 1024, 0, 10, 8)))
    file.write(slot(1, 2, entry(1, 0, 9, 5, 9), entry(4, 9, 0, 0, 10)))
    file.truncate((39 + 4 * 2) * 512)
