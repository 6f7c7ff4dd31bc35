"""Writes a file of layout 3 whose first bank is full. Words: its path, and the number of slots. Each record deposits 1 in
account 1, and its reference is its sequence number."""
import sys


def sector(start):
    return start + bytes(512 - len(start))


def number(value, size):
    return value.to_bytes(size, "big")


def slot(sequence):
    entry = bytes([1]) + bytes(7) + number(1, 4) + bytes(4) + number(1, 8) + number(sequence, 8)
    return sector(b"TLB1" + number(0, 2) + number(1, 2) + number(sequence, 8) + bytes(16) + entry) + sector(b"\xa5")


path, slots = sys.argv[1], int(sys.argv[2])
with open(path, "wb") as file:
    file.write(sector(b"TLDG" + number(3, 2) + bytes(2) + number(slots, 8)))
    file.write(sector(b"\xa5") + sector(b"TLBK" + bytes(20)) + bytes(17 * 512))
    for sequence in range(slots):
        file.write(slot(sequence))
    file.truncate((39 + 4 * slots) * 512)
