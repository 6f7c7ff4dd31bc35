"""The ledgers that are copied and printed, and the oldest ones."""


def entries(number, count):
    """The entries of a batch: deposits in accounts of their own, of amounts that rise."""
    return [f"deposit {1 + (number * 7 + place * 131) % 1024} {1 + number * count + place}" for place in range(count)]


def script(slots, batches, count):
    """A script that makes a ledger with so many slots and batches, each of so many entries, and in its first batch seals."""
    lines = [f"format {slots}", "open 2 00 10"]
    for number in range(batches):
        station = number % 2
        lines += [f"post {station} {entry}" for entry in [*entries(number, count), *(["seal 1000"] if number == 0 else [])]]
        lines.append(f"turn {station}")
    return "\n".join(lines) + "\n"


def make(failing, path, slots, batches, count=2):
    failing.done("run", str(path), "--sectors", str(39 + 4 * slots), said=script(slots, batches, count))


def first_layout():
    """A ledger of layout 1 with four slots, and a deposit of 500."""
    sectors = [bytes.fromhex(sector).ljust(512, b"\0") for sector in (
        "544c4447 0001 0000 0000000000000004",
        "544c4231 0000 0001" + 24 * "00" + "01000000 00000000 00000001 00000000 00000000000001f4 0000000000000003",
        "a5")]
    return b"".join(sectors).ljust(512 * 9, b"\0")
