"""A line of stations from arbitrary bits, until one privilege is left, which then sweeps."""
from console import Console
from drawing import circle, line, picture, rectangle, shape, text

STATIONS, X, UP = 7, "1010111", "1100010"
SWEEP = 2 * (STATIONS - 1)
# a cell's width and height, and the next one's distance to the right and below
WIDE, HIGH, RIGHT, DOWN = 14, 20, 17.5, 25
LEFT, TOP = 64, 64
BELOW = TOP + STATIONS * DOWN


def privileged(console, script):
    """The stations whose turn the program takes after this script."""
    return [station for station in range(STATIONS)
            if not console.lines([*script, f"turn {station}"])[-1].startswith("refused")]


def pick(number, stations):
    """One of the stations, by a rule that jumps about: any choice is allowed."""
    return stations[(2 * number * number + number + 1) % len(stations)]


def configurations(program):
    """Bits, number of privileges, privileged stations and the one that moves next, of each configuration up to a whole sweep.

    Each is a run of its own, since a script is read whole before its first line runs.
    """
    console, script, rows, legitimate = Console(program), ["format 1", f"open {STATIONS} {X} {UP}"], [], 0
    while legitimate <= SWEEP:
        _, bits, _, privileges = console.lines([*script, "bits"])[-1].split()
        stations = privileged(console, script)
        mover = pick(len(rows), stations)
        rows.append((bits.split("/"), int(privileges), stations, mover))
        script.append(f"turn {mover}")
        legitimate += privileges == "1"
    return rows


def cell(x, y, is_set, is_up):
    """A station's two bits: filled where x is 1, with a wedge where up is 1. Below it there is room for a circle."""
    yield rectangle(x, y, WIDE, HIGH, "set" if is_set else "bare", 2)
    if is_up:
        middle = x + WIDE / 2
        yield shape([(middle - 3, y + 6), (middle + 3, y + 6), (middle, y + 2)], "ink")


def token(x, y, moves):
    """The circle of a station that may move, full where it does next."""
    yield circle(x, y, 4.4 if moves else 3.6, "mark" if moves else "mark-line ring")


def drawn(number, row):
    """A configuration as a column, the bottom station at the bottom."""
    (xs, ups), privileges, stations, mover = row
    x = LEFT + number * RIGHT
    for station in range(STATIONS):
        y = BELOW - (station + 1) * DOWN
        yield from cell(x, y, xs[station] == "1", ups[station] == "1")
        if station in stations:
            yield from token(x + WIDE / 2, y + HIGH - 6.5, station == mover)
    yield text(x + WIDE / 2, BELOW + 14, str(privileges), "good" if privileges == 1 else "mark", 12, "middle", "600")


def legend():
    y = 312
    for x, is_set, is_up, said in ((16, False, False, "x is 0"), (116, True, False, "x is 1"), (240, False, True, "up is 1")):
        yield from cell(x, y - 14, is_set, is_up)
        yield text(x + 20, y, said, "faint", 11)
    yield from token(23, y + 21, True)
    yield text(36, y + 25, "has a privilege, and moves next", "faint", 11)
    yield from token(247, y + 21, False)
    yield text(260, y + 25, "has a privilege too", "faint", 11)


def heal_picture(program):
    rows = configurations(program)
    first = next(number for number, row in enumerate(rows) if row[1] == 1)
    border = LEFT + first * RIGHT - (RIGHT - WIDE) / 2
    parts = [text(16, 46, "Seven stations, from arbitrary bits; a column after each move.", "faint")]
    for name, station in (("top", STATIONS - 1), ("bottom", 0)):
        parts.append(text(LEFT - 6, BELOW - (station + 1) * DOWN + 14, name, "faint", 11, "end"))
    parts.append(text(LEFT - 6, BELOW + 14, "privileges", "faint", 11, "end"))
    for number, row in enumerate(rows):
        parts += drawn(number, row)
    parts += [
        line(border, TOP - 4, border, BELOW + 36, "good-line dashed"),
        text(border - 6, BELOW + 33, "several may move", "mark", 12, "end"),
        text(border + 6, BELOW + 33, "one may: bottom to top and back", "good", 12),
        *legend(),
    ]
    told = (f"Seven stations in a row after each of {len(rows) - 1} moves. At first {rows[0][1]} privileges are present; after"
            f" {first} moves one is left, and it goes from the bottom to the top and back.")
    return picture("The order of turns heals by itself", told, parts)
