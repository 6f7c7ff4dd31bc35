"""Every line of two, three and four stations, by the four rules: their guards, their moves, and their longest runs."""
from functools import cache
from itertools import product

RULES = ("Bottom", "Top", "Raise", "Lower")

# The most moves that a run of so many stations makes before one privilege is left.
LONGEST = {2: 0, 3: 2, 4: 7}


def lines_of(stations):
    """Every line of so many stations: the bits x and the bits up, the bottom station's first."""
    for x in product((False, True), repeat=stations):
        for middle in product((False, True), repeat=stations - 2):
            yield x, (True, *middle, False)


def guard(line, station, rule):
    """Whether the station of a line may move by the rule."""
    x, up = line
    top = len(x) - 1
    if rule == "Bottom":
        return station == 0 and x[0] == x[1] and not up[1]
    if rule == "Top":
        return station == top and x[top] != x[top - 1]
    if not 0 < station < top:
        return False
    if rule == "Raise":
        return x[station] != x[station - 1]
    return x[station] == x[station + 1] and up[station] and not up[station + 1]


def moved(line, station, rule):
    """The line that the move leaves."""
    x, up = list(line[0]), list(line[1])
    if rule == "Lower":
        up[station] = False
    else:
        x[station] = not x[station]
    if rule == "Raise":
        up[station] = True
    return tuple(x), tuple(up)


@cache
def privileges(line):
    """Each station and rule by which it may move."""
    return [(station, rule) for station in range(len(line[0])) for rule in RULES if guard(line, station, rule)]


@cache
def runs(line):
    """Every list of moves from the line on up to the first line with one privilege."""
    if len(privileges(line)) == 1:
        return ((),)
    return tuple((move, *rest) for move in privileges(line) for rest in runs(moved(line, *move)))


def bits(line, between):
    """The line's bits as they are typed or printed."""
    return between.join("".join("1" if bit else "0" for bit in each) for each in line)


def typed(line):
    """The words that make the line."""
    return f"line {len(line[0])} {bits(line, ' ')}"


def shown(line):
    """What is printed of it."""
    return f"{bits(line, '/')} privileges {len(privileges(line))}"


def told(yes):
    """A truth value as it is printed."""
    return "true" if yes else "false"


def stations_of(line):
    """Lines for each station: its bits, its privilege and each rule's guard, also past the top; and what they print."""
    calls, wanted = [], []
    for station in range(len(line[0])):
        rules = [rule for at, rule in privileges(line) if at == station]
        privilege = f"Some({rules[0]})" if rules else "None"
        calls.append(f"station {station}")
        wanted.append(f"({told(line[0][station])}, {told(line[1][station])}, {privilege})")
    for station, rule in product(range(len(line[0]) + 1), RULES):
        calls.append(f"enabled {station} {rule}")
        wanted.append(told(guard(line, station, rule)))
    return calls, wanted


def guards_and_moves_of_up_to_four_stations():
    """What each line tells of itself, and where each of its moves leads. Of two rules Raise is told."""
    calls, wanted = [], []
    for line in (line for stations in LONGEST for line in lines_of(stations)):
        asked, answered = stations_of(line)
        calls += [typed(line), "show", "legitimate", *asked]
        wanted += [shown(line), told(len(privileges(line)) == 1), *answered]
        for station, rule in privileges(line):
            calls += [typed(line), f"move {station} {rule}", "show"]
            wanted.append(shown(moved(line, station, rule)))
    return calls, wanted


def no_schedule_of_up_to_four_stations_takes_longer_than_computed():
    """Every run from every line is audited: it leads to the line that the rules say, which is its first legitimate one."""
    calls, wanted = [], []
    for stations, longest in LONGEST.items():
        found = 0
        for line in lines_of(stations):
            calls.append(typed(line))
            for run in runs(line):
                last = line
                for move in run:
                    last = moved(last, *move)
                calls.append(" ".join(["audit", *(f"{station} {rule}" for station, rule in run)]))
                wanted += [shown(last), f"first legitimate Some({len(run)})"]
                found = max(found, len(run))
        assert found == longest, f"{stations} stations"
    return calls, wanted


TESTS = (guards_and_moves_of_up_to_four_stations, no_schedule_of_up_to_four_stations_takes_longer_than_computed)
