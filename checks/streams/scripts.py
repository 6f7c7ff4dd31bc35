"""A script with a day in it, what each of its lines prints, and what is left of a line that is cut off."""

# Worked by hand. The withdrawal of station 0 is refused, since account 2 holds nothing before the turn of station 1.
DAY = """turn 0 station 0 Bottom posted 0
entry 0 ok
entry 1 Short
turn 1 station 1 Raise posted 1
entry 0 ok
turn 2 station 2 Top posted 2
entry 0 ok
turn 3 station 1 Lower empty
turn 4 station 0 Bottom empty
turn 5 station 1 Raise empty
turn 6 station 2 Top empty
turn 7 station 1 Lower empty
day 8 legitimate at 0
station 0 Reached
station 1 Reached
station 2 Reached
answer 0 0 posted 0
answer 0 1 Short
answer 1 0 posted 1
answer 2 0 posted 2
"""

BALANCES = "account 1 70\naccount 2 80\ntotal 150\n"

LINES = (
    ("format 4", "formatted 4\n"),
    ("open 3 000 100", "opened 3 next 0 total 0\n"),
    ("post 0 deposit 1 100", "held 0 1\n"),
    ("post 1 deposit 2 50", "held 1 1\n"),
    ("post 2 transfer 1 2 30", "held 2 1\n"),
    ("post 0 withdraw 2 500", "held 0 2\n"),
    ("day 8", DAY),
    ("balances", BALANCES),
)

SCRIPT = "".join(f"{line}\n" for line, _ in LINES)
PRINTED = "".join(prints for _, prints in LINES)


def of_cut_line(number, left):
    """What is left of a line prints, and what is told of it. The line has this number, counted from 0. If it lacks no
    word it is run with what is left of its last one: a number is a smaller one then, and bits are too few."""
    line, prints = LINES[number] if number < len(LINES) else ("", "")
    words, found = line.split(), left.split()
    if not found:
        return "", ""
    wrong = f"line {number + 1}: "
    if found[0] != words[0] or words[0] == "post" and len(found) >= 3 and found[2] != words[2]:
        return "", f"{wrong}unknown command"
    if len(found) < len(words):
        return "", f"{wrong}wrong number of words"
    if words[0] == "open" and left != line:
        return "refused Length\n", ""
    return prints, ""
