"""Writes a script for the console on standard output: so many turns with one deposit each, or so many comment lines."""
import sys


def turns(count):
    """A line of three stations sweeps 0, 1, 2, 1; each deposits 1 to an account of its own and takes its turn."""
    yield f"format {count}"
    yield "open 3 000 100"
    for number in range(count):
        station = (0, 1, 2, 1)[number % 4]
        yield f"post {station} deposit {station + 1} 1"
        yield f"turn {station}"
    yield "balances"


def comments(count):
    for number in range(count):
        yield f"# {number}"


def main():
    kind, count = sys.argv[1], int(sys.argv[2])
    lines = {"turns": turns, "comments": comments}[kind](count)
    sys.stdout.writelines(line + "\n" for line in lines)


main()
