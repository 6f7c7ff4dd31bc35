"""Writes a script of turns on standard output: each fourth has refused entries alone, the others an accepted one.

The first turn is one that the line refuses, so that what the opening prints is written before any turn is taken.
"""
import sys

SWEEP = (0, 1, 2, 1)


def lines(turns):
    yield "open 3 000 100"
    yield "turn 1"
    for number in range(turns):
        station = SWEEP[number % 4]
        if number % 4 != 3:
            yield f"post {station} deposit {number % 1024 + 1} {number + 1}"
        yield f"post {station} withdraw 1024 1000000"
        yield f"turn {station}"


def main():
    sys.stdout.writelines(line + "\n" for line in lines(int(sys.argv[1])))


main()
