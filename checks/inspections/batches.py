"""Writes a script of so many batches, some of several entries, for two stations that take turns. Words: the number of slots
of a bank, the number of batches, and a number from which the entries follow."""
import sys

slots, batches, state = map(int, sys.argv[1:])


def below(most):
    """The next number of a row that looks like chance."""
    global state
    state = (state * 6364136223846793005 + 1442695040888963407) % 2**64
    return (state >> 33) % most


print(f"format {slots}\nopen 2 00 10")
for batch in range(batches):
    station = batch % 2
    # to an account that is never sealed, so that no batch is empty
    print(f"post {station} deposit {41 + below(9)} {1 + below(10**9)}")
    print(f"post {station} deposit {1 + below(40)} {1 + below(10**9)}")
    for _ in range(below(10)):
        source, target = 1 + below(40), 1 + below(40)
        print(f"post {station} transfer {source} {target} {1 + below(10**9)}")
    if below(4) == 0:
        print(f"post {station} withdraw {1 + below(40)} {1 + below(10**8)}")
    if below(400) == 0:
        print(f"post {station} seal {1 + below(40)}")
    print(f"turn {station}")
