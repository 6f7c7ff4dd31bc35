"""A counter of an office that `derbyfig serve` keeps open, for programs in Python.

    while True:
        try:
            with Counter("north", "north.state") as counter:
                number = counter.post("deposit 1 500", key="invoice 31")
            break
        except (NoOffice, TimeOut, InUse):
            time.sleep(1)

A posting that was begun is never posted twice, whoever is killed amid it: its reference is in the state file, durably,
before it is said. The next `Counter` with that file says it again, and `post` with the same words answers what became of
it. One counter has one state file.
"""
from .counter import Counter
from .faults import BadState, InUse, NoOffice, OtherState, Refused, TimeOut, Unknown, Unsettled
from .state import State

__all__ = ["BadState", "Counter", "InUse", "NoOffice", "OtherState", "Refused", "State", "TimeOut", "Unknown", "Unsettled"]
