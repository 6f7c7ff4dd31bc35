"""What a call at a counter may raise."""


class NoOffice(Exception):
    """No office has the counter, or it ends. A posting that was begun is said again by the next `Counter`."""


class InUse(Exception):
    """Another client is at the counter."""


class TimeOut(Exception):
    """The office didn't answer in time. A posting that was begun is said again by the next `Counter`; this one is of no
    more use."""


class Refused(Exception):
    """What was asked is refused, for this reason: nothing was posted."""


class Unknown(Exception):
    """Whether the last posting stands can't be seen any more: the office looks back to this batch alone. `derbyfig
    journal BOOKS OFFICE.LEDGER --reference R` tells, if there is an archive; then call `forget`."""


class Unsettled(Exception):
    """What became of the last posting isn't known, so no other is begun: open the counter anew."""


class OtherState(Exception):
    """Another state file was used at the counter, which would tell one client's posting as the other's; or a key is
    that of another posting. `Counter(.., takes_over=True)` goes on with this state."""


class BadState(Exception):
    """The state file can't be read or written, or holds no state. Nothing was said at the counter."""
