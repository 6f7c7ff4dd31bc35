"""What has to hold."""


class Mismatch(Exception):
    """Something isn't as it has to be."""


def require(holds, told):
    if not holds:
        raise Mismatch(told)


def require_same(found, wanted, of):
    require(found == wanted, f"{of}: {found!r} and not {wanted!r}")
