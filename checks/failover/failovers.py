"""A primary that is cut amid postings, the other machine promoted, and what that one finds compared with what was told."""
import time

import cuts
from pairs import NAMES, Replicated
from rounds import Mismatch, require, wait
from turns import Turns

LAYOUT = Replicated()


def told_until_cut(pair, primary, work, moments, is_apart):
    """Cuts the primary at a random moment of its work. With `is_apart` its wire is cut first. What was told."""
    told, last, part = [], moments.randrange(60, 300), moments.uniform(0, 0.02)

    def note(what):
        told.append(what)
        if is_apart and len(told) == last // 2:
            pair.part(primary)
        if len(told) == last:
            wait(part)
            raise cuts.Moment

    try:
        work.work(pair.machines[primary], LAYOUT, "", note)
    except cuts.Moment:
        work.hear_rest(pair.machines[primary], told.append)
        return told
    raise Mismatch("the work was done before its moment")


def failovers(pair, count, moments, is_apart=False):
    """So many failovers, one after another, on one ledger. How many turns were told, and how many of them are lost."""
    pair.make()
    primary, held, told_in_all, lost = 0, None, 0, 0
    for number in range(1, count + 1):
        work = Turns(count=400, first=held)
        told = told_until_cut(pair, primary, work, moments, is_apart)
        begin, other, cut = work.first or 0, 1 - primary, time.monotonic()
        pair.promote(other)
        held = found(pair.machines[other])
        told_in_all += told[-1] - begin
        lost += max(0, told[-1] - held)
        counts = f"{told[-1] - begin} turns told, {held - begin} there"
        print(f"  failover {number} to {NAMES[other]}: {counts}, open after {time.monotonic() - cut:.1f} s", flush=True)
        if number < count:
            pair.come_back(primary)
        primary = other
    return told_in_all, lost


def found(machine):
    """How many turns a machine finds, in whole ones."""
    held = Turns(count=1 << 20).require_kept(cuts.InMachine(machine, LAYOUT), [0])
    require(held is not None, "the ledger isn't opened")
    return held
