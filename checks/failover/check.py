"""Makes failovers between two machines, by the configuration of docs/REPLICATION.md, and compares what was told with what
the other machine finds. A fence that answers falsely has to lose; of other faults it is told what is lost.

Words: check.py --help tells them.
"""
import argparse
import pathlib
import random
import re
import sys

HERE = pathlib.Path(__file__).parent
for folder in ("power", "kills", "offices", "files"):
    sys.path.append(str(HERE.parent / folder))

import both
import disks
import initramfs
from failovers import LAYOUT, failovers
from machine import Kit, end_if_told
from pairs import Pair
from replays import Programs
from rounds import Mismatch, require

MODULES = (*initramfs.MODULES, "virtio_net", "drbd")

# What DRBD's programs are in the package drbd-utils.
TOOLS = ("sbin/drbdadm", "sbin/drbdmeta", "sbin/drbdsetup", "lib/drbd/drbdadm-84", "lib/drbd/drbdsetup-84")

# The handler that tells DRBD that the peer is off: whoever runs the check has cut its power.
FENCE = "#!/bin/sh\nexit 7\n"

# Emulated machines are slow to answer.
SLOW = "net { timeout 90; ping-timeout 100; "


def configuration():
    """The file that docs/REPLICATION.md shows, for slow machines."""
    text = (HERE.parent.parent / "docs/REPLICATION.md").read_text(encoding="utf-8")
    shown = re.findall(r"```text\n(.*?)```", text, re.DOTALL)
    found = [block for block in shown if "resource ledger {" in block]
    require(len(found) == 1, f"{len(found)} configurations of DRBD are shown")
    return found[0].replace("net { ", SLOW, 1)


def kit_of(words):
    files = {"bin/console": words.console} | {tool: words.tools / tool for tool in TOOLS}
    for place, text in (("etc/drbd.conf", configuration()), ("usr/local/sbin/fence-peer", FENCE)):
        files[place] = words.folder / pathlib.Path(place).name
        files[place].write_text(text, encoding="ascii")
    target = words.folder / "initramfs"
    kit = Kit(next((words.kernel / "boot").glob("vmlinuz-*")), target, words.folder, ())
    modules = next((words.kernel / "lib/modules").iterdir())
    initramfs.make(target, kit.names(), modules, words.busybox, files, MODULES)
    return kit


def fenced(words, kit, moments):
    with Pair(kit, words.folder / "fenced") as pair:
        told, lost = failovers(pair, words.failovers, moments)
    return told_row(f"{words.failovers} failovers, protocol C", told, lost, lost > 0)


def parted(words, kit, moments):
    with Pair(kit, words.folder / "parted") as pair:
        told, lost = failovers(pair, 1, moments, is_apart=True)
    return told_row("the wire is cut, and the fence answers falsely (control)", told, lost, lost == 0)


def early(words, kit, moments):
    with Pair(kit, words.folder / "early", protocol="A") as pair:
        told, lost = failovers(pair, 1, moments)
    return told_row("protocol A (measured)", told, lost, False)


def both_fail(words, kit, _moments):
    faults, image, programs = 0, disks.Image(LAYOUT, words.folder), Programs(words.console, "")
    with Pair(kit, words.folder / "both", is_logged=True) as pair:
        lengths = both.told_of_two(pair, words.turns)
        for name, is_volatile in (("is volatile (measured)", True), ("isn't volatile", False)):
            lost = len(lengths) - both.kept(pair, lengths, programs, image, is_volatile)
            faults += told_row(f"both fail, the peer's cache {name}", len(lengths), lost, lost > 0 and not is_volatile)
    return faults


CASES = (fenced, parted, early, both_fail)


def told_row(name, told, lost, is_fault):
    """Tells of a kind of failure. How many faults it is."""
    print(f"| {name} | {told} | {lost} |", flush=True)
    return int(is_fault)


def main():
    parser = argparse.ArgumentParser(description=__doc__)
    parser.add_argument("console", help="the turn_console that was built")
    parser.add_argument("folder", type=pathlib.Path, help="an empty folder")
    parser.add_argument("kernel", type=pathlib.Path, help="a folder with boot/vmlinuz-* and lib/modules/*")
    parser.add_argument("tools", type=pathlib.Path, help="a folder with the files of the package drbd-utils")
    parser.add_argument("busybox", help="a static busybox")
    parser.add_argument("--failovers", type=int, default=3)
    parser.add_argument("--turns", type=int, default=100, help="how many are told before both fail")
    parser.add_argument("--only", default="", help="the cases whose names have this")
    parser.add_argument("--seed", type=int, default=1)
    words = parser.parse_args()
    end_if_told()
    print("| Failure | Turns told | Lost |\n|---|---|---|", flush=True)
    try:
        kit, moments = kit_of(words), random.Random(words.seed)
        faults = sum(case(words, kit, moments) for case in CASES if words.only in case.__name__)
    except (Mismatch, OSError) as told:
        sys.exit(str(told))
    if faults:
        sys.exit(f"{faults} rows aren't as they have to be, with the seed {words.seed}")
    print("each row is as it has to be")


if __name__ == "__main__":
    main()
