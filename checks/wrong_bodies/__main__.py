"""Tries the wrong bodies of `crates/*/must-fail`: the prover must refuse each, at a goal of the function that it changes.

    python3 checks/wrong_bodies                   those whose sources have changed since they were refused
    python3 checks/wrong_bodies CRATE ..          the same of these crates
    python3 checks/wrong_bodies CRATE/NAME ..     the same of these alone: a minute, once the libraries below are built
    --anew          try the others too
    --tenth [SEED]  try a tenth of the others too. Which ones the seed tells, without one the hash of HEAD's tree
    --write         keep what refused them, in `refused/CRATE`, and write docs/WRONG_BODIES.md of it
    --built TREE    take the libraries that were built in this tree, and build none
    --beside LOG    they are being built there by `rt ci`, which writes this: each crate is tried once those below it are proved
    --itself        try the edits beside this program, of which `cases/expected` says what must become

An edit is refused where the prover doesn't prove the function that it changes, at a goal that the line names. Where that
isn't so, all of the crate is proved with it. An edit that can't be made, that doesn't compile, or that takes away what a
proof names fails as one that is proved does.

A line of `refused/CRATE` has an edit's name, a sum of all that its trial read, and what refused it. The sum is of the edit, of
the function that has to refuse it, of the contracts and definitions beside and below it, and of the toolchain's logic. As long
as it is the same, the edit needn't be tried again. A trial that sees something else than its line says is a failure.

Needed beside the toolchain: Python, and `sh`.
"""
import argparse
import math
import os
import re
import subprocess
import sys
import time
from pathlib import Path

import page
import refused
from edits import BadEdit, edits_below, read_edit
from lanes import lanes, try_all
from progress import Progress
from sums import Sums, sum_of
import sums_cases
from toolchain import build_libraries, libraries_of
from trials import Aimed, Outcome, aimed_at, batches

CASES = Path(__file__).parent / "cases"
PLACE_IN_A_FILE = re.compile(r":\d+:\d+: ")


def words_given():
    parser = argparse.ArgumentParser(prog="python3 checks/wrong_bodies", usage=__doc__)
    parser.add_argument("names", nargs="*")
    parser.add_argument("--anew", action="store_true")
    parser.add_argument("--tenth", nargs="?", const="", metavar="SEED")
    parser.add_argument("--write", action="store_true")
    parser.add_argument("--built", type=Path)
    parser.add_argument("--beside", type=Path)
    parser.add_argument("--itself", action="store_true")
    words = parser.parse_args()
    if words.write and words.built and not words.beside:
        parser.error("--write: libraries that were built earlier may be older than their sources, so nothing is kept of them")
    return words


def built_tree(folder):
    """The tree in which the libraries were built, None without one."""
    if folder is not None and not (folder / "crates.txt").is_file():
        sys.exit(f"--built {folder}: no tree of crates is there, since it has no file crates.txt")
    return folder and folder.resolve()


def wanted(edits, names):
    """The edits of these names, all without any."""
    chosen = [edit for edit in edits if not names or edit.crate in names or str(edit) in names]
    unknown = [name for name in names if name not in {edit.crate for edit in edits} | {str(edit) for edit in edits}]
    if unknown:
        sys.exit(f"no crate and no wrong body has this name: {', '.join(unknown)}")
    return chosen


def tell(outcome):
    """A line for what became of an edit."""
    one = outcome.aimed.edit
    if outcome.is_refused:
        by = ", by the whole crate" if outcome.by_whole_crate else ""
        print(f"{one}: refused in {outcome.aimed.shown} at {outcome.told} ({outcome.seconds:.0f} s{by})", flush=True)
    else:
        alone = f"python3 checks/wrong_bodies --anew {one}"
        print(f"{one}: {outcome.told} ({outcome.seconds:.0f} s). Alone: {alone}", flush=True)


def aims_of(edits, tree, note):
    """What the edits change. One that can't be made is noted as such."""
    aimed = []
    for edit in edits:
        try:
            aimed.append(aimed_at(edit, tree))
        except BadEdit as bad:
            note(Outcome(Aimed(edit, (), ()), False, f"BAD EDIT: {bad}", 0.0))
    return aimed


def try_aimed(aimed, built, progress, count, note):
    """Tries edits, so many at once: in a tree whose libraries are built as far as the progress tells, or in this one, where
    they are built first."""
    tree = built or Path.cwd()
    if built is None:
        build_libraries(tree, dict.fromkeys(one.edit.crate for one in aimed))
    try_all(batches(aimed, tree), tree, progress, count, note)


def try_itself(tree, progress):
    """Whether what becomes of each case is what is expected of it, wherever in a file that is."""
    cases = [read_edit(path, path.parent.name) for path in sorted(CASES.glob("*/*.edit"))]
    expected = dict(line.split(": ", 1) for line in (CASES / "expected").read_text().splitlines())
    told = {}

    def note(outcome):
        told[str(outcome.aimed.edit)] = outcome
        tell(outcome)

    try_aimed(aims_of(cases, tree or Path.cwd(), note), tree, progress, 1, note)
    wrong = []
    for name, beginning in expected.items():
        outcome = told.pop(name)
        said = f"refused in {outcome.aimed.shown} at {outcome.told}" if outcome.is_refused else outcome.told
        said = PLACE_IN_A_FILE.sub(": ", said)
        if not said.startswith(beginning):
            wrong.append(f"{name}: {said}\nand not\n  {beginning}")
    wrong += [f"{name}: nothing is expected of it" for name in told]
    wrong += sums_cases.faults(tree or Path.cwd())
    cases = len(expected) + len(sums_cases.CASES)
    print("\n".join(wrong) if wrong else f"{cases} cases: as expected")
    return not wrong


def seed_of(sums):
    """The hash of HEAD's tree, and without one a sum of all crates."""
    told = subprocess.run(["git", "rev-parse", "HEAD^{tree}"], capture_output=True, text=True)
    return told.stdout.strip() if told.returncode == 0 else sum_of(*(sums.whole(crate) for crate in libraries_of(sums.tree)))


def tenth_of(known, seed):
    """A tenth of these edits. It is taken crate by crate, since a crate's first trial costs as much as its next ten."""
    in_order = sorted(known, key=lambda one: (sum_of(seed, one.edit.crate), sum_of(seed, str(one.edit))))
    return in_order[: math.ceil(len(known) / 10)]


def contradictions(outcomes, known, lines):
    """What trials saw that contradicts their lines: an edit isn't refused, or at none of the goals that its line names."""
    for outcome in outcomes:
        one = outcome.aimed
        if one in known and (not outcome.is_refused or set(lines[one.key].goals).isdisjoint(outcome.told.split(", "))):
            yield f"{one.edit}: its line in checks/wrong_bodies/refused says: {lines[one.key].told}"


def lines_after(outcomes, edits, lines, sums):
    """The lines of these edits behind some trials. One whose sources were changed meanwhile has none."""
    there, now = {(edit.crate, edit.name) for edit in edits}, Sums(sums.tree)
    found = {key: line for key, line in lines.items() if key in there}
    for outcome in outcomes:
        found.pop(outcome.aimed.key, None)
        if outcome.is_refused and sums.of_whole_crate(outcome.aimed) == now.of_whole_crate(outcome.aimed):
            found[outcome.aimed.key] = refused.line_for(outcome, sums)
    return found


def try_wanted(words, tree, progress):
    """Tries the edits that are asked for and need it. Whether all is well."""
    start, sums, lines, edits = time.monotonic(), Sums(tree or Path.cwd()), refused.read(), edits_below("crates")
    outcomes, again = [], []

    def note(outcome):
        outcomes.append(outcome)
        tell(outcome)

    aimed = aims_of(wanted(edits, words.names), sums.tree, note)
    known = [] if words.anew else [one for one in aimed if refused.is_known(lines.get(one.key), one, sums)]
    if words.tenth is not None:
        seed = words.tenth or seed_of(sums)
        again = tenth_of(known, seed)
        print(f"{len(again)} are tried although their lines tell of them, by --tenth {seed}", flush=True)
    recalled = [one for one in known if one not in again]
    tried = [one for one in aimed if one not in recalled]
    for one in tried:
        sums.read(one)
    try_aimed(tried, tree, progress, lanes(), note)
    wrong = list(contradictions(outcomes, known, lines))
    if words.write:
        lines, wrong = lines_after(outcomes, edits, lines, sums), []
        refused.write(lines)
        page.write(aims_of(edits, sums.tree, lambda _: None), lines)
    if not words.names and (fault := page.fault(aimed, lines)):
        wrong.append(fault)
    return told_all(outcomes, len(recalled), wrong, (time.monotonic() - start) / 60)


def told_all(outcomes, recalled, wrong, minutes):
    """Tells what became of all edits, and what else is wrong. Whether all is well."""
    if whole := sorted(str(outcome.aimed.edit) for outcome in outcomes if outcome.by_whole_crate):
        print(f"tried on the whole crate: {', '.join(whole)}")
    for fault in wrong:
        print(fault)
    failed = sum(not outcome.is_refused for outcome in outcomes)
    print(f"{recalled + len(outcomes) - failed} wrong bodies refused, {failed} not, in {minutes:.0f} minutes; "
          f"{recalled} of them by their lines (--anew tries them too)")
    return not failed and not wrong


def main():
    words = words_given()
    tree = built_tree(words.built)
    progress = Progress(words.beside and words.beside.resolve())
    os.chdir(Path(__file__).resolve().parent.parent.parent)
    is_well = try_itself(tree, progress) if words.itself else try_wanted(words, tree, progress)
    sys.exit(0 if is_well else 1)


try:
    main()
except BadEdit as bad:
    sys.exit(f"BAD EDIT: {bad}")
