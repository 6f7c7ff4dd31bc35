"""Counts the lines of each crate of the product, and looks whether the table in docs/PROVED.md tells them so, and whether
that document and the map in docs/DESIGN.md name what crates.txt does. `--write` writes it there. Then it looks whether each
crate stands on its own storey and lower ones, as the picture in docs/DESIGN.md has them, and is named by it. Status 1 where
something isn't so. Needs Python alone.

A line is one that is neither blank nor a comment nor an import. What runs are the lines of code that are no part of a
contract, without tests; contracts are clauses and the ghost members of types and traits; definitions are in `specs/`, and
proofs are in `proofs/` and in the files of laws about definitions, `specs/*Laws.antt`.
"""
import re
import sys
from pathlib import Path

import clauses

PROVED = clauses.ROOT / "docs/PROVED.md"
DESIGN = clauses.ROOT / "docs/DESIGN.md"
HEAD = ["| Crate | Lines that run | Contracts | Definitions | Proofs |", "|---|---|---|---|---|"]
TABLE = re.compile("(?:^\\|.*\\|\n)+", re.MULTILINE)
OF_A_CONTRACT = re.compile(r"\s*(?:pub(?:\([\w: ]+\))? )?(?:requires|ensures|ghost)\b")
IMPORT = re.compile(r"\s*(?:pub )?(?:ghost )?(?:use|mod)\b")
COMMENT = re.compile(r"\s*(?://|--)")
PORTED = re.compile(r"of the ported crates \([^)]*\)")
PICTURE = re.compile("^## The storeys\n\n((?: {4}.*\n)+)", re.MULTILINE)
KNOWN = set("sector_device fault_injector gate_journal turn_ledger journal_recovery four_state sweep_auditor turn_clerk line_lock "
            "station_desk turn_console derbyfig".split())
ROW_OF_MAP = re.compile(r"^\| `(\w+)` \| ([^|]*) \| [^|]* \|$", re.MULTILINE)


def lines_of(paths):
    """The lines that count, of these files."""
    for path in paths:
        for line in path.read_text(encoding="utf-8").splitlines():
            if line.strip() and not COMMENT.match(line) and not IMPORT.match(line):
                yield line


def run_and_contracts(paths):
    """How many lines of code run, and how many are parts of contracts: each from its first word on until its braces close."""
    run, contracts, depth = 0, 0, 0
    for line in lines_of(paths):
        if depth > 0 or OF_A_CONTRACT.match(line):
            contracts += 1
            depth += line.count("{") - line.count("}")
        else:
            run += 1
    return run, contracts


def sizes(crate):
    """What runs, contracts, definitions and proofs of a crate."""
    code = [path for path in crate.glob("src/**/*.rt") if path.relative_to(crate).parts[1] not in ("tests", "tests.rt")]
    laws = list(crate.glob("specs/**/*Laws.antt"))
    definitions = set(crate.glob("specs/**/*.antt")).difference(laws)
    proofs = laws + list(crate.glob("proofs/**/*.antt"))
    return *run_and_contracts(code), *(sum(1 for _ in lines_of(paths)) for paths in (definitions, proofs))


def table():
    """The rows of the table, the largest crate first, and their sum."""
    crates = [crate for crate in clauses.ROOT.glob("crates/*") if not clauses.OF_TESTS.fullmatch(crate.name)]
    found = sorted(((crate.name, sizes(crate)) for crate in crates), key=lambda one: (-sum(one[1]), one[0]))
    rows = [(f"`{name}`", *counts) for name, counts in found]
    rows.append(("all", *(sum(column) for column in zip(*(counts for _, counts in found)))))
    return HEAD + ["| " + " | ".join([name, *(f"{count:,}" for count in counts)]) + " |" for name, *counts in rows]


def libraries():
    """The names of the libraries that each crate uses, as crates.txt has them."""
    lines = (clauses.ROOT / "crates.txt").read_text(encoding="utf-8").splitlines()
    rows = [line.partition(":") for line in lines if line.strip() and not line.startswith("#")]
    return {name.split()[0]: used.split() for name, _, used in rows}


def stands_on(name, used):
    """Of the project's crates that it uses those on which no other one of them stands."""
    own = [library for library in used[name] if library in used]
    return [library for library in own if not any(library in used[other] for other in own)]


def as_list(names):
    return ", ".join(f"`{name}`" for name in names) or "nothing"


def in_proved(text, used):
    """The document with the table, and with the ported crates that the product uses."""
    text = TABLE.sub(lambda _: "\n".join(table()) + "\n", text, count=1)
    product = [name for name in used if not clauses.OF_TESTS.fullmatch(name)]
    ported = sorted({library for name in product for library in used[name] if library not in used})
    return PORTED.sub(lambda _: f"of the ported crates ({as_list(ported)})", text, count=1)


def in_design(text, used):
    """The document, where each row of the map ends with what the crate stands on."""
    def row(found):
        name, does = found.groups()
        return f"| `{name}` | {does} | {as_list(stands_on(name, used))} |" if name in used else found.group()

    return ROW_OF_MAP.sub(row, text)


def storeys(text):
    """The storey of each crate of the picture, counted from the highest, and the names of the storeys."""
    names, found = [], {}
    for line in PICTURE.search(text).group(1).splitlines():
        words = line.split()
        if not line.startswith(" " * 5):
            names.append(words.pop(0))
        found |= dict.fromkeys(words, len(names) - 1)
    return found, names


def against_the_storeys(text, used):
    """What isn't as the picture has it. Crates of text stand beside the ledger's storey, and no crate on those of tests."""
    found, names = storeys(text)
    tests = {name for name in used if clauses.OF_TESTS.fullmatch(name)}
    beside = {name: names.index("ledger") for name in used if name.startswith("text_")}
    yield from (f"{name} is in the picture or in crates.txt alone" for name in sorted((set(used) - tests - set(beside)) ^ set(found)))
    for name, storey in sorted({**found, **beside}.items()):
        if name not in KNOWN and name not in beside and name.partition("_")[0] != names[storey]:
            yield f"{name} isn't named by its storey, {names[storey]}"
        for library in used.get(name, []):
            if library in tests or {**found, **beside}.get(library, storey) < storey:
                yield f"{name} stands on {library}, which is higher up"


def main():
    used, status = libraries(), 0
    for document, made_in in ((PROVED, in_proved), (DESIGN, in_design)):
        text = document.read_text(encoding="utf-8")
        made = made_in(text, used)
        if "--write" in sys.argv:
            document.write_text(made, encoding="utf-8")
        elif made != text:
            print(f"{document.name} doesn't tell what is there: python3 checks/sizes.py --write")
            status = 1
    for wrong in against_the_storeys(DESIGN.read_text(encoding="utf-8"), used):
        print(wrong)
        status = 1
    print(table()[-1])
    return status


if __name__ == "__main__":
    sys.exit(main())
