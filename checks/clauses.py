"""Looks how wide lines are, and how often a clause is said. No line of code, of a definition or of a proof is over 100
columns, but a string, a tactic, and a line that is one long name. `rt fmt` joins clauses and ghost members of up to 117
columns: 30 of these may be. Each other one is printed. A text of more than 60 characters that is no definition's stands at
most three times in a crate: what stands more often is given a name. Of clauses it reads the crates that are no crates of
tests. Status 1 where more are joined, or anything is printed behind the first line. It needs Python alone."""
import re
import sys
from collections import Counter
from pathlib import Path

ROOT = Path(__file__).resolve().parent.parent
PAGE = 100
MOST_JOINED = 30
JOINED_NEVER_OVER = 117
PATTERNS = ("*/src/**/*.rt", "*/specs/**/*.antt", "*/proofs/**/*.antt")
LONG_TEXT = 60
MOST_TIMES = 3

OF_TESTS = re.compile(r"test_\w+")
CLAUSE = re.compile(r"\s*(requires|ensures)\*? (\w+)?")
JOINED = re.compile(r"\s*(?:requires|ensures|ghost|→) ")
SINGLE = re.compile(r"(?:ghost )?use [^,]*;?$|#!?\[tactic\(|pub [\w-]+ : goal\.[\w-]+$")
QUOTED = re.compile(r"'\\?\"'|\\.")
DEFINITION = re.compile(r"(?!(?:If|On)(?:Ok|Err|Some|None)\b|Is(?:True|Err|ErrAnd)\b|MatchOption\b)[A-Z]\w* ")


def sources():
    """The files of code of the crates that are no crates of tests."""
    for path in sorted((ROOT / "crates").glob("*/src/**/*.rt")):
        if not OF_TESTS.fullmatch(path.relative_to(ROOT / "crates").parts[0]):
            yield path


def lines_of(lines, first):
    """The lines of the clause that begins on that line: it ends where its braces do."""
    depth = 0
    for line in lines[first:]:
        yield line
        depth += line.count("{") - line.count("}")
        if depth <= 0:
            break


def clauses(lines):
    """The text of each clause."""
    for number, line in enumerate(lines):
        if CLAUSE.match(line):
            yield " ".join(" ".join(lines_of(lines, number)).partition("{")[2].rpartition("}")[0].split())


def wide_lines(path):
    """Of each line that is over the page, but strings and single names: its number, its width, and whether `rt fmt` joins it."""
    in_string = False
    for number, line in enumerate(path.read_text(encoding="utf-8").splitlines(), 1):
        is_code = path.suffix == ".rt" and (in_string or not line.lstrip().startswith("//"))
        quotes = QUOTED.sub("", line).count('"') if is_code else 0
        if len(line) > PAGE and not in_string and not quotes and not SINGLE.match(line.strip()):
            yield number, len(line), path.suffix == ".rt" and bool(JOINED.match(line)) and len(line) <= JOINED_NEVER_OVER
        in_string ^= quotes % 2 == 1
    assert not in_string, f"{path} ends in a string"


def too_wide():
    """Each line that is too wide, and how many are joined."""
    told, joined = [], 0
    for path in sorted(path for pattern in PATTERNS for path in (ROOT / "crates").glob(pattern)):
        for number, columns, is_joined in wide_lines(path):
            joined += is_joined
            if not is_joined:
                told.append(f"{path.relative_to(ROOT)}:{number}: {columns} columns")
    return told, joined


def repeated(texts):
    """The long texts, of these of each crate, that stand too often and are no definition's."""
    for (crate, text), times in sorted(texts.items()):
        if times > MOST_TIMES and len(text) > LONG_TEXT and not DEFINITION.match(text):
            yield f"crates/{crate}: {times} clauses say: {text}"


def main():
    texts = Counter((path.relative_to(ROOT).parts[1], text) for path in sources()
                    for text in clauses(path.read_text(encoding="utf-8").splitlines()))
    told, joined = too_wide()
    print(f"{joined} lines over {PAGE} columns are joined by the formatter, of which {MOST_JOINED} may be; {len(told)} others are; "
          f"{sum(texts.values())} clauses")
    told += repeated(texts)
    if told:
        print("\n".join(told))
    return int(joined > MOST_JOINED or bool(told))


if __name__ == "__main__":
    sys.exit(main())
