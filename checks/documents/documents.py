"""A document's links and blocks."""
import re
from pathlib import Path

LINK = re.compile(r"\[([^\]]*)\]\(([^)\s]+)\)|()<img[^>]*\ssrc=\"([^\"]+)\"")
BLOCK = re.compile(r"^(?:<!-- (?P<mark>[^\n]*) -->\n)?```(?P<language>\w+)\n(?P<body>.*?)^```$", re.MULTILINE | re.DOTALL)
PLACE = re.compile(r"`((?:docs|crates|bench|checks|examples)/[\w./*]+)`")


def links(text):
    """The words and the target of each link and picture that leads to a file."""
    for words, target, _, picture in LINK.findall(without_blocks(text)):
        if not (target or picture).startswith(("http:", "https:")):
            yield words, target or picture


def places(text):
    """The paths of the repository that are named, with a * where any name may stand."""
    return PLACE.findall(without_blocks(text))


def blocks(text):
    """What stands in the comment before each block, the block's language, and its text."""
    for found in BLOCK.finditer(text):
        yield found["mark"] or "", found["language"], found["body"]


def without_blocks(text):
    return BLOCK.sub("", text)


def headings(text):
    """The names by which links reach the headings."""
    for heading in re.findall(r"^#+ (.*)$", without_blocks(text), re.MULTILINE):
        yield re.sub(r"[^\w\- ]", "", heading.lower()).replace(" ", "-")


def link_faults(document, words, target):
    """What is wrong with a link: no such file or heading, or no such function, clause or definition in the source."""
    path, _, heading = target.partition("#")
    to = document.parent / path if path else document
    if not to.exists():
        yield f"no file {target}"
    elif heading and heading not in headings(to.read_text(encoding="utf-8")):
        yield f"no heading {target}"
    elif to.suffix == ".rt":
        yield from name_faults(to, re.findall(r"`([^`]+)`", words))
    elif to.suffix == ".antt":
        yield from definition_faults(to, re.findall(r"`([^`]+)`", words))


def name_faults(source, names):
    """Of the names in a link to a source, the first is a function's, and the others are clauses of its contract."""
    if not names or "/" in names[0]:
        return
    function = names[0].split("::")[-1]
    contract = contract_of(source.read_text(encoding="utf-8"), function)
    if contract is None:
        yield f"no function {names[0]} in {source}"
        return
    for clause in names[1:]:
        if not re.search(rf"^ *ensures {clause} \{{", contract, re.MULTILINE):
            yield f"no clause {clause} at {names[0]} in {source}"


def definition_faults(source, names):
    """Of the names in a link to definitions, each is one that is defined there."""
    text = source.read_text(encoding="utf-8")
    for name in names:
        if not re.search(rf"^(?:(?:abbrev|unfoldable) )?pub (?:record )?{name}\b", text, re.MULTILINE):
            yield f"no definition {name} in {source}"


def contract_of(source, function):
    """A function's lines from its name up to its body, or None where there is no such function."""
    found = re.search(rf"^ *(?:pub )?fn {function}\b.*?^ *\{{(?:\}})?$", source, re.MULTILINE | re.DOTALL)
    return found and found[0]


def beside_fault(body, script, answers):
    """What is wrong with a block whose left column is to be a script and whose right one what is printed."""
    rows = body.splitlines()
    column = min(re.match(r"(\S+ )*\S* {2,}", row).end() for row in rows if row[:1] != " ")
    left = [row[:column].strip() for row in rows if row[:column].strip()]
    right = [row[column:] for row in rows if row[column:]]
    lines = [line for line in Path(script).read_text().splitlines() if line[:1] not in ("", "#")]
    if left != lines:
        return f"the left column isn't {script}"
    return None if right == Path(answers).read_text().splitlines() else f"the right column isn't {answers}"
