"""How long a document's sentences and the cells of its tables are."""
import re

from documents import without_blocks

HELD = ["README.md", "docs/README.md", "docs/INSTALL.md", "docs/FILES.md", "docs/TOUR.md", "docs/REPLICATION.md",
        "docs/RELATED.md", "examples/README.md", "bench/README.md", "docs/WRONG_BODIES.md", "docs/PROVED.md",
        "docs/GATE.md", "docs/FORMATS.md", "docs/THEOREM.md", "docs/DESIGN.md", "docs/DECISIONS.md",
        "docs/CONTRACTS.md", "docs/DEFINITIONS.md"]
# Not yet held: each RESULTS.md.
SENTENCE = 40
CELL = 30
# Texts that stay longer, by their file and how they begin.
EXCEPTED = [
    ("README.md", "Where the device loses only as stated"),  # the headline, as docs/THEOREM.md has it
    ("docs/THEOREM.md", "Where the device loses only as stated"),
]

COMMENT = re.compile(r"<!--.*?-->|</?(?:p|img)\b[^>]*>", re.DOTALL)
TARGET = re.compile(r"\]\([^)\s]+\)")
CODE = re.compile(r"`[^`]+`(?:(?:, |: )`[^`]+`)*")
ITEM = re.compile(r"^\s*(?:[-*]|\d+\.|#+|>) ")
END = re.compile(r"(?<=[.!?])[)\]*\"]*\s+(?=[(*\"]*[A-Z0-9`\[])")


def plain(text):
    """A document's text without its blocks, comments and targets of links; code that is quoted is one word."""
    return CODE.sub("`x`", TARGET.sub("]", COMMENT.sub("", without_blocks(text))))


def paragraphs(text):
    """The paragraphs, items of lists and headings, and the cells of tables, each told whether it is a cell."""
    gathered = []
    for line in [*plain(text).splitlines(), ""]:
        if gathered and (not line.strip() or ITEM.match(line) or line.startswith("|")):
            yield False, " ".join(gathered)
            gathered = []
        if line.startswith("|"):
            yield from ((True, cell.strip()) for cell in line.strip("| ").split("|"))
        elif line.strip():
            gathered.append(ITEM.sub("", line, count=1).strip())


def sentence_faults(document, text):
    """What is wrong with the sentences and the cells of a document, if it is one that is held to this."""
    name = document.as_posix()
    if name not in HELD:
        return
    excepted = [begins for file, begins in EXCEPTED if file == name]
    yield from (f"no text that begins with: {begins}" for begins in excepted if begins not in text)
    for is_cell, paragraph in paragraphs(text):
        if paragraph.startswith(tuple(excepted)):
            continue
        if is_cell and len(paragraph.split()) > CELL:
            yield f"a cell of {len(paragraph.split())} words: {paragraph[:60]}"
        for sentence in END.split(paragraph):
            if len(sentence.split()) > SENTENCE:
                yield f"a sentence of {len(sentence.split())} words: {sentence[:60]}"
            if sentence.lstrip("*[(\"").startswith("Of "):
                yield f"a sentence that begins with Of: {sentence[:60]}"
