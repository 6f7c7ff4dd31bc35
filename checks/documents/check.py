"""Checks README.md and the documents, from the top of the repository. Words: turn_console, and derbyfig."""
import subprocess
import sys
import tempfile
from pathlib import Path

from commands import Copy
from documents import beside_fault, blocks, link_faults, links, places
from sentences import sentence_faults

NOT_RUN = "not run by checks/documents.sh"


def block_faults(mark, body):
    """What is wrong with a block that shows files."""
    kind, _, names = mark.partition(": ")
    if kind == "beside":
        fault = beside_fault(body, *names.split())
        return [fault] if fault else []
    if kind == "file" and body not in Path(names).read_text(encoding="utf-8"):
        return [f"a block doesn't stand in {names}"]
    return []


def text_faults(document, text):
    """What is wrong with a document, but for its commands."""
    for words, target in links(text):
        yield from link_faults(document, words, target)
    for place in places(text):
        if not any(Path(".").glob(place.rstrip("/"))):
            yield f"no file {place}"
    for mark, _, body in blocks(text):
        yield from block_faults(mark, body)
    yield from sentence_faults(document, text)


def command_faults(text, copy):
    """What is wrong with a document's commands, each block told as it is run."""
    for mark, language, body in blocks(text):
        if language == "sh" and not mark.startswith(NOT_RUN):
            fault = copy.fault(body)
            print(f"  {'failed' if fault else 'ran'}: {' && '.join(body.splitlines())}", flush=True)
            if fault:
                yield fault


def picture_faults(program, folder):
    """Which pictures aren't what the program gives."""
    subprocess.run([sys.executable, "docs/pictures/make.py", program, folder], check=True)
    for made in sorted(Path(folder).glob("*.svg")):
        if made.read_bytes() != (Path("docs/pictures") / made.name).read_bytes():
            yield f"docs/pictures/{made.name} isn't what docs/pictures/make.py makes"


def told(name, faults):
    """Tells of one thing that was looked at, and answers how many faults it has."""
    faults = list(faults)
    print("\n".join([f"{name}: {'as it must be' if not faults else f'{len(faults)} faults'}", *faults]), flush=True)
    return len(faults)


def main():
    (program, derbyfig), failed = sys.argv[1:], 0
    documents = [Path("README.md"), *sorted(Path("docs").glob("*.md")), Path("examples/README.md"), Path("bench/README.md"),
                 *sorted(Path("bench").glob("*/RESULTS.md")), *sorted(Path("checks").glob("*/RESULTS.md"))]
    with tempfile.TemporaryDirectory() as folder:
        copy = Copy(folder, program, derbyfig)
        for document in documents:
            text = document.read_text(encoding="utf-8")
            failed += told(document, [*text_faults(document, text), *command_faults(text, copy)])
    with tempfile.TemporaryDirectory() as folder:
        failed += told("pictures", picture_faults(program, folder))
    sys.exit(1 if failed else 0)


main()
