"""Checks what an opening asks of the system, in traces that strace wrote with -f -y.

Words: the ledger's path, its length, and traces of openings: of a new file, of the same file again, of a new file of which
the second piece of zeros can't be written, and then, with standard streams closed, of new files and of the same again.
"""
import os
import re
import sys

LINE = re.compile(r"\d+ +(?P<name>\w+)\((?P<words>.*)\) += (?P<result>-?\d+)(?:<[^>]*>)?(?: (?P<error>E\w+))?")
FILE = re.compile(r"^(?P<number>\d+)<(?P<path>[^>]*)>(?:, )?")
OPENED = re.compile(r'^AT_FDCWD(?:<[^>]*>)?, "(?P<path>[^"]*)", (?P<how>[A-Z_|]*)')
REMOVED = re.compile(r'^(?:AT_FDCWD(?:<[^>]*>)?, )?"(?P<path>[^"]*)"')
PIECE = 256 * 512
LOCK = "flock(ledger, LOCK_EX|LOCK_NB)"
LOOK = "pread64(ledger, zeros, 512, 0)"
SYNCS = ["fsync(ledger)", "fsync(folder)"]


def calls_of(trace, names):
    """The calls on these files, each with the number of its file, and as a text."""
    for line in trace:
        found = LINE.match(line)
        if not found:
            continue
        name, words = found["name"], found["words"]
        result = f" = {found['error']}" if found["error"] else ""
        file, opened, removed = FILE.match(words), OPENED.match(words), REMOVED.match(words)
        if name.startswith("unlink") and removed and removed["path"] in names:
            yield -1, f"unlink({names[removed['path']]}){result}"
        elif opened and opened["path"] in names:
            how = re.sub(r"\|O_(NOCTTY|CLOEXEC)", "", opened["how"])
            yield int(found["result"]), f"{name}({names[opened['path']]}, {how}){result}"
        elif file and file["path"] in names:
            behind = re.sub(r'"(?:\\0)*"(?:\.\.\.)?', "zeros", words[file.end():])
            said = ", ".join(word for word in (names[file["path"]], behind) if word)
            yield int(file["number"]), f"{name}({said}){result}"


def opening_of(path, ledger):
    """The calls of an opening with the numbers of their files."""
    names = {ledger: "ledger", os.path.dirname(ledger): "folder"}
    with open(path, encoding="utf-8") as trace:
        calls = list(calls_of(trace, names))
    return [(number, text) for number, text in calls if not text.startswith("close")]


def require_calls(told, found, wanted):
    if found != wanted:
        sys.exit(f"{told}:\n  " + "\n  ".join(found) + "\nand not\n  " + "\n  ".join(wanted))
    print(f"{told}:")
    for text in found:
        print(f"  {text}")


def require_moved(told, numbered, wanted):
    """From the lock on the calls are these, and none has a file with the number of a standard stream but its folder's."""
    lock = [text for _, text in numbered].index(LOCK)
    if [text for _, text in numbered[lock:]] != wanted:
        sys.exit(f"{told}: the opening has other calls")
    if any(number <= 2 for number, text in numbered[lock:] if "(ledger" in text):
        sys.exit(f"{told}: the file has the number of a standard stream")
    opened = max(number for number, text in numbered[:lock] if text.startswith("openat(ledger, "))
    if told.startswith("again") and opened > 2:
        sys.exit(f"{told}: no number of a standard stream was free")
    print(f"{told}: opened as number {opened}, and locked, grown and synced as number {numbered[lock][0]}")


def pieces(length):
    """The calls by which a new file gets this length."""
    for at in range(0, length, PIECE):
        end = min(at + PIECE, length)
        yield f"ftruncate(ledger, {end})"
        yield f"pwrite64(ledger, zeros, {end - at}, {at})"


def main():
    ledger, length = sys.argv[1], int(sys.argv[2])
    new, again, full, *closed = sys.argv[3:]
    found = ["openat(ledger, O_RDWR)", "openat(folder, O_RDONLY)"]
    made = ["openat(ledger, O_RDWR) = ENOENT", "openat(folder, O_RDONLY)", "openat(ledger, O_RDWR|O_CREAT)"]
    grown = list(pieces(length))
    said = [text for _, text in opening_of(new, ledger)]
    require_calls("the opening of a new file", said, [*made, LOCK, *grown, *SYNCS])
    said = [text for _, text in opening_of(again, ledger)]
    require_calls("the opening of the same file again", said, [*found, LOCK, LOOK, *SYNCS])
    said = [text for _, text in opening_of(full, ledger)]
    failed = [*grown[:3], f"{grown[3]} = ENOSPC", "ftruncate(ledger, 0)", "unlink(ledger)"]
    require_calls("the opening of a new file on a full disk", said, [*made, LOCK, *failed])
    for trace in closed:
        wanted = [LOCK, LOOK, *SYNCS] if os.path.basename(trace).startswith("again") else [LOCK, *grown, *SYNCS]
        require_moved(os.path.basename(trace), opening_of(trace, ledger), wanted)


main()
