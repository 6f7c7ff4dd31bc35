"""The calls of a trace that strace wrote with -f -y -xx."""
import dataclasses
import re

LINE = re.compile(r"\d+ +(?P<name>\w+)\((?P<words>.*)\) += (?P<result>-?\d+)")
FILE = re.compile(r"(?P<number>\d+)<(?P<path>[^>]*)>")
DATA = re.compile(r'"(?P<data>[^"]*)"')


@dataclasses.dataclass
class Call:
    """A call on a file: which, its number and path, the bytes and the place of a write or a read, and what it gave."""

    name: str
    number: int
    path: str
    data: bytes
    numbers: list
    result: int

    def text(self):
        """The call on one line, of sectors the first bytes alone."""
        words = [str(self.number)]
        if self.data:
            data = self.data[:4] if self.name in ("pwrite64", "pread64") else self.data
            words.append('"' + data.decode("latin-1").encode("unicode_escape").decode() + '"')
        return f"{self.name}({', '.join(words + [str(number) for number in self.numbers])}) = {self.result}"


def unhexed(text):
    return bytes.fromhex(text.replace("\\x", "")) if "\\x" in text else text.encode()


def read_call(line):
    """The call of a line, or None where the line tells of something else, such as the end of the program."""
    found = LINE.match(line)
    if not found:
        if "exited with 0" in line:
            return None
        raise ValueError(f"no call: {line[:80]}")
    words = found["words"]
    file, data = FILE.search(words), DATA.search(words)
    if not file:
        raise ValueError(f"a call on no file: {line[:80]}")
    behind = words[(data or file).end():]
    return Call(
        found["name"], int(file["number"]), unhexed(file["path"]).decode(),
        unhexed(data["data"]) if data else b"",
        [int(number) for number in re.findall(r"\d+", behind)], int(found["result"]),
    )


def read_trace(path):
    with open(path, encoding="ascii") as trace:
        calls = [read_call(line) for line in trace]
    return [call for call in calls if call]
