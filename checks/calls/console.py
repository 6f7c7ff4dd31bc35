"""One process of test_console behind a pipe."""
import contextlib
import os
import select
import subprocess

# How many seconds an answer may take.
PATIENCE = 120

# How many bytes of lines are written before their answers are read. A pipe holds that many, so neither side waits for
# the other one.
MOST = 48_000


class Mismatch(Exception):
    """Something isn't as it has to be."""


def require(holds, told):
    if not holds:
        raise Mismatch(told)


def require_same(found, wanted, of):
    if found != wanted:
        raise Mismatch(f"{of}: {found!r} and not {wanted!r}")


@contextlib.contextmanager
def within(of):
    """Tells of what a mismatch in here is."""
    try:
        yield
    except Mismatch as told:
        raise Mismatch(f"{of}: {told}") from None


def is_told(answer, wanted):
    """Whether an answer is the one that is wanted. A refusal is wanted by its name, and its text stands behind it."""
    return answer.startswith(wanted + ":") if wanted.startswith("refused ") else answer == wanted


class Console:
    """Asks for calls, and hears what they answer."""

    def __init__(self, program):
        self.process = subprocess.Popen([program], stdin=subprocess.PIPE, stdout=subprocess.PIPE, bufsize=0)
        self.said = []

    def say(self, lines):
        """Says these lines, which answer nothing, before those that are asked next."""
        self.said += lines

    def ask(self, lines):
        """The answers to these lines, a list of texts."""
        said, self.said = self.said, []
        return self.ask_each([[*said, *lines]])[0]

    def ask_each(self, groups):
        """The answers to each of these groups of lines."""
        answers, text, count = [], "", 0
        for lines in groups:
            more = "\n".join(lines) + "\nmark answered\n"
            if count and len(text) + len(more) > MOST:
                answers += self.hear(text, count)
                text, count = "", 0
            text, count = text + more, count + 1
        return answers + self.hear(text, count) if count else answers

    def hear(self, text, count):
        """Says this text, and hears what is answered up to each of so many marks."""
        self.process.stdin.write(text.encode())
        heard, ends = b"", b"mark answered\n"
        while heard.count(ends) < count:
            heard += self.more()
        require(heard.endswith(ends), f"told behind the last mark: {heard[-200:]!r}")
        return [part.decode().splitlines() for part in heard.split(ends)[:-1]]

    def more(self):
        ready, _, _ = select.select([self.process.stdout], [], [], PATIENCE)
        require(ready, f"no answer within {PATIENCE} seconds")
        heard = os.read(self.process.stdout.fileno(), 1 << 20)
        require(heard, "the console has ended")
        return heard

    def close(self):
        """Ends the process, which has to end well."""
        self.process.stdin.close()
        require_same(self.process.wait(PATIENCE), 0, "the status of the console")

    def end(self):
        """Ends the process, whatever it does."""
        self.process.kill()
        self.process.wait()
