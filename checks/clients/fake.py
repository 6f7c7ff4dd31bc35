"""An office that tells a client whatever a case says."""
import os
import select
import threading

# Told in place of an answer: the office says nothing more; or it ends, behind half a line.
SILENCE, END = object(), object()


class FakeOffice:
    """Has both ends of a counter's two pipes, and answers each request by its first word."""

    def __init__(self, folder, answers):
        self.folder, self.answers, self.heard = folder, answers, []
        self.input = os.open(folder / "in", os.O_RDWR)
        self.output = os.open(folder / "out", os.O_RDWR)
        self.ends, self.is_over = os.pipe(), threading.Event()
        self.thread = threading.Thread(target=self.attend)

    def __enter__(self):
        self.thread.start()
        return self

    def __exit__(self, *_):
        os.write(self.ends[1], b".")
        self.thread.join()
        for end in (*self.ends, *((self.input, self.output) if not self.is_over.is_set() else ())):
            os.close(end)

    def attend(self):
        read = b""
        while True:
            ready, *_ = select.select([self.input, self.ends[0]], [], [])
            if self.ends[0] in ready:
                return
            read += os.read(self.input, 65536)
            *lines, read = read.split(b"\n")
            for line in lines:
                if not self.answer(line.decode()):
                    return

    def answer(self, line):
        """Answers one line; false if that ends the office."""
        words = line.split()
        kind = words[0] if words[0] in ("?", "hello", "last", "first", "name") else "post"
        if kind != "?":
            self.heard.append(line)
        told = self.answers.get(kind, {"?": "wrong unknown command", "hello": line, "first": line, "name": "name north 42"}.get(kind))
        if told is SILENCE:
            return True
        if told is END:
            os.write(self.output, b"posted 3")
            for end in (self.input, self.output):
                os.close(end)
            self.is_over.set()
            return False
        os.write(self.output, (told.replace("R", words[-1]) + "\n").encode())
        return True
