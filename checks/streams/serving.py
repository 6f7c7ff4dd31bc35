"""The words of `derbyfig serve`: what an office does that has all of them, and what it does without each one."""
import os
import shutil
import subprocess

import images
from failing import require, require_same
from office import Counter, Mismatch, Office

WORDS = ("--counter=a", "--counter=b=folder/b", "--stations=64", "--format=5", "--overwrite", "--sectors=70",
         "--terminal", "--control=c", "--archive=books", "--no-hello", "--copies=backups", "--counters-file=names",
         "--counters-anew")

# A sector that is no ledger, and no file of counters.
LETTER = b"a letter" * 64

NAMES = {"names": ["a", "b", "c", "terminal"], "book.counters": None}

# What is seen of an office with all words: what its counters are told of their names, and what lies there then.
ALL = {
    "printed": ["formatted 5", "opened 64 next 0 total 0"],
    "sectors": 70,
    "a": "name a", "b": "name b", "c": "name c", "terminal": "name terminal",
    "archive": "archived 0", "books": True,
    "copy": "copied 0", "copies": True,
    "counters": NAMES,
}

# What is seen otherwise without these words. A ledger of 5 slots needs 59 sectors.
WITHOUT = (
    ((), {}),
    (("--counter=a",), {"a": None, "counters": NAMES | {"names": ["b", "c", "terminal"]}}),
    (("--counter=b=folder/b",), {"b": None, "counters": NAMES | {"names": ["a", "c", "terminal"]}}),
    (("--control=c",), {"c": None, "counters": NAMES | {"names": ["a", "b", "terminal"]}}),
    (("--terminal",), {"terminal": None, "counters": NAMES | {"names": ["a", "b", "c"]}}),
    (("--stations=64",), {"printed": ["formatted 5", "opened 4 next 0 total 0"]}),
    (("--sectors=70",), {"sectors": 59}),
    (("--archive=books",), {"archive": "refused NoArchive", "books": False}),
    (("--copies=backups",), {"copy": "refused NoFolder", "copies": False}),
    (("--counters-file=names",), {"counters": {"names": None, "book.counters": ["a", "b", "c", "terminal"]}}),
    (("--no-hello",), {"a": "wrong no hello", "b": "wrong no hello", "c": "wrong no hello", "archive": "wrong no hello",
                       "copy": "wrong no hello", "books": True, "copies": False}),
)

# Without which words no office is opened, its status, and what it tells.
REFUSED = (
    (("--overwrite",), 1, "book: it holds an unfinished ledger, or another program's file; --overwrite takes it"),
    (("--format=5", "--overwrite"), 1,
     "book: it holds no ledger; derbyfig format makes one of a file without anything"),
    (("--format=5",), 2, "--overwrite needs --format"),
)


def two_words(told):
    """An answer without its numbers, and a wrong line's whole."""
    return told if told.startswith("wrong") else " ".join(told.split()[:2])


class Serving:
    """Offices of one folder, each of which finds it as it was first."""

    def __init__(self, programs):
        self.programs, self.folder = programs, programs.folder / "office"

    def prepare(self):
        """Three counters, whose folders and names differ, a file without a ledger, and two folders without anything."""
        shutil.rmtree(self.folder, ignore_errors=True)
        for name in ("folder", "books", "backups"):
            (self.folder / name).mkdir(parents=True)
        (self.folder / "book").write_bytes(LETTER)
        (self.folder / "names").write_bytes(LETTER)
        return {name: Counter(self.folder / path) for name, path in (("a", "a"), ("b", "folder/b"), ("c", "c"))}

    def office(self, left_out):
        words = [self.programs.derbyfig, "serve", "book", *(word for word in WORDS if word not in left_out)]
        return Office(words, self.folder / "office", cwd=self.folder, stdin=subprocess.PIPE)

    def counters(self, name):
        """The names of the counters in such a file, if it is there and still no letter."""
        path = self.folder / name
        if not path.exists() or path.read_bytes() == LETTER:
            return None
        return [line.split()[1] for line in path.read_text().splitlines() if line.startswith("counter ")]

    def seen(self, left_out):
        """What is seen of an office without these words."""
        counters = self.prepare()
        with self.office(left_out) as office:
            found = {"printed": office.opened(), "sectors": (self.folder / "book").stat().st_size // 512}
            found |= {name: self.answer(counter, "name") for name, counter in counters.items()}
            one = counters["b" if "--counter=a" in left_out else "a"]
            found["archive"], found["copy"] = self.answer(one, "archive"), self.answer(one, "copy")
            found["books"], found["copies"] = (os.listdir(self.folder / name) != [] for name in ("books", "backups"))
            found["counters"] = {name: self.counters(name) for name in ("names", "book.counters")}
            office.run.stdin.write(b"name\n")
            office.run.stdin.close()
            # the end of the terminal's input closes the office
            if "--terminal" in left_out:
                require_same(self.programs.derbyfig_said("close", one.folder), (0, "closed\n", ""), "the closing")
            office.closed()
            found["terminal"] = next((two_words(line) for line in office.printed() if line.startswith("name ")), None)
        for counter in counters.values():
            counter.leave()
        return found

    def answer(self, counter, request):
        """The first two words of a request's answer, and None if no office has the counter."""
        if counter.input is None:
            try:
                counter.come()
            except Mismatch:
                counter.leave()
                return None
        return two_words(counter.ask(request)[0])


def each_word_has_its_effect(programs):
    """An office with all words, and one without each word in turn. Nothing else changes."""
    serving = Serving(programs)
    for left_out, otherwise in WITHOUT:
        require_same(serving.seen(left_out), ALL | otherwise, f"an office without {left_out}")
    for left_out, status, told in REFUSED:
        serving.prepare()
        with serving.office(left_out) as office:
            ended = (office.status(), office.printed(), office.told())
            require_same(ended, (status, [], [told]), f"an office without {left_out}")
        require_same((serving.folder / "book").read_bytes(), LETTER, f"the file without {left_out}")
    return f"{len(WORDS)} words, and {len(WITHOUT) + len(REFUSED) - 1} offices without one or two of them"


def counters_anew(programs):
    """A file of counters that is none is told by its name and kept, or written anew if that is asked for. Beside the
    ledger none is made."""
    serving = Serving(programs)
    book, names = serving.folder / "book", serving.folder / "names"
    words = (programs.derbyfig, "serve", str(book), "--terminal", f"--counters-file={names}")
    told = f"{names}: its line 1 isn't that of a file of counters; --counters-anew writes the file anew"
    for more, status, printed, kept in (
        ((), 1, "", None), (("--counters-anew",), 0, "opened 2 next 0 total 0\n", ["terminal"]),
    ):
        serving.prepare()
        book.write_bytes(images.made(4, images.Holding(0, {}, frozenset())))
        run = programs.plain(b"close\n", *more, program=words)
        require_same((run.status, run.told), (status, "" if kept else told), f"an office with {more}")
        require(run.printed.decode().startswith(printed), f"an office with {more} prints {run.printed!r}")
        found = [serving.counters(name) for name in ("names", "book.counters")]
        require_same(found, [kept, None], f"counters with {more}")
    return "a file that is none stays, or is written anew"
