"""A ledger with a plain list of what was posted to it, and the folders of its archives."""
import csv
import dataclasses
import io
import os
import re
import subprocess
import time

# How many seconds a run may take.
PATIENCE = 60

# The calls that a run is watched for, and a line that tells one, with the name of the file.
WATCHED = ("pwrite64", "fsync", "fdatasync", "rename", "unlink")
CALL = re.compile(r"\d+ +(\w+)\((?:\d+<[^>]*/(\w+)>|\"[^\"]*/(\w+)\").*= 0$|\d+ +(pwrite64)\(\d+<[^>]*/(\w+)>.*")


class Mismatch(Exception):
    """Something isn't as it has to be."""


def require_same(found, wanted, of):
    if found != wanted:
        raise Mismatch(f"{of}: {found!r} and not {wanted!r}")


@dataclasses.dataclass(frozen=True)
class Said:
    """How a run ended."""

    status: int
    printed: str
    told: str


def kept(folder):
    """What a folder has: the bytes of each file, and when it was written."""
    return {path.name: (path.read_bytes(), path.stat().st_mtime_ns) for path in folder.iterdir()}


class Ledger:
    """A ledger of two stations, with the rows that the journal must have of all that was posted, in order. No two
    deposits are of one amount."""

    def __init__(self, shelf, path, slots):
        self.shelf, self.path = shelf, path
        self.rows, self.next, self.first, self.posted = [], 0, 0, 0
        self.script(f"format {slots}\n")

    def script(self, script):
        said = self.shelf.run("run", str(self.path), *self.shelf.grown(self.path), said=script)
        if said.status != 0:
            raise Mismatch(f"the script {script!r}: {said}")
        return said.printed

    def post(self, batches, choice=None):
        """Posts so many batches, of one to fifteen entries each."""
        wanted = []
        for number in range(batches):
            count = choice.randint(1, 15) if choice else 1 + number % 3
            wanted.append([self.entry(choice, place) for place in range(count)])
        self.post_entries(wanted)

    def entry(self, choice, place):
        self.posted += 1
        account = 34 * choice.randint(1, 30) if choice else 1 + place
        return f"deposit {account} {self.posted}"

    def post_entries(self, batches):
        """Posts these batches, by stations in turn."""
        lines = ["open 2 00 10"]
        for number, batch in enumerate(batches):
            station = number % 2
            lines += [f"post {station} {entry}" for entry in batch] + [f"turn {station}"]
            for entry in batch:
                kind, account, *amount = entry.split()
                places = ["", account] if kind == "deposit" else [account, ""]
                self.rows.append([str(self.next), str(station), kind, *places, "".join(amount)])
            self.next += 1
        self.script("\n".join(lines) + "\n")

    def held_before(self, sequence):
        """What the accounts held before that batch, as the journal tells a snapshot."""
        before = [row for row in self.rows if int(row[0]) < sequence]
        amounts = {}
        for _, _, kind, _, to, amount in before:
            if kind == "deposit":
                amounts[int(to)] = amounts.get(int(to), 0) + int(amount)
        sealed = sorted(int(row[3]) for row in before if row[2] == "seal")
        held = [["snapshot", "", str(account), str(amount)] for account, amount in sorted(amounts.items())]
        marks = [["sealed", str(account), "", ""] for account in sealed]
        return [[str(sequence), "", *row] for row in held + marks]

    def copy(self, new, slots):
        said = self.shelf.run("copy", str(self.path), str(new), "--slots", str(slots))
        require_same(said, Said(0, f"copied {slots}\n", ""), "a copy")
        self.path = new


class Shelf:
    """A folder in which ledgers and archives are made."""

    def __init__(self, derbyfig, path):
        self.derbyfig, self.path = derbyfig, path

    def run(self, *words, said=""):
        done = subprocess.run([self.derbyfig, *words], input=said, capture_output=True, text=True, timeout=PATIENCE)
        return Said(done.returncode, done.stdout, done.stderr.removesuffix("\n"))

    def grown(self, path):
        """The words that make a ledger's file."""
        return () if path.exists() else ("--sectors", "51")

    def ledger(self, name, slots):
        return Ledger(self, self.path / name, slots)

    def folder(self, name):
        folder = self.path / name
        folder.mkdir()
        return folder

    def archive(self, ledger, folder):
        return self.run("archive", str(ledger), str(folder))

    def refused(self, request, *words):
        """A run whose request for memory of that number is refused, and whether it was made."""
        refused = self.path / "refused"
        words = [self.derbyfig, *map(str, words)]
        preloaded = {"LD_PRELOAD": str(self.path.parent / "refuse.so"), "REFUSED_REQUEST": str(request)}
        with refused.open("w") as file:
            os.dup2(file.fileno(), 9)
            done = subprocess.run(words, capture_output=True, text=True, timeout=PATIENCE, pass_fds=(9,),
                                  env={**os.environ, **preloaded})
            os.close(9)
        return Said(done.returncode, done.stdout, done.stderr.removesuffix("\n")), refused.stat().st_size > 0

    def calls_of_archive(self, ledger, folder):
        """What a run writes, syncs and renames, in order: each call with the file's name."""
        told = self.path / "calls"
        strace = ["strace", "-f", "-y", "-o", str(told), "-e", f"trace={','.join(WATCHED)}"]
        words = [*strace, self.derbyfig, "archive", str(ledger), str(folder)]
        subprocess.run(words, check=True, timeout=PATIENCE, stdout=subprocess.DEVNULL)
        found = map(CALL.match, told.read_text().splitlines())
        return [(call[1] or call[4], call[2] or call[3] or call[5]) for call in found if call]

    def kill_archive(self, ledger, folder, seconds):
        """A run that is killed after so long, unless it has ended."""
        running = subprocess.Popen([self.derbyfig, "archive", str(ledger.path), str(folder)], stdout=subprocess.DEVNULL)
        time.sleep(seconds)
        running.kill()
        running.wait()

    def require_archived(self, ledger, folder):
        """That what the archive lacks is added to it, and nothing else is left in the folder."""
        before = self.names(folder)
        said = self.archive(ledger.path, folder)
        first = self.end_of(folder, before, ledger)
        require_same(said, Said(0, f"archived {ledger.next - first} from {first}\n", ""), "the archive")
        added = [] if first == ledger.next else [f"{first:020}"]
        require_same(self.names(folder), sorted(before + added), "the files")

    def names(self, folder):
        """The ledgers of an archive, in order."""
        return sorted(name for name in os.listdir(folder) if name != "unfinished")

    def end_of(self, folder, names, ledger):
        """The number of the batch behind the last one of an archive."""
        return int(self.rows(folder / names[-1])[-1][0]) + 1 if names else ledger.first

    def rows(self, *words):
        """The snapshot and the entries of a ledger or a book, without references and what the accounts hold after
        each."""
        printed = self.printed("journal", *words, "--as", "csv")
        return [row[:6] for row in csv.reader(io.StringIO(printed))][1:]

    def balances(self, *words):
        return self.printed("balances", *words, "--as", "csv")

    def printed(self, *words):
        """What a command prints that ends well."""
        said = self.run(*map(str, words))
        require_same((said.status, said.told), (0, ""), f"{words}")
        return said.printed

    def memory(self, *words):
        """The most memory that a command took that ends well, in KB."""
        running = subprocess.Popen([self.derbyfig, *map(str, words)], stdout=subprocess.DEVNULL)
        _, status, used = os.wait4(running.pid, 0)
        running.returncode = status
        require_same(status, 0, f"the status of {words}")
        return used.ru_maxrss

    def require_book(self, ledger, *paths):
        """That these paths are read as one ledger, which has what was posted: each posting once, in order, behind one
        snapshot, and what the accounts held before each batch."""
        wanted = [row for row in ledger.rows if int(row[0]) >= ledger.first]
        require_same(self.rows(*paths) == ledger.held_before(ledger.first) + wanted, True, f"the journal of {paths}")
        total = sum(int(row[5]) for row in ledger.rows if row[2] == "deposit")
        numbers = f"first {ledger.first}\nnext {ledger.next}\ntotal {total}\n"
        require_same(self.printed("check", *paths), numbers, f"the numbers of {paths}")
        require_same(self.balances(*paths), self.balances(ledger.path), f"the balances of {paths}")
        for at in {ledger.first, (ledger.first + ledger.next) // 2, ledger.next}:
            held = [row[4:6] for row in ledger.held_before(at)]
            found = [row.split(",")[:2] for row in self.balances(*paths, "--at", at).splitlines()[1:-1]]
            require_same(found, held, f"the balances of {paths} before {at}")

    def require_no_book(self, told, *paths):
        """That these paths are refused as one ledger, by this line, and nothing of them is printed."""
        paths = [str(path) for path in paths]
        require_same(self.run("check", *paths), Said(1, f"{told}\n", ""), f"check of {paths}")
        require_same(self.run("check", "-q", *paths), Said(1, "", ""), f"a quiet check of {paths}")
        for command in ("journal", "balances"):
            require_same(self.run(command, *paths), Said(1, "", told), f"{command} of {paths}")

    def require_whole(self, ledger, folder):
        """That the archive has each posting, in order, in files that begin where the one before ends."""
        found = []
        for name in self.names(folder):
            rows = self.rows(folder / name)
            snapshot = [row for row in rows if row[1] == ""]
            require_same(snapshot, ledger.held_before(int(name)), f"the snapshot of {name}")
            found += rows[len(snapshot):]
        wanted = [row for row in ledger.rows if int(row[0]) >= ledger.first]
        require_same(found == wanted, True, f"{len(found)} postings of {len(wanted)}")
        require_same(self.balances(folder / self.names(folder)[-1]), self.balances(ledger.path), "the balances")

    def require_kept(self, folder, ledger, wanted):
        """That a run says this and leaves the folder as it is."""
        before = kept(folder)
        require_same(self.archive(ledger, folder), wanted, "the archive")
        require_same(kept(folder) == before, True, f"{folder} as it was")

    def require_refused(self, folder, ledger, status):
        """That a run ends with this status, says why, and leaves the folder as it is."""
        before = kept(folder)
        said = self.archive(ledger, folder)
        require_same((said.status, said.printed, said.told != ""), (status, "", True), "the archive")
        require_same(kept(folder) == before, True, f"{folder} as it was")
