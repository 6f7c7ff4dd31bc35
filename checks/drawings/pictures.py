"""What `derbyfig map` draws of a ledger, and what `derbyfig check` prints about its damage."""
import collections
import dataclasses
import pathlib
import re
import xml.dom.minidom

from failing import Failing, require, require_same

# The classes of cells, in the order in which the tables of the cases count them.
CLASSES = ("damaged", "superblock", "head", "snapshot", "record", "open", "free", "closed", "unused", "unknown")

# A cell has a title. A swatch of the legend doesn't.
CELL = re.compile(r'^<rect class="(\w+)" [^>]*><title>([^<]*)</title></rect>$', re.MULTILINE)

# A bar stands in the legend, and beside each part of the live bank.
BAR = re.compile(r'^<rect class="live" [^>]*/>$', re.MULTILINE)
CAPTION = re.compile(r"^<text [^>]*>([^<]*)</text>$", re.MULTILINE)


@dataclasses.dataclass(frozen=True)
class Place:
    """The first wrong byte. Layout 1 has no banks. A superblock, a head and a snapshot are in no slot."""

    sector: int
    byte: int
    bank: int = None
    slot: int = None

    @property
    def offset(self):
        return 512 * self.sector + self.byte

    def parts(self):
        return [f"{name} {number}" for name, number in (("bank", self.bank), ("slot", self.slot)) if number is not None]

    def in_a_line(self):
        """As `check` prints it."""
        return "(" + ", ".join([*self.parts(), f"sector {self.sector}", f"byte {self.offset}"]) + ")"

    def in_a_picture(self):
        words = ", ".join([f"sector {self.sector}", f"byte {self.byte}", *self.parts()])
        return f"damage: {words}; byte {self.offset} of the file"


@dataclasses.dataclass(frozen=True)
class Picture:
    """The cells of a picture, each with its class and its title; its captions; and the number of its bars."""

    cells: list
    captions: list
    bars: int

    def counts(self):
        counted = collections.Counter(kind for kind, _ in self.cells)
        require_same(set(counted) <= set(CLASSES), True, "whether each cell has a known class")
        return [counted[kind] for kind in CLASSES]

    def titles(self, kind):
        return [title for found, title in self.cells if found == kind]


class Drawing:
    """Runs of the program on the file `ledger` of a folder."""

    def __init__(self, program, library, folder):
        self.failing = Failing(program, library, folder)
        self.failing.anew()
        self.runs = 0

    @property
    def file(self):
        return pathlib.Path(self.failing.folder / "ledger")

    def run(self, *words):
        self.runs += 1
        return self.failing.run(words)

    def picture(self, image, told=None):
        """The picture of a ledger. If that isn't sound, the fault is printed too, and the status is 1."""
        self.file.write_bytes(image)
        run = self.run("map", "ledger")
        require_same((run.status, run.told), (0, "") if told is None else (1, f"ledger: {told}"), "the map")
        xml.dom.minidom.parseString(run.printed)
        require(run.printed.endswith("</svg>\n"), f"a picture ends with {run.printed[-20:]!r}")
        return Picture(CELL.findall(run.printed), CAPTION.findall(run.printed), len(BAR.findall(run.printed)))

    def require_damage(self, image, cause, place, of):
        """That a ledger is damaged by this cause, and that `check` and `map` find it at this place."""
        told = f"{cause} {place.in_a_line()}"
        self.file.write_bytes(image)
        run = self.run("check", "ledger")
        require_same(run.ended(), (1, f"ledger: {told}\n", ""), f"the check of {of}")
        picture = self.picture(image, told)
        require_same(picture.titles("damaged"), [f"sector {place.sector}"], f"the damaged cell of {of}")
        require(place.in_a_picture() in picture.captions, f"the caption of {of}: {picture.captions}")
        require_same(self.file.read_bytes() == image, True, f"the bytes behind the look at {of}")

    def require_cells(self, image, told, counts, of):
        """That the picture has these numbers of cells, in the order of `CLASSES`."""
        require_same(self.picture(image, told).counts(), counts, f"the cells of {of}")
