"""How far a build of the libraries is that runs beside this program."""
import re

PROVED = re.compile(r"^rt: (\w+) (?:proved$|is kept: )", re.MULTILINE)
ENDED = re.compile(r"^\d+ passed, \d+ failed$", re.MULTILINE)


class Progress:
    """What a build has proved so far or had kept from an earlier one, by what it writes. Without such a file everything is
    built."""

    def __init__(self, log=None):
        self.log = log

    def has_built(self, libraries):
        """Whether these libraries are there. At the build's end nothing more comes."""
        if self.log is None:
            return True
        said = self.log.read_text(encoding="utf-8", errors="replace") if self.log.is_file() else ""
        return set(libraries) <= set(PROVED.findall(said)) or ENDED.search(said) is not None
