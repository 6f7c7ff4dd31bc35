"""Tables of ratios beside their aims, and of memory."""
import dataclasses
import statistics


@dataclasses.dataclass
class Aim:
    """A ratio that is wanted: at least, or at most."""

    least: float = None
    most: float = None

    def text(self):
        return f"at least {self.least:.2f}" if self.most is None else f"at most {self.most:.2f}"

    def is_met(self, ratio):
        return ratio >= self.least if self.most is None else ratio <= self.most


def print_rows(rows):
    widths = [max(len(row[column]) for row in rows) for column in range(len(rows[0]))]
    for row in rows:
        print("  ".join(cell.ljust(width) for cell, width in zip(row, widths)).rstrip())


def per_second(count, seconds):
    return f"{count / seconds:,.0f} a second"


def milliseconds(seconds):
    return f"{1000 * seconds:,.1f} ms"


def median_ratio(one, other):
    """The median of the ratios of the runs beside each other, since a shared machine changes its speed."""
    return statistics.median(first / second for first, second in zip(one.seconds, other.seconds))


class Ratios:
    def __init__(self):
        self.rows = [("work", "proved", "beside", "ratio", "aim", "")]

    def speed(self, work, count, proved, name, other, aim):
        """Work done per second in the median run, beside another program's."""
        beside = f"{name} {per_second(count, other.median())}"
        self.add(work, per_second(count, proved.median()), beside, median_ratio(other, proved), aim)

    def time(self, work, proved, name, other, aim):
        """The time that a work takes in the median run, beside another program's."""
        beside = f"{name} {milliseconds(other.median())}"
        self.add(work, milliseconds(proved.median()), beside, median_ratio(proved, other), aim)

    def add(self, work, proved, beside, ratio, aim):
        verdict = "" if aim is None else "met" if aim.is_met(ratio) else "missed"
        self.rows.append((work, proved, beside, f"{ratio:.2f}", aim.text() if aim else "", verdict))


class Memory:
    def __init__(self):
        self.rows = [("most memory", "proved", "plain Rust", "beside")]

    def add(self, work, proved, plain, beside=""):
        self.rows.append((work, proved.megabytes(), plain.megabytes(), beside))
