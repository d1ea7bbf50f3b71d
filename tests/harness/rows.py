"""The rows of a file, and the comparison of the answers that stand under them with those that came."""
from itertools import zip_longest

MARK = "= "


class Fault(Exception):
    """What a row says that no row may say."""


class Row:
    """A line that is no answer, by its number in the file, with the answers right under it and those that came."""

    def __init__(self, place, text):
        self.place, self.text = place, text
        self.wanted, self.came = [], []

    def tell(self, *answers):
        """Adds answers that came."""
        self.came += answers

    def unlike(self):
        """The answers that are others than those that were wanted: the line of each, what was wanted there, what came."""
        for i, (wanted, came) in enumerate(zip_longest(self.wanted, self.came), 1):
            if wanted != came:
                yield self.place + i, wanted, came

    def count(self):
        """How many answers were wanted or came."""
        return max(len(self.wanted), len(self.came))


def read_rows(text):
    """The rows of a file's text. Answers above the first row stand under a row of their own."""
    rows = [Row(0, "")]
    for place, line in enumerate(text.removesuffix("\n").split("\n"), 1):
        if line.startswith(MARK):
            rows[-1].wanted.append(line.removeprefix(MARK))
        else:
            rows.append(Row(place, line))
    return rows


def compared(name, rows):
    """The lines that tell of a file, how many of its answers are as expected, and how many are not."""
    lines, unlike = [], 0
    for row in rows:
        for place, wanted, came in row.unlike():
            unlike += 1
            lines.append(f"{name}:{place}: wanted {'no answer' if wanted is None else wanted}")
            lines.append(f"{name}:{place}: came {'no answer' if came is None else came}")
    alike = sum(row.count() for row in rows) - unlike
    lines.append(f"{name}: {alike} as expected" + (f", {unlike} not" if unlike else ""))
    return lines, alike, unlike
