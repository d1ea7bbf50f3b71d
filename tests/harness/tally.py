"""How many answers were as expected."""


class Tally:
    """The counts."""

    def __init__(self):
        self.passed = self.failed = 0


TALLY = Tally()


def tell(holds, line):
    """Counts an answer, and prints a line for one that is not as expected."""
    TALLY.passed += holds
    TALLY.failed += not holds
    if not holds:
        print(line)
