"""Numbers that look random, the same ones from the same seed."""


class Dice:
    """A sequence of numbers."""

    def __init__(self, seed):
        self.state = seed % 2**64

    def below(self, limit):
        """The next number, below a limit."""
        self.state = (self.state * 6364136223846793005 + 1442695040888963407) % 2**64
        return ((self.state ^ self.state >> 33) >> 11) % limit

    def pick(self, choices):
        """One of these."""
        return choices[self.below(len(choices))]
