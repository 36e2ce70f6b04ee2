"""Draws of whole numbers and choices, which are the same for the same seed."""
import random


class Draws:
    """A source of draws. Only whole numbers are drawn, so that no rounding of the machine's shows in a case."""

    def __init__(self, seed):
        self._source = random.Random(seed)

    def below(self, bound):
        return self._source.randrange(bound)

    def between(self, least, most):
        return least + self.below(most - least + 1)

    def chance(self, part, whole):
        """True in `part` of `whole` draws."""
        return self.below(whole) < part

    def one_of(self, things):
        return things[self.below(len(things))]

    def mostly(self, usual, *others):
        """The usual thing in three of four draws, and else one of the others."""
        return self.one_of(others) if self.chance(1, 4) else usual

    def some_of(self, things, count):
        """So many of the things, or all where there are fewer, in any order."""
        rest = list(things)
        return [rest.pop(self.below(len(rest))) for _ in range(min(count, len(rest)))]

    def shuffled(self, things):
        return self.some_of(things, len(things))
