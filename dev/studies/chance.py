"""Random choices that follow from a seed alone."""
import random


class Chance:
    """The choices of one seed, the same on every machine: of Python's generator only random() is promised to stay as it is from version to
    version, so all else is made of it here."""

    def __init__(self, seed):
        self.draw = random.Random(seed).random

    def below(self, count):
        """A number from 0, below the count."""
        return int(self.draw() * count)

    def between(self, least, most):
        return least + self.below(most - least + 1)

    def happens(self, percent):
        return self.below(100) < percent

    def one_of(self, items):
        return items[self.below(len(items))]

    def in_any_order(self, items):
        left, taken = [*items], []
        while left:
            taken.append(left.pop(self.below(len(left))))
        return taken

    def some_of(self, items, most):
        """Some of the items, one at least and at most so many, in any order."""
        return self.in_any_order(items)[: self.between(1, most)]
