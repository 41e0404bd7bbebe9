"""Numbers by chance that are the same in every version of Python.

Of the methods of random.Random only `random()` is promised to give the same numbers in later versions, so
everything here is made of it.
"""

import random


class Chance:
    def __init__(self, seed):
        self.source = random.Random(seed)

    def below(self, limit):
        """A number from 0 on and below the limit, which is at most 2^53."""
        return int(self.source.random() * limit)

    def between(self, low, high):
        """A number from low to high, both included."""
        return low + self.below(high - low + 1)

    def choice(self, items):
        return items[self.below(len(items))]

    def bytes(self, length):
        return bytes(self.below(256) for _ in range(length))

    def shuffled(self, items):
        """The items in some order."""
        left = list(items)
        return [left.pop(self.below(len(left))) for _ in range(len(left))]
