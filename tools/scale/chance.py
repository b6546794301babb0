"""Random choices, all made of Python's random(), whose numbers are the same in every version."""

from random import Random
from zlib import crc32

EXTREMES = [0, 1, 2, 3, 4, 5, 7, 8, 9, 16, 32, 40, 63, 64, 65, 255, 256, 4096, 65535, 65536, 65537]
EXTREMES += [0x7FFFFFFC, 0x7FFFFFFF, 0x80000000, 0xD00DFEED, 0xFFFFFF00, 0xFFFFFFFC, 0xFFFFFFFE, 0xFFFFFFFF]


class Chance:
    """A generator whose seed is the CRC of some words."""

    def __init__(self, words):
        self.random = Random(crc32(words.encode())).random

    def below(self, n):
        return int(self.random() * n)

    def between(self, least, most):
        return least + self.below(most - least + 1)

    def often(self, share):
        """Whether something happens that happens in that share of cases."""
        return self.random() < share

    def of(self, items):
        return items[self.below(len(items))]

    def weighted(self, weights):
        """A key of a dict of whole weights."""
        left = self.below(sum(weights.values()))
        for key, weight in weights.items():
            left -= weight
            if left < 0:
                return key
        raise AssertionError

    def order(self, items):
        """The items in another order."""
        left, made = list(items), []
        while left:
            made.append(left.pop(self.below(len(left))))
        return made

    def number(self):
        """A number of 32 bits."""
        return self.below(1 << 32)

    def extreme(self):
        return self.of(EXTREMES)

    def cell(self):
        """A number as cells have it: mostly small."""
        kind = self.random()
        if kind < 0.5:
            return self.below(9)
        return self.extreme() if kind < 0.8 else self.number()

    def cells(self, count):
        return [self.cell() for _ in range(count)]

    def bytes(self, count):
        return bytes(self.below(256) for _ in range(count))
