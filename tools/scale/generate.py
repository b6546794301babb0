#!/usr/bin/env python3
"""Random devicetree blobs: boards with and without faults, and damaged blobs.

    generate.py [--seed S] [--count N] [--first F] FOLDER

writes the inputs F, F + 1, .. of the seed (1, 5,000 and 0 if they are not given), each into a file of its number and its sort. An input
follows from its seed and its number alone.
"""

import argparse
import sys
from pathlib import Path

sys.dont_write_bytecode = True

import faults
from chance import Chance
from damage import damaged
from fdt import END, MOST_SIZE, NOP, Layout
from loose import Loose
from trees import OTHER, Made, Style

# How many of 100 inputs are of which sort.
SORTS = {"whole": 30, "one-fault": 19, "two-faults": 13, "many-faults": 4, "loose": 8, "damaged": 26}


class Input:
    """A blob, of which sort it is, and for a tree without a fault how it was made."""

    def __init__(self, seed, number):
        self.chance = Chance("scale %s %d" % (seed, number))
        self.number = number
        self.sort = self.chance.weighted(SORTS)
        self.made = None
        if self.sort == "damaged":
            data = self.written(self.chance.weighted({"whole": 6, "one-fault": 2, "loose": 2}))
            self.data = damaged(self.chance, data)
        else:
            self.data = self.written(self.sort)
        if self.sort != "whole":
            self.made = None

    def name(self):
        return "%06d-%s" % (self.number, self.sort)

    def written(self, sort):
        """The blob of a random tree of a sort; it is made again where it would be too large."""
        while True:
            if sort == "loose":
                made = Loose(self.chance)
            else:
                self.made = made = Made(self.chance, self.style(sort))
                count = {"whole": 0, "one-fault": 1, "two-faults": 2, "many-faults": self.chance.between(3, 8)}[sort]
                faults.add(made, count)
            data = self.laid_out(made.tree)
            if data:
                return data

    def style(self, sort):
        style = Style(self.chance)
        if sort != "whole" and self.chance.often(0.5):
            style.devices = "few"
        return style

    def laid_out(self, tree):
        """The blob of a tree in a random layout, now and then about as large as a blob may be; none where it is too large."""
        chance = self.chance
        tokens = with_nops(chance, tree.tokens(), chance.of([0, 0, 0.03, 0.3])) + [(END,)]
        layout = random_layout(chance)
        data = layout.blob(tokens)
        left = MOST_SIZE - len(data) + len(layout.tail)
        if left < 0:
            return None
        if chance.often(0.04):
            left += chance.of([0, 0, 0, -1, -4, 1, 4])
            if chance.often(0.5) and left > 100:
                # All of it is read: a value grows. Its name may be new, and the reservations are aligned to 8.
                tree.properties.append([chance.of(OTHER), chance.bytes(left - 40)])
                tokens = tree.tokens() + [(END,)]
                data = layout.blob(tokens)
                left = max(0, MOST_SIZE - len(data) + len(layout.tail))
            layout.room += left
            data = layout.blob(tokens)
        return data


def with_nops(chance, tokens, share):
    """No-op tokens before some of the tokens, and before the end token."""
    made = []
    for token in tokens + [None]:
        while chance.often(share):
            made.append((NOP,))
        made.append(token)
    return made[:-1]


def random_layout(chance):
    layout = Layout()
    if chance.often(0.1):
        layout.version = chance.of([17, 18, 0xFFFFFFFF])
        layout.last = chance.of([0, 1, 16, 17])
    layout.boot = chance.of([0, 0, chance.number()])
    if chance.often(0.3):
        layout.pad = chance.bytes
    if chance.often(0.3):
        layout.gap = chance.bytes
        layout.gaps = {part: chance.of([0, 0, 1, 4, 37]) for part in layout.gaps}
    if chance.often(0.5):
        layout.order = chance.order(layout.order)
    layout.names = chance.of(["shared", "shared", "endings", "apart"])
    layout.wide = chance.often(0.06)
    layout.room = chance.of([0, 0, 0, 1, 64])
    if chance.often(0.1):
        layout.tail = chance.bytes(chance.of([1, 4, 64]))
    return layout


def main():
    parser = argparse.ArgumentParser()
    parser.add_argument("--seed", default="1")
    parser.add_argument("--count", type=int, default=5000)
    parser.add_argument("--first", type=int, default=0)
    parser.add_argument("folder", type=Path)
    words = parser.parse_args()
    words.folder.mkdir(parents=True, exist_ok=True)
    for number in range(words.first, words.first + words.count):
        made = Input(words.seed, number)
        (words.folder / (made.name() + ".dtb")).write_bytes(made.data)
    print("generate: seed %s, %d inputs" % (words.seed, words.count))


if __name__ == "__main__":
    main()
