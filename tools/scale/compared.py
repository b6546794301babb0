"""Comparisons of the random boards: which two, with which lists of events, and the text that the model expects of each."""

import boards
from boards import Board, Comparison, Plan, Side
from lists import Lists, mapped

# The model tests its laws after every so many events: it does so after each in tools/model.
boards.Board.CHECKED_EVERY = 16

LEAST, MOST = 15, 110

# How many of 100 comparisons are of which sort.
SORTS = {"any-two": 30, "shared": 35, "twice": 10, "mapped": 13, "refused": 12}


class Pairs:
    """Pairs of trees, each given by its number. `plans` are those of trees that open, the rest is refused by opening."""

    def __init__(self, chance, plans, refused):
        self.chance, self.plans, self.refused = chance, plans, refused
        self.boards = [number for number, plan in plans.items() if plan.placed]
        self.no_boards = [number for number, plan in plans.items() if not plan.placed] + refused
        self.keys = {number: {route.key for route in plans[number].routes} for number in self.boards}
        self.having = {}
        for number in self.boards:
            for key in sorted(self.keys[number]):
                self.having.setdefault(key, []).append(number)

    def sharing(self, number):
        """Of a few other boards with a device of the same path and index the one with the most; none if there is none."""
        own = self.keys[number]
        keys = [key for key in sorted(own) if len(self.having[key]) > 1]
        if not keys:
            return None
        some = [self.chance.of([other for other in self.having[self.chance.of(keys)] if other != number]) for _ in range(5)]
        return max(some, key=lambda other: len(own & self.keys[other]))

    def pick(self, sort):
        chance = self.chance
        old = chance.of(self.boards)
        if sort == "twice":
            return old, old
        if sort == "refused":
            other = chance.of(self.no_boards)
            return chance.of([(old, other), (other, old), (other, chance.of(self.no_boards))])
        shared = self.sharing(old) if sort in ("shared", "mapped") else None
        return old, chance.of(self.boards) if shared is None else shared


class Compared:
    """One comparison: the two lists as they are written, and what has to come of them."""

    def __init__(self, chance, sort, old, new):
        self.old, self.new = Side("old", *old), Side("new", *new)
        boards = [side.board or Board(None, Plan()) for side in (self.old, self.new)]
        size = chance.between(LEAST, MOST)
        if sort == "mapped":
            Lists(chance.random, boards[0], Side("new", *new).board, size)
            mapped(*boards)
        else:
            Lists(chance.random, *boards, size)
        self.lists = [board.given() for board in boards]
        # The list of a side without a board is not run.
        self.events = sum(len(side.events()) for side in (self.old, self.new))
        self.text = Comparison(self.old, self.new).text().encode("latin-1")
