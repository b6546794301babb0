"""Small trees of a few nodes, whose properties are those that are read, with values about as likely to fit as not."""

from fdt import Node, of_cells
from trees import ADDRESS, CELLS, CONTROLLER, EXTENDED, KIND, MAP, MASK, PARENT, PHANDLE, PLAIN, PRIORITIES, REG, STRANGERS, STRINGS, WIDTHS

MOST_NODES = 9

COUNT = [1, 1, 1, 1, 1, 1, 2, 2, 2, 3, 4, 0, 5]
CELL = [0, 0, 0, 1, 1, 1, 2, 2, 3, 4, 7, 8]


class Loose:
    def __init__(self, chance):
        self.chance = chance
        self.tree = Node(b"")
        nodes = [self.tree]
        for n in range(chance.between(1, MOST_NODES - 1)):
            nodes.append(Node(b"n%d" % n, chance.of(nodes)))
        self.named = min(len(nodes), 6)
        self.words = chance.of([8, 24, 60])
        numbers = chance.order(range(1, len(nodes) + 1))
        for node, number in zip(nodes, numbers):
            for name, share, value in self.choices(number):
                if chance.often(share):
                    node.properties.append([name, self.spoilt(value)])
            node.properties = chance.order(node.properties)

    def choices(self, number):
        """What a node may have: a name, in which share of cases, and a value."""
        chance = self.chance
        kind = chance.of(list(STRINGS.values()) * 3 + STRANGERS)
        yield PHANDLE, 0.9, of_cells([number])
        yield CELLS, 0.7, of_cells([2 if kind == STRINGS["8259A"] else 1] if chance.often(0.6) else [chance.of(COUNT)])
        yield ADDRESS, 0.7, of_cells([chance.of([0, 0, 1] + COUNT)])
        yield chance.of([CONTROLLER, MAP, MAP]), 0.6, self.cells(self.words)
        yield MASK, 0.2, of_cells([chance.of([0, 3, 0xFFFFFFFF, 0xFFFFFFFF]) for _ in range(chance.between(0, 5))])
        yield PARENT, 0.4, self.cells(1)
        yield PLAIN, 0.4, self.cells(chance.below(6))
        yield EXTENDED, 0.3, self.cells(chance.below(9))
        yield REG, 0.6, self.cells(chance.below(5))
        yield KIND, 0.7, kind + b"\0"
        yield chance.of(list(WIDTHS.values())), 0.8, of_cells([chance.of([1, 2, 4, 8, 8, 32])])
        yield PRIORITIES, 0.1, of_cells([chance.between(1, 7) for _ in range(chance.of([1, 2, 4, 8]))])

    def cells(self, count):
        return of_cells([self.chance.of(CELL + [1 + self.chance.below(self.named)] * 8) for _ in range(count)])

    def spoilt(self, value):
        """A few values are cut or lengthened."""
        if self.chance.often(0.97):
            return value
        return value[:-1] if self.chance.often(0.5) else value + b"\0"
