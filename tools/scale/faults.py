"""Faults put into a random tree. Most are meant for one number of docs/REFUSALS.md; which number counts in the end is for the readers to say,
since other faults may come first, and since a few are at the edge and none at all.

A fault takes a tree whose values are bytes, and answers whether there was a place for it.
"""

from fdt import Node, cells, of_cells
from trees import ADDRESS, CELLS, CONTROLLER, EXTENDED, KIND, KINDS, MAP, MASK, MOST_DEPTH, PARENT, PHANDLE, PLAIN, PRIORITIES, READ
from trees import REG, STRANGERS, STRINGS, WIDTHS, Place


class Faults:
    def __init__(self, made):
        self.made, self.chance, self.tree = made, made.chance, made.tree
        self.last = None  # the node of the fault before

    # ---- choosing ----

    def all(self):
        return self.tree.all()

    def having(self, *names):
        return [node for node in self.all() if any(node.has(name) for name in names)]

    def some(self, items):
        """One of the items, or none; often the one of the fault before, since the order of testing decides between faults of one node."""
        if items and not (self.last in items and self.chance.often(0.5)):
            self.last = self.chance.of(items)
        return self.last if items else None

    def specified(self):
        """A node with specifiers, and the property that they are in."""
        node = self.some([node for node in self.having(PLAIN, EXTENDED) if node.get(EXTENDED if node.has(EXTENDED) else PLAIN)])
        return node, node and (EXTENDED if node.has(EXTENDED) else PLAIN)

    def phandle(self, node):
        """The phandle of a node, given to it if it has none."""
        value = node.get(PHANDLE)
        if value is None or len(value) != 4:
            node.drop(PHANDLE)
            value = of_cells([self.unused()])
            node.properties.insert(self.chance.below(len(node.properties) + 1), [PHANDLE, value])
        return cells(value)[0]

    def unused(self):
        used = {cell for node in self.having(PHANDLE) for cell in cells(node.get(PHANDLE))}
        while True:
            number = self.chance.of([self.chance.below(500), self.chance.number(), 0xFFFFFFFE])
            if number not in used | {0, 0xFFFFFFFF}:
                return number

    def new(self, name=b"late", above=None):
        """A new node among the others."""
        if above is None:
            above = self.chance.of([node for node in self.all() if node.depth < MOST_DEPTH])
        node = Node(name + b"-%x" % self.chance.number(), above)
        above.children = self.chance.order(above.children)
        return node

    def change(self, node, name, at, value):
        """Gives a cell of a property another value."""
        numbers = cells(node.get(name))
        if at >= len(numbers):
            return False
        numbers[at] = value
        node.set(name, of_cells(numbers))
        return True

    def specify(self, node, places):
        """Gives a node specifiers that end at places without a nexus."""
        node.set(EXTENDED, of_cells([cell for place in places for cell in [self.phandle(place.controller.node)] + place.cells]))

    def resize(self, node, name, bytes):
        value = node.get(name)
        node.set(name, value[:bytes] if bytes < 0 else value + self.chance.bytes(bytes))
        return bytes > 0 or value != b""

    # ---- 8, 9: values ----

    def value(self):
        chance = self.chance
        one_cell = self.having(CELLS, ADDRESS, PARENT, PHANDLE, *WIDTHS.values())
        many = self.having(PLAIN, EXTENDED, MAP, MASK, REG)
        if chance.often(0.5) and one_cell:
            node = self.some(one_cell)
            name = chance.of([name for name in (CELLS, ADDRESS, PARENT, PHANDLE, *WIDTHS.values()) if node.has(name)])
            if name in (PARENT, PHANDLE) or chance.often(0.4):
                return self.resize(node, name, chance.of([-4, -1, -3, 1, 4]))
            node.set(name, of_cells([chance.of([0, 5, 33, 65, chance.extreme()])]))
            return True
        if many:
            node = self.some(many)
            name = chance.of([name for name in (PLAIN, EXTENDED, MAP, MASK, REG) if node.has(name)])
            return self.resize(node, name, chance.of([-1, -2, -3, 1, 2, 3]))
        return False

    def of_controller(self):
        """One or more of the properties that boards read of a controller: the strings, the count, the width, the priorities."""
        node = self.some(self.having(CONTROLLER))
        if not node:
            return False
        width = next((name for name in WIDTHS.values() if node.has(name)), None)
        names = [KIND, CELLS, width, PRIORITIES, PRIORITIES] if width else [KIND, CELLS]
        wrong = sorted({self.chance.of(names) for _ in range(self.chance.of([1, 1, 1, 2, 3]))})
        for name in wrong:
            if name == KIND:
                node.has(KIND) and self.resize(node, KIND, self.chance.of([-1, -2, 1, 3]))
            elif name == CELLS:
                self.instead(node, CELLS, [of_cells([self.chance.of([0, 1, 2, 5])]), b"", of_cells([1, 1])])
            elif name == width:
                most = next(KINDS[kind] for kind, name in WIDTHS.items() if name == width)
                number = of_cells([self.chance.of([0, most, most + 1, most + 1, self.chance.extreme()])])
                self.instead(node, width, [None, number, number, of_cells([1, 1])])
            else:
                self.priorities(node, cells(width and node.get(width) or b""))
        return True

    def priorities(self, node, width):
        """Priorities at the ends of their range or past them, of the right length or nearly."""
        lines = min(width[0], 64) if width else 8
        values = [self.chance.between(1, 7) for _ in range(lines)]
        if self.chance.often(0.9) and values:
            values[self.chance.below(len(values))] = self.chance.of([0, 0, 8, 8, 8, 7, self.chance.extreme()])
        length = 4 * lines + self.chance.of([0, 0, 0, 0, 0, 0, -4, -1, 1, 4])
        self.instead(node, PRIORITIES, [(of_cells(values) + bytes(4))[: max(length, 0)]])

    def instead(self, node, name, values):
        """One of the values in the place of the one that a property has; none takes the property away."""
        value = self.chance.of(values)
        if value is None:
            node.drop(name)
        else:
            node.set(name, value)

    def counts(self):
        """Both counts of a node are wrong or missing."""
        node = self.some(self.having(MAP, CONTROLLER))
        if not node:
            return False
        for name in (ADDRESS, CELLS):
            at = next((n for n, one in enumerate(node.properties) if one[0] == name), None)
            value = self.chance.of([None, b"", b"abc", of_cells([5]), of_cells([0, 1]), of_cells([0xFFFFFFFF])])
            if at is None or value is None:
                node.drop(name)
            else:
                node.properties[at][1] = value
        return True

    def phandles(self):
        chance = self.chance
        node = self.some(self.having(PHANDLE)) if chance.often(0.7) else self.chance.of(self.all())
        other = self.some([one for one in self.having(PHANDLE) if one is not node])
        taken = [cells(other.get(PHANDLE))[0]] * 2 if other and len(other.get(PHANDLE)) == 4 else []
        value = chance.of([0, 0xFFFFFFFF] + taken)
        if not node:
            return False
        node.set(PHANDLE, of_cells([value]))
        return True

    # ---- 10, 11: controllers ----

    def kind(self):
        chance = self.chance
        node = self.some(self.having(CONTROLLER))
        if not node:
            return False
        if chance.often(0.4):
            count = chance.of([None, 1, 2, 3, 4])
            node.drop(CELLS) if count is None else node.set(CELLS, of_cells([count]))
            return True
        strings = [chance.of(STRANGERS + list(STRINGS.values())) for _ in range(chance.below(3))]
        node.drop(KIND)
        if chance.often(0.7):
            node.set(KIND, b"".join(string + b"\0" for string in strings))
        return True

    def controllers(self):
        """None, or more than four."""
        if self.chance.often(0.3):
            for node in self.having(CONTROLLER):
                node.drop(CONTROLLER)
            return True
        for _ in range(self.chance.between(1, 5)):
            kind = self.chance.of(list(KINDS))
            node = self.new(b"pic")
            node.set(CONTROLLER, b"")
            node.set(KIND, STRINGS[kind] + b"\0")
            node.set(CELLS, of_cells([2 if kind == "8259A" else 1]))
            if kind in WIDTHS:
                node.set(WIDTHS[kind], of_cells([self.chance.between(1, 32)]))
        return True

    # ---- 12 to 18: walks ----

    def lost(self):
        """A phandle that no node has, or that a node has by the older name alone."""
        named = self.having(PHANDLE)
        if named and self.chance.often(0.3):
            found = next(one for one in self.some(named).properties if one[0] == PHANDLE)
            found[0] = b"linux,phandle"
            return True
        node = self.some(self.having(EXTENDED, PARENT, MAP))
        if not node:
            return False
        name = self.chance.of([name for name in (EXTENDED, PARENT, MAP) if node.has(name)])
        at = 0
        if name == MAP:
            counts = cells(node.get(ADDRESS) or b"") + cells(node.get(CELLS) or b"")
            at = sum(counts[:2]) % 16
        return self.change(node, name, at, self.unused() if self.chance.often(0.8) else self.chance.of([0, 0xFFFFFFFF]))

    def parent(self):
        """A search for the interrupt parent that ends nowhere, or that is as long as it may be, or longer by one."""
        chance = self.chance
        device = self.new()
        device.set(PLAIN, of_cells(chance.cells(chance.between(1, 3))))
        how = chance.below(3)
        if how == 0:
            return True
        looked_at = chance.of([2, 62, 63, 64, 64, 65, 65]) if how == 1 else chance.between(1, 4)
        controller = self.some([one for one in self.made.controllers if one.free])
        if how == 1 and not controller:
            return False
        chain = [self.new(b"way") for _ in range(looked_at - 1 if how == 1 else looked_at)]
        last = controller.node if how == 1 else chain[0]
        if how == 1:
            device.set(PLAIN, of_cells(self.made.place(controller).cells))
        for node, candidate in zip([device] + chain, chain + [last]):
            node.set(PARENT, of_cells([self.phandle(candidate)]))
        return True

    def short(self):
        node, name = self.specified()
        return bool(node) and self.resize(node, name, 4 * self.chance.of([-3, -2, -1, 1, 2]))

    def end(self):
        """Arrival at what is neither a controller nor a nexus, or has no count."""
        node = self.some(self.having(MAP, CONTROLLER) if self.chance.often(0.7) else self.all())
        if not node:
            return False
        if self.chance.often(0.6) and (node.has(MAP) or node.has(CONTROLLER)):
            node.drop(self.chance.of([CELLS, MAP if node.has(MAP) else CONTROLLER]))
            return True
        device = self.new()
        if self.chance.often(0.3) and not node.has(CELLS):
            node.set(CELLS, of_cells([self.chance.between(1, 4)]))
        device.set(EXTENDED, of_cells([self.phandle(node)] + self.chance.cells(4)))
        return True

    def nexus(self):
        return self.some(self.having(MAP))

    def row(self):
        """Counts, unit addresses, masks and rows with too few cells."""
        chance = self.chance
        nexus = self.nexus()
        if not nexus:
            return False
        how = chance.of([0, 0, 1, 2, 3])
        if how == 0:
            # Cut in one of the first rows, or near the end.
            value = nexus.get(MAP)
            nexus.set(MAP, value[: 4 * chance.between(1, 14)] if chance.often(0.7) else value[: -4 * chance.between(1, 9)])
            return True
        if how == 1:
            if nexus.has(MASK):
                return self.resize(nexus, MASK, chance.of([-4, 4, -8, 8]))
            nexus.set(MASK, of_cells([0xFFFFFFFF] * chance.below(9)))
            return True
        if how == 2:
            node = self.some(self.having(ADDRESS))
            if node:
                node.drop(ADDRESS)
            return bool(node)
        node = self.some([node for node in self.having(REG) if node.has(PLAIN) or node.has(EXTENDED)])
        if not node:
            return False
        if chance.often(0.5):
            node.drop(REG)
            return True
        return self.resize(node, REG, -4 * chance.between(1, 3))

    def no_row(self):
        nexus = self.nexus()
        if not nexus:
            return False
        if self.chance.often(0.1):
            nexus.set(MAP, b"")
            return True
        if self.chance.often(0.4) and nexus.get(MASK):
            return self.change(nexus, MASK, self.chance.below(len(cells(nexus.get(MASK)))), self.chance.extreme())
        rows = cells(nexus.get(MAP))
        return bool(rows) and self.change(nexus, MAP, self.chance.below(min(len(rows), 9)), self.chance.extreme())

    def long_walk(self):
        """A chain of seven to ten new nexuses to a controller, or a nexus whose row leads to itself."""
        chance = self.chance
        controller = self.some([one for one in self.made.controllers if one.free])
        if not controller:
            return False
        place = self.made.place(controller)
        node, cell, ends = controller.node, place.cells, chance.often(0.7)
        if not node.has(ADDRESS):
            node.set(ADDRESS, of_cells([0]))
        address = (cells(node.get(ADDRESS)) or [0])[0] % 5
        arrival = [self.phandle(node)] + [0] * address + cell
        for n in range(chance.of([7, 8, 8, 9, 9, 10]) if ends else 1):
            nexus = self.new(b"hop")
            nexus.set(ADDRESS, of_cells([0]))
            nexus.set(CELLS, of_cells([1]))
            own = [self.phandle(nexus), chance.number()]
            nexus.set(MAP, of_cells([own[1]] + (arrival if ends else own)))
            arrival = own
        device = self.new()
        device.set(EXTENDED, of_cells(arrival))
        return True

    # ---- 19 to 22: boards ----

    def input(self):
        """An input or a sense that a controller does not have, or the last that it has."""
        chance = self.chance
        if chance.often(0.3):
            node, name = self.specified()
            if not node:
                return False
            numbers = cells(node.get(name))
            return self.change(node, name, chance.below(len(numbers)), chance.extreme()) if numbers else False
        controller = chance.of(self.made.controllers)
        first = chance.of([controller.width - 1, controller.width, controller.width, controller.width + 1, 0, 0, chance.extreme()])
        second = [chance.of([0, 3, 4, 5, chance.extreme()])] if controller.kind == "8259A" else []
        self.new().set(EXTENDED, of_cells([self.phandle(controller.node), first] + second))
        return True

    def routes(self):
        """256 routes, 257 of them, or a few more. Past the inputs that are free they share one."""
        chance = self.chance
        wanted = chance.of([256, 257, 257, 260]) - sum(len(self.made.ends[device]) for device in self.made.devices)
        if wanted <= 0:
            return False
        controller = chance.of(self.made.controllers)
        input = controller.free[0] if controller.free else 0
        places = [Place(controller, input, chance) for _ in range(wanted)]
        if chance.often(0.3):
            # One input that the controller does not have is among the last ones.
            places[-chance.between(1, min(3, wanted))].cells[0] = chance.of([controller.width + 1, 0xFFFFFFFF])
        at, last = 0, chance.often(0.6)
        while at < wanted:
            count = chance.between(20, 300)
            device = Node(b"late-%x" % chance.number(), self.tree) if last else self.new()
            self.specify(device, places[at : at + count])
            at += count
        return True

    def root(self):
        """Two roots, none, parents in a ring, or two specifiers."""
        chance = self.chance
        controller = chance.of(self.made.controllers)
        how = chance.below(3)
        if how == 0 and controller.above:
            for name in (PLAIN, EXTENDED):
                controller.node.drop(name)
            return True
        others = [one for one in self.made.controllers if one.free]
        if not others:
            return False
        places = [self.made.place(chance.of(others))]
        if how == 1:
            places.append(controller.above or places[0])
        self.specify(controller.node, places)
        return True

    def second(self):
        """A second specifier for an input that has one, of a device or of a controller."""
        taken = [place for places in self.made.ends.values() for place in places]
        if not taken:
            return False
        place = self.chance.of(taken)
        self.specify(self.new(), [Place(place.controller, place.input, self.chance)])
        return True

    # ---- 7: depth ----

    def deep(self):
        """A branch that is as deep as it may be, or deeper by one."""
        above = self.chance.of(self.all())
        for _ in range(self.chance.of([MOST_DEPTH, MOST_DEPTH + 1, MOST_DEPTH + 1]) - above.depth):
            above = self.new(b"deep", above)
        return True

    # ---- any ----

    def any(self):
        """A change of which nobody knows what it does."""
        chance = self.chance
        node = chance.of(self.all())
        if not node.properties or chance.often(0.1):
            if node.above:
                # The node moves below another one.
                inside = node.all()
                above = chance.of([one for one in self.all() if one not in inside])
                node.above.children.remove(node)
                node.above = above
                above.children.insert(chance.below(len(above.children) + 1), node)
            return bool(node.above)
        at = chance.below(len(node.properties))
        name, value = node.properties[at]
        how = chance.below(7)
        if how == 0:
            del node.properties[at]
        elif how == 1:
            node.properties.append(node.properties.pop(at))
        elif how == 2:
            node.properties[at][0] = chance.of(READ)
        elif how == 3:
            node.properties[at][1] = value[: chance.below(len(value) + 1)]
        elif how == 4:
            other = chance.of(self.all())
            other.properties.insert(chance.below(len(other.properties) + 1), [name, value])
        elif how == 5:
            node.properties.insert(at, [name, chance.bytes(chance.below(9))])
        elif len(value) >= 4:
            node.properties[at][1] = of_cells(cells(value))
            self.change(node, name, chance.below(len(value) // 4), chance.of([chance.cell(), chance.extreme()]))
        return True


# What each fault is meant for.
MEANT = {
    7: Faults.deep,
    8: Faults.value,
    "counts": Faults.counts,
    "controller": Faults.of_controller,
    9: Faults.phandles,
    10: Faults.kind,
    11: Faults.controllers,
    12: Faults.lost,
    13: Faults.parent,
    14: Faults.short,
    15: Faults.end,
    16: Faults.row,
    17: Faults.no_row,
    18: Faults.long_walk,
    19: Faults.input,
    20: Faults.routes,
    21: Faults.root,
    22: Faults.second,
    "any": Faults.any,
}


def add(made, count):
    """Puts in that many faults."""
    faults, put = Faults(made), 0
    while put < count:
        if MEANT[made.chance.of(list(MEANT))](faults):
            put += 1
