"""Opening a blob, written from docs/FORMAT.md and docs/REFUSALS.md alone."""

MOST_DEPTH = 16
MOST_SIZE = 65536


class Refusal(Exception):
    """Why a tree is refused: layer, number, place of the node, place of the property."""

    def __init__(self, layer, number, node, prop):
        super().__init__(layer, number, node, prop)
        self.text = "layer %d, number %d, node %d, property %d" % (layer, number, node, prop)
        self.number = number


class Node:
    def __init__(self, place, depth, path):
        self.place, self.depth, self.path = place, depth, path
        self.properties = []

    def find(self, name):
        """The place and the value of the first property of a name, or none."""
        for place, own, value in self.properties:
            if own == name:
                return place, value
        return None


def cell(data, place):
    return int.from_bytes(data[place : place + 4], "big")


def cells(value):
    return [cell(value, at) for at in range(0, len(value), 4)]


class Tree:
    """An opened tree: its nodes in blob order. Opening raises the first refusal."""

    def __init__(self, data):
        self.data = data
        self.header()
        self.nodes = []
        self.walk()
        self.phandles()

    def node_at(self, place):
        return next(node for node in self.nodes if node.place == place)

    def header(self):
        data = self.data
        if len(data) < 40 or not 40 <= cell(data, 4) <= min(MOST_SIZE, len(data)):
            raise Refusal(1, 1, 0, 0)
        total = cell(data, 4)
        if cell(data, 0) != 0xD00DFEED:
            raise Refusal(1, 2, 0, 0)
        if cell(data, 20) < 17 or cell(data, 24) > 17:
            raise Refusal(1, 3, 0, 0)
        self.start, self.end = cell(data, 8), cell(data, 8) + cell(data, 36)
        self.strings, self.strings_end = cell(data, 12), cell(data, 12) + cell(data, 32)
        if self.start < 40 or self.start % 4 or (self.end - self.start) % 4 or self.end > total:
            raise Refusal(1, 4, 0, 0)
        if self.strings < 40 or self.strings_end > total:
            raise Refusal(1, 4, 0, 0)

    def name(self, place, end, token):
        """The name that begins at a place, up to the zero byte that has to stand before the block's end."""
        zero = self.data.find(b"\0", place, end) if place < end else -1
        if zero < 0:
            raise Refusal(2, 5, token, 0)
        return self.data[place:zero]

    def token(self, place):
        """The token at a place: its cell, its name, its value, and where it ends."""
        if place + 4 > self.end:
            raise Refusal(2, 5, place, 0)
        kind = cell(self.data, place)
        if kind == 1:
            name = self.name(place + 4, self.end, place)
            return kind, name, None, place + 4 + len(name) + 1
        if kind == 3:
            if place + 12 > self.end or place + 12 + cell(self.data, place + 4) > self.end:
                raise Refusal(2, 5, place, 0)
            ends = place + 12 + cell(self.data, place + 4)
            name = self.name(self.strings + cell(self.data, place + 8), self.strings_end, place)
            return kind, name, self.data[place + 12 : ends], ends
        if kind not in (2, 4, 9):
            raise Refusal(2, 5, place, 0)
        return kind, None, None, place + 4

    def walk(self):
        """All tokens from the front, by the rules of a tree."""
        open_nodes, place, after_subnode = [], self.start, False
        while True:
            kind, name, value, ends = self.token(place)
            against = Refusal(2, 6, place, 0)
            if kind == 1:
                if not open_nodes and (self.nodes or name):
                    raise against
                if len(open_nodes) == MOST_DEPTH:
                    raise Refusal(2, 7, place, 0)
                above = open_nodes[-1].path if len(open_nodes) > 1 else ""
                node = Node(place, len(open_nodes) + 1, above + "/" + name.decode("latin-1"))
                open_nodes.append(node)
                self.nodes.append(node)
                after_subnode = False
            elif kind == 2:
                if not open_nodes:
                    raise against
                open_nodes.pop()
                after_subnode = True
            elif kind == 3:
                if not open_nodes or after_subnode:
                    raise against
                open_nodes[-1].properties.append((place, name.decode("latin-1"), value))
            elif kind == 9:
                if not self.nodes or open_nodes or ends != self.end:
                    raise against
                return
            place = (ends + 3) // 4 * 4

    def phandles(self):
        seen = set()
        for node in self.nodes:
            found = node.find("phandle")
            if found is None:
                continue
            place, value = found
            if len(value) != 4:
                raise Refusal(3, 8, node.place, place)
            if cell(value, 0) in seen | {0, 0xFFFFFFFF}:
                raise Refusal(3, 9, node.place, place)
            seen.add(cell(value, 0))
