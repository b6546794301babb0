"""Writing blobs, by docs/FORMAT.md: a tree's tokens, and the blob of some tokens in any layout.

Nothing here tests a rule, so that a wrong blob can be written as well as a good one.
"""

OPEN, CLOSE, PROPERTY, NOP, END = 1, 2, 3, 4, 9
MOST_SIZE = 65536


def number(data, place):
    return int.from_bytes(data[place : place + 4], "big")


def cells(value):
    """The whole cells of a value."""
    return [number(value, at) for at in range(0, len(value) // 4 * 4, 4)]


def of_cells(numbers):
    return b"".join((one & 0xFFFFFFFF).to_bytes(4, "big") for one in numbers)


def put(data, place, value):
    """The bytes with another cell at a place."""
    return data[:place] + (value & 0xFFFFFFFF).to_bytes(4, "big") + data[place + 4 :]


class Node:
    """A node of a tree that is written: names and values are bytes."""

    def __init__(self, name, above=None):
        self.name, self.above = name, above
        self.properties, self.children = [], []
        self.depth = above.depth + 1 if above else 1
        if above:
            above.children.append(self)

    def set(self, name, value):
        """Gives the first property of a name another value; a new one comes last."""
        for one in self.properties:
            if one[0] == name:
                one[1] = value
                return
        self.properties.append([name, value])

    def get(self, name):
        return next((value for own, value in self.properties if own == name), None)

    def has(self, name):
        return self.get(name) is not None

    def drop(self, name):
        """Takes away all properties of a name."""
        self.properties = [one for one in self.properties if one[0] != name]

    def path(self):
        if self.above is None:
            return b"/"
        return (b"" if self.above.above is None else self.above.path()) + b"/" + self.name

    def all(self):
        """The node and those below it, in blob order."""
        found = [self]
        for child in self.children:
            found += child.all()
        return found

    def tokens(self):
        found = [(OPEN, self.name)]
        found += [(PROPERTY, name, value) for name, value in self.properties]
        for child in self.children:
            found += child.tokens()
        return found + [(CLOSE,)]


class Layout:
    """How tokens are laid out. `pad` and `gap` answer some bytes of a length: those between tokens, those between blocks."""

    def __init__(self):
        self.version, self.last, self.boot = 17, 16, 0
        self.pad = self.gap = bytes
        self.order = ["reservations", "structure", "strings"]
        self.gaps = {"reservations": 0, "structure": 0, "strings": 0}
        self.names = "shared"  # "apart": one for each property; "endings": a name may be the ending of another
        self.wide = False  # whether the strings block is all from byte 40 on
        self.room, self.tail = 0, b""

    def blob(self, tokens):
        strings = Strings(self.names)
        structure = b"".join(self.token(token, strings) for token in tokens)
        parts = {"reservations": bytes(16), "structure": structure, "strings": strings.bytes}
        data, places = bytes(40), {}
        for name in self.order:
            data += self.gap(self.gaps[name])
            data += self.gap(-len(data) % (8 if name == "reservations" else 4 if name == "structure" else 1))
            places[name] = len(data)
            data += parts[name]
        data += self.gap(self.room)
        begin, size = places["strings"], len(strings.bytes)
        if self.wide:
            for at in strings_cells(data, places["structure"], len(structure)):
                data = put(data, at, number(data, at) + begin - 40)
            begin, size = 40, len(data) - 40
        header = [0xD00DFEED, len(data), places["structure"], begin, places["reservations"]]
        header += [self.version, self.last, self.boot, size, len(structure)]
        return of_cells(header) + data[40:] + self.tail

    def token(self, token, strings):
        kind, *rest = token
        data = of_cells([kind])
        if kind == OPEN:
            data += rest[0] + b"\0"
        if kind == PROPERTY:
            data += of_cells([len(rest[1]), strings.place(rest[0])]) + rest[1]
        return data + self.pad(-len(data) % 4)


class Strings:
    """A strings block and where names are in it."""

    def __init__(self, names):
        self.names, self.bytes, self.known = names, b"", {}

    def place(self, name):
        if self.names != "apart" and name in self.known:
            return self.known[name]
        found = self.bytes.find(name + b"\0") if self.names == "endings" else -1
        if found < 0:
            found = len(self.bytes)
            self.bytes += name + b"\0"
        self.known[name] = found
        return found


class Span:
    """A token of a blob, from its place up to the place of the next."""

    def __init__(self, kind, place, end):
        self.kind, self.place, self.end = kind, place, end


def spans(data, place, end):
    """The tokens from a place on, as far as they can be told apart."""
    found = []
    while place + 4 <= end <= len(data):
        kind, size = number(data, place), 4
        if kind == OPEN:
            zero = data.find(b"\0", place + 4, end)
            size = zero + 1 - place
        if kind == PROPERTY:
            size = 12 + number(data, place + 4) if place + 12 <= end else 0
        size += -size % 4
        if size <= 0 or place + size > end:
            break
        found.append(Span(kind, place, place + size))
        place += size
        if kind == END:
            break
    return found


def structure(data):
    """Where the structure block begins and ends by the header."""
    return number(data, 8), number(data, 8) + number(data, 36)


def strings_cells(data, place, size):
    return [span.place + 8 for span in spans(data, place, place + size) if span.kind == PROPERTY]


def for_libfdt(data):
    """A blob that libfdt takes where this one opens, with the same places of nodes, properties, names and values.

    libfdt expects the root's open token first and the end token behind the root's close token, counts other versions as wrong, and reads
    the reservations. So the structure block begins later here, no-op tokens behind the root stand before its close token, and the
    reservations are empty, behind everything else.
    """
    data = data[: number(data, 4)]
    begin, end = structure(data)
    tokens = spans(data, begin, end)
    behind = len(tokens) - 1
    while behind > 0 and tokens[behind].kind != CLOSE:
        behind -= 1
    moved = [span.kind for span in tokens[behind + 1 : -1] + [tokens[behind]]]
    data = data[: tokens[behind].place] + of_cells(moved) + data[tokens[-1].place :]
    first = next(span.place for span in tokens if span.kind == OPEN)
    data += bytes(-len(data) % 8)
    for place, value in {4: len(data) + 16, 8: first, 16: len(data), 20: 17, 24: 16, 36: end - first}.items():
        data = put(data, place, value)
    return data + bytes(16)
