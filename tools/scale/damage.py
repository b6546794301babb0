"""Damage to a blob, byte by byte or token by token. Most damaged blobs are refused (1 to 9), and some open as before or as another tree."""

from chance import EXTREMES
from fdt import CLOSE, END, NOP, OPEN, PROPERTY, number, of_cells, put, spans, structure

HEADER = range(0, 40, 4)


class Damage:
    """Some damage to a blob: each step answers the bytes that it makes of it."""

    def __init__(self, chance, data):
        self.chance, self.data = chance, data
        begin, end = structure(data)
        self.begin, self.end = min(begin, len(data)), min(end, len(data))
        self.spans = spans(data, self.begin, self.end)

    def place(self):
        """Any place, more often one in the header or in the structure block."""
        chance = self.chance
        if chance.often(0.2) or self.end <= self.begin:
            return chance.below(min(40, len(self.data)))
        return chance.between(self.begin, self.end - 1) if chance.often(0.6) else chance.below(len(self.data))

    def flip(self):
        data = bytearray(self.data)
        for _ in range(self.chance.of([1, 1, 2, 8])):
            at = self.place()
            data[at] = data[at] ^ 1 << self.chance.below(8) if self.chance.often(0.5) else self.chance.below(256)
        return bytes(data)

    def cell(self):
        """A cell is replaced by an extreme one."""
        at = self.place() // 4 * 4
        near = [len(self.data), self.end - self.begin, number(self.data, at) + 1, number(self.data, at) - 1]
        return put(self.data, at, self.chance.of(EXTREMES + near + [number(self.data, 4)]))

    def cut(self):
        """The blob is cut; the total size stays or is made to fit."""
        at = self.chance.below(len(self.data))
        if self.chance.often(0.3):
            at = self.chance.below(45)
        data = self.data[:at]
        return put(data, 4, at) if at >= 8 and self.chance.often(0.5) else data

    def lengthen(self):
        data = self.data + self.chance.bytes(self.chance.of([1, 3, 4, 40, 4096]))
        if self.chance.often(0.2):
            data += bytes(max(0, 65537 - len(data)))
        return put(data, 4, len(data)) if self.chance.often(0.6) else data

    def header(self):
        """A field of the header is a little off, or is another one's."""
        at = self.chance.of(HEADER)
        value = number(self.data, at) + self.chance.of([-8, -4, -3, -1, 1, 3, 4, 8])
        return put(self.data, at, number(self.data, self.chance.of(HEADER)) if self.chance.often(0.3) else value)

    def with_structure(self, structure):
        """The blob with another structure block in place; what is behind it moves, and the sizes are made to fit."""
        grown = len(structure) - (self.end - self.begin)
        data = self.data[: self.begin] + structure + self.data[self.end :]
        for at, behind in [(4, True), (12, number(data, 12) >= self.end), (16, number(data, 16) >= self.end), (36, True)]:
            if behind:
                data = put(data, at, number(data, at) + grown)
        return data

    def tokens(self):
        """Tokens are exchanged, dropped, repeated, or put in."""
        chance = self.chance
        parts = [self.data[span.place : span.end] for span in self.spans]
        if not parts:
            return self.flip()
        rest = self.data[self.spans[-1].end : self.end]
        at, other = chance.below(len(parts)), chance.below(len(parts))
        if chance.often(0.3):
            at = len(parts) - 1 - chance.below(min(4, len(parts)))
        how = chance.below(5)
        if how == 0:
            parts[at], parts[other] = parts[other], parts[at]
        elif how == 1:
            del parts[at]
        elif how == 2:
            parts.insert(other, parts[at])
        elif how == 3:
            kind = chance.of([OPEN, CLOSE, NOP, END, PROPERTY, 0, 5, 8, 10, chance.number()])
            more = {OPEN: [chance.of([0, 0x61000000])], PROPERTY: [chance.of([0, 4]), chance.below(64), 0]}.get(kind, [])
            parts.insert(at, of_cells([kind] + more))
        else:
            # One branch more, about as deep as a tree may be.
            deep = chance.of([8, 12, 14, 15, 16, 17])
            parts.insert(at, of_cells([OPEN, 0x61000000] * deep + [CLOSE] * (deep - chance.of([0, 0, 0, 1]))))
        return self.with_structure(b"".join(parts) + rest)

    def of_kind(self, kind):
        found = [span for span in self.spans if span.kind == kind]
        return self.chance.of(found) if found else None

    def property(self):
        """A length or a name offset of a property is off."""
        span = self.of_kind(PROPERTY)
        if not span:
            return self.flip()
        at = span.place + self.chance.of([4, 8])
        near = [number(self.data, at) + step for step in (-4, -1, 1, 2, 4, 8)]
        near += [self.end - span.place - 12, self.end - span.place - 11, number(self.data, 32), number(self.data, 32) - 1]
        return put(self.data, at, self.chance.of(near + [self.chance.extreme()]))

    def name(self):
        """A zero byte that ends a name is another one."""
        data = bytearray(self.data)
        strings = number(self.data, 12)
        span = self.of_kind(OPEN)
        found = [at for at in range(strings, min(strings + number(self.data, 32), len(data))) if data[at] == 0]
        if span and (self.chance.often(0.5) or not found):
            found = [at for at in range(span.place + 4, span.end) if data[at] == 0]
        if self.chance.often(0.3):
            found = found[-1:]
        if found:
            data[self.chance.of(found)] = self.chance.between(1, 255)
        return bytes(data)

    def phandle(self):
        """The cell of a property of one cell is that of another one: often a phandle of two nodes."""
        single = [span for span in self.spans if span.kind == PROPERTY and number(self.data, span.place + 4) == 4]
        if not single:
            return self.flip()
        one, other = self.chance.of(single), self.chance.of(single)
        return put(self.data, one.place + 12, number(self.data, other.place + 12))

    def end_token(self):
        """The structure block ends earlier or later than its end token."""
        how = self.chance.below(3)
        structure = self.data[self.begin : self.end]
        if how == 0:
            return self.with_structure(structure[: -4 * self.chance.between(1, 3)])
        if how == 1:
            return self.with_structure(structure + of_cells([self.chance.of([NOP, END, CLOSE, 0])]))
        return put(self.data, max(self.begin, self.end - 4), self.chance.of([NOP, CLOSE, 0, 8, 10]))


STEPS = {
    Damage.flip: 5,
    Damage.cell: 4,
    Damage.cut: 2,
    Damage.lengthen: 1,
    Damage.header: 3,
    Damage.tokens: 5,
    Damage.property: 3,
    Damage.name: 2,
    Damage.phandle: 3,
    Damage.end_token: 2,
}


def damaged(chance, data):
    """The blob after one to three steps; in a few cases a few bytes that were never one."""
    if chance.often(0.02):
        return chance.bytes(chance.below(60))
    for _ in range(chance.weighted({1: 6, 2: 2, 3: 1})):
        if len(data) < 40:
            break
        data = chance.weighted(STEPS)(Damage(chance, data))
    return data
