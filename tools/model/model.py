"""A model of lines, controllers and cascades, written from docs/LINES.md and docs/CONTROLLERS.md alone."""


class Refused(Exception):
    """A call that is refused, with its number."""

    def __init__(self, number):
        super().__init__(number)
        self.number = number


class Line:
    """The record of one line and its steps."""

    def __init__(self, sense):
        self.sense = sense
        self.reset()

    def reset(self):
        self.level = self.request = self.service = False
        self.mask = True

    def waits(self):
        return self.request and not self.service and not self.mask

    def drive(self, high):
        rises = high and not self.level
        falls = self.level and not high
        if rises and not (self.sense == "gated" and self.service):
            self.request = True
        if falls and self.sense == "following":
            self.request = False
        self.level = high

    def claim(self):
        if self.sense != "following":
            self.request = False
        self.service = True

    def complete(self):
        self.service = False
        if self.sense == "gated" and self.level:
            self.request = True

    def change_sense(self, sense):
        self.sense = sense
        self.level = self.request = False


class Kind:
    """What the three kinds have in common: all lines are open."""

    def __init__(self, width, sense):
        self.lines = [Line(sense) for _ in range(width)]

    def width(self):
        return len(self.lines)

    def line(self, i):
        if i >= self.width():
            raise Refused(25)
        return self.lines[i]

    def waiting(self):
        return [i for i, line in enumerate(self.lines) if line.waits()]

    def drive(self, i, high):
        self.line(i).drive(high)

    def change_mask(self, i, on):
        self.line(i).mask = on

    def change_sense(self, i, sense):
        if self.line(i).service:
            raise Refused(32)
        self.line(i).change_sense(sense)

    def complete(self, i):
        if not self.line(i).service:
            raise Refused(30)
        self.line(i).complete()

    def claim(self):
        named = self.offer()
        if named is not None:
            self.lines[named].claim()
        return named

    def reset(self):
        for line in self.lines:
            line.reset()


class I8259(Kind):
    """The lowest waiting line, unless a line below it is in service."""

    def __init__(self):
        super().__init__(8, "edge")

    def offer(self):
        for i, line in enumerate(self.lines):
            if line.waits():
                return i
            if line.service:
                return None
        return None


class Plic(Kind):
    """The waiting line of the largest priority, of several the lowest."""

    def __init__(self, priorities):
        super().__init__(len(priorities), "gated")
        self.priorities = priorities

    def offer(self):
        return min(self.waiting(), key=lambda i: (-self.priorities[i], i), default=None)


class StatusMux(Kind):
    """The lowest waiting line."""

    def __init__(self, width):
        super().__init__(width, "following")

    def offer(self):
        return min(self.waiting(), default=None)


class HighestFirst(Kind):
    """A kind of another make: eight lines of one sense, line 5 wired inside, and the highest waiting line, whatever is in service."""

    def __init__(self, sense):
        super().__init__(8, sense)

    def line(self, i):
        line = super().line(i)
        if i == 5:
            raise Refused(31)
        return line

    def offer(self):
        return max((i for i in self.waiting() if i != 5), default=None)


def question(parent, child, wired):
    """Why the child cannot be wired to that line of the parent, or none."""
    try:
        parent.line(wired)
    except Refused as refusal:
        return refusal.number
    return 33 if parent.width() + child.width() > 256 else None


class Cascade:
    """A pair of a parent and a child; or the parent alone, where the question refuses."""

    def __init__(self, parent, child, wired):
        self.paired = question(parent, child, wired) is None
        self.parent, self.child, self.wired = parent, child, wired
        self.reset()

    def reset(self):
        self.parent.reset()
        if self.paired:
            self.child.reset()
            self.parent.change_sense(self.wired, "following")
            self.parent.change_mask(self.wired, False)

    def width(self):
        return self.parent.width() + (self.child.width() if self.paired else 0)

    def part(self, i):
        """The part that has line i, and the line's number there."""
        if not self.paired:
            return self.parent, i
        if i == self.wired:
            raise Refused(31)
        if i < self.parent.width():
            return self.parent, i
        return self.child, i - self.parent.width()

    def line(self, i):
        part, n = self.part(i)
        return part.line(n)

    def tie(self):
        """The wired line is high exactly while the child has an offer."""
        self.parent.drive(self.wired, self.child.offer() is not None)

    def drive(self, i, high):
        part, n = self.part(i)
        part.drive(n, high)
        if part is self.child:
            self.tie()

    def change_mask(self, i, on):
        part, n = self.part(i)
        part.change_mask(n, on)
        if part is self.child:
            self.tie()

    def change_sense(self, i, sense):
        part, n = self.part(i)
        part.change_sense(n, sense)
        if part is self.child:
            self.tie()

    def complete(self, i):
        part, n = self.part(i)
        part.complete(n)
        if part is self.child:
            self.parent.complete(self.wired)
            self.tie()

    def offer(self):
        offered = self.parent.offer()
        if self.paired and offered == self.wired:
            return self.parent.width() + self.child.offer()
        return offered

    def claim(self):
        named = self.parent.claim()
        if self.paired and named == self.wired:
            named = self.parent.width() + self.child.claim()
            self.tie()
        return named


def open_lines(controller):
    """The open lines by number."""
    found = {}
    for i in range(controller.width()):
        try:
            found[i] = controller.line(i)
        except Refused:
            pass
    return found


def check(controller):
    """The two laws of a controller, and the tie of every pair in it."""
    lines = open_lines(controller)
    offered = controller.offer()
    assert offered is None or lines[offered].waits()
    serving = [line for line in lines.values() if line.service]
    assert offered is not None or serving or not any(line.waits() for line in lines.values())
    if isinstance(controller, Cascade):
        check(controller.parent)
    if isinstance(controller, Cascade) and controller.paired:
        check(controller.child)
        wired = controller.parent.line(controller.wired)
        below = [line for line in open_lines(controller.child).values() if line.service]
        assert (wired.sense, wired.mask) == ("following", False)
        assert wired.level == (controller.child.offer() is not None)
        assert len(below) == (1 if wired.service else 0)
