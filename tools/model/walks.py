"""Random walks: shapes of cascades, calls on them, and the text that the calls give by the model."""

from random import Random

from model import Cascade, I8259, Plic, Refused, StatusMux, check, open_lines, question

# Each form says how the leaves are paired: a pair is (parent, child), and 0 is a leaf.
FORMS = {
    "left1": 0,
    "left2": (0, 0),
    "left3": ((0, 0), 0),
    "left4": (((0, 0), 0), 0),
    "left5": ((((0, 0), 0), 0), 0),
    "right3": (0, (0, 0)),
    "right4": (0, (0, (0, 0))),
    "pairs": ((0, 0), (0, 0)),
}

SENSES = ["edge", "following", "gated"]


def leaf(word):
    """A new controller: `8259`, `plic:` and a digit a line, its priority, or `mux:` and the width."""
    kind, _, rest = word.partition(":")
    if kind == "8259":
        return I8259()
    if kind == "plic":
        return Plic([int(digit) for digit in rest])
    return StatusMux(int(rest))


def use(controller):
    """Calls on a controller before it is joined, so that a join finds lines in every state."""
    for i in range(controller.width()):
        make(controller, SENSES[i % 3], i)
        make(controller, "unmask", i)
        make(controller, "high", i)
    controller.claim()


def make(controller, call, i):
    """A call on line i; answers the number of its refusal, or none."""
    try:
        if call in ("high", "low"):
            controller.drive(i, call == "high")
        elif call in ("mask", "unmask"):
            controller.change_mask(i, call == "mask")
        elif call in SENSES:
            controller.change_sense(i, call)
        else:
            controller.complete(i)
    except Refused as refusal:
        return refusal.number
    return None


def record(controller, i):
    """Five letters, one a field, or the number of the refusal."""
    try:
        line = controller.line(i)
    except Refused as refusal:
        return str(refusal.number)
    letters = [line.sense[0], "h" if line.level else "l"]
    for letter, is_set in (("r", line.request), ("s", line.service), ("m", line.mask)):
        letters.append(letter if is_set else "-")
    return "".join(letters)


def offer(controller):
    offered = controller.offer()
    return "none" if offered is None else str(offered)


def state(controller):
    return [record(controller, i) for i in range(controller.width())]


def run(controller, call):
    """The line of text that a call gives. What a call may change is checked on the way."""
    before, offered = state(controller), offer(controller)
    word, _, number = call.partition(" ")
    changed = set()
    if word == "all":
        text = " ".join(before)
    elif word == "reset":
        controller.reset()
        changed = set(range(controller.width()))
        text = "done; offer %s" % offer(controller)
    elif word == "claim":
        named = controller.claim()
        assert offered == ("none" if named is None else str(named))
        changed = set() if named is None else {named}
        text = "none; offer none" if named is None else "%d; offer %s; %s" % (named, offer(controller), record(controller, named))
    else:
        i = int(number)
        refusal = make(controller, word, i)
        changed = {i} if refusal is None else set()
        answer = "done" if refusal is None else "refused %d" % refusal
        text = "%s; offer %s; %s" % (answer, offer(controller), record(controller, i))
    check(controller)
    after = state(controller)
    assert all(i in changed or before[i] == after[i] for i in range(controller.width()))
    assert changed or offer(controller) == offered
    return "%s: %s" % (call, text)


class Walk:
    """One shape and the calls made on it: `given` is what the program reads, `expected` what it prints."""

    def __init__(self, random, form, leaves, wires=()):
        self.random = random
        self.wires = list(wires)
        self.words = []
        self.joins = []
        self.controller = self.build(FORMS[form], iter(leaves))
        head = " ".join(["#", form] + self.words)
        width = self.controller.width()
        self.given = [head]
        self.expected = [head] + self.joins + ["width %d" % width]
        self.busy = self.choose_busy([leaf(word).width() for word in leaves])
        check(self.controller)

    def pick(self, items):
        return items[int(self.random() * len(items))]

    def build(self, form, leaves):
        """The controller of a form. A join is a line number, after `*` where both parts were used before."""
        if form == 0:
            self.words.append(next(leaves))
            return leaf(self.words[-1])
        parent = self.build(form[0], leaves)
        child = self.build(form[1], leaves)
        word = self.wires.pop(0) if self.wires else ""
        if word in ("", "*"):
            word += str(self.pick(list(open_lines(parent))))
        if word[0] == "*":
            use(parent)
            use(child)
        wired = int(word.lstrip("*"))
        refusal = question(parent, child, wired)
        self.words.append(word)
        self.joins.append("join %s: %s" % (word, "done" if refusal is None else "refused %d" % refusal))
        return Cascade(parent, child, wired)

    def choose_busy(self, widths):
        """A few open lines of each leaf, on which most calls are made."""
        lines = open_lines(self.controller)
        busy = set()
        start = 0
        for width in widths:
            own = [i for i in range(start, start + width) if i in lines]
            busy.update(self.pick(own) for _ in range(4) if own)
            start += width
        return sorted(busy)

    def call(self, text):
        self.given.append(text)
        self.expected.append(run(self.controller, text))

    def line_where(self, wanted):
        """Mostly a busy line in a wanted state, if there is one; else any line."""
        lines = open_lines(self.controller)
        fitting = [i for i in self.busy if wanted(lines[i])]
        if fitting and self.random() < 0.9:
            return self.pick(fitting)
        return self.pick(range(self.controller.width()))

    def stray(self):
        """A line out of range or, where there is one, a wired line."""
        width = self.controller.width()
        lines = open_lines(self.controller)
        wired = [i for i in range(width) if i not in lines]
        return self.pick(wired + wired + [width, width + 1, 300, 2**64 - 1])

    def random_call(self):
        """Mostly a call that is accepted and changes something; now and then any other."""
        serving = [i for i, line in open_lines(self.controller).items() if line.service]
        offered = self.controller.offer() is not None
        chance = self.random()
        if chance < 0.02:
            return "complete %d" % self.line_where(lambda line: not line.service)
        if chance < 0.05:
            return "mask %d" % self.line_where(lambda line: not line.mask)
        if chance < 0.08:
            return "%s %d" % (self.pick(SENSES), self.line_where(lambda line: True))
        if chance < 0.11:
            return "%s %d" % (self.pick(["high", "low"]), self.line_where(lambda line: line.service))
        if chance < 0.14:
            calls = ["high", "low", "mask", "unmask", "complete"] + SENSES
            return "%s %d" % (self.pick(calls), self.stray())
        if chance < 0.145:
            return "reset"
        if chance < 0.35 and (offered or self.random() < 0.2):
            return "claim"
        if chance < 0.55 and serving:
            return "complete %d" % self.pick(serving)
        if self.random() < 0.4:
            return "unmask %d" % self.line_where(lambda line: line.mask)
        if self.random() < 0.7:
            return "high %d" % self.line_where(lambda line: not line.level)
        return "low %d" % self.line_where(lambda line: line.level)

    def go(self, count, every):
        """That many random calls, with the records of all lines after some of them and at the end."""
        for done in range(1, count + 1):
            self.call(self.random_call())
            if done % every == 0 or done == count or self.given[-1] == "reset":
                self.call("all")
        return self


def digits(random, width, top):
    """Priorities from 1 to top, a digit a line."""
    return "plic:" + "".join(str(1 + int(random() * top)) for _ in range(width))


def some_leaf(random, kind):
    if kind == "8259":
        return "8259"
    if kind == "plic":
        return digits(random, 1 + int(random() * 12), 1 if random() < 0.3 else 7)
    return "mux:%d" % (1 + int(random() * 12))


def lone(random):
    for word in [
        "8259",
        "plic:4",
        digits(random, 5, 1),
        digits(random, 12, 2),
        digits(random, 64, 7),
        "plic:1234567",
        "plic:7654321",
        "mux:1",
        "mux:7",
        "mux:32",
    ]:
        yield Walk(random, "left1", [word]).go(120, 20)


def pairs(random):
    kinds = ["8259", "plic", "mux"]
    for parent in kinds:
        for child in kinds:
            for wire in ["", "*"]:
                yield Walk(random, "left2", [some_leaf(random, parent), some_leaf(random, child)], [wire]).go(110, 25)
    yield Walk(random, "left2", ["mux:1", "mux:1"]).go(60, 20)
    yield Walk(random, "left2", ["plic:3", "8259"]).go(60, 20)
    yield Walk(random, "left2", ["mux:32", digits(random, 64, 7)]).go(110, 30)
    yield Walk(random, "left2", [digits(random, 64, 3), "mux:32"]).go(110, 30)


def deep(random):
    kinds = ["8259", "plic", "mux"]
    for form in ["left3", "right3", "left4", "right4", "pairs"]:
        count = 3 if form[-1] == "3" else 4
        for turn in range(7):
            leaves = [some_leaf(random, kinds[int(random() * 3)]) for _ in range(count)]
            yield Walk(random, form, leaves, ["*"] * (turn % 2) * count).go(110, 30)
    wide = [digits(random, 64, 7) for _ in range(4)]
    for form in ["left4", "pairs", "right4"]:
        yield Walk(random, form, wide).go(100, 50)


def refused(random):
    """Joins that the question refuses: the parent is alone."""
    wide = [digits(random, 64, 7) for _ in range(4)]
    for form, leaves, wires in [
        ("left2", ["8259", "plic:55"], ["8"]),
        ("left2", ["plic:123", "mux:4"], ["*3"]),
        ("left2", ["mux:1", "8259"], ["18446744073709551615"]),
        ("left3", ["8259", "mux:3", "plic:21"], ["2", "2"]),
        ("left3", ["plic:4242", "8259", "mux:2"], ["1", "*1"]),
        ("left3", ["mux:4", "mux:3", "8259"], ["0", "7"]),
        ("left3", ["8259", "8259", "8259"], ["8", "5"]),
        ("left3", ["8259", "8259", "8259"], ["*300", "*5"]),
        ("right3", ["8259", "plic:77", "mux:2"], ["2", "4"]),
        ("left4", ["plic:1", "plic:2", "mux:2", "8259"], ["0", "0", "1"]),
        ("left4", ["mux:2", "8259", "plic:252", "mux:2"], ["0", "2", "2"]),
        ("pairs", ["8259", "mux:2", "plic:34", "8259"], ["3", "0", "3"]),
        ("left5", wide + ["mux:1"], ["63", "127", "191", "255"]),
        ("left5", wide + ["plic:7"], ["0", "1", "2", "*0"]),
        ("left5", wide + ["8259"], ["0", "1", "2", "256"]),
        ("left5", wide[:3] + ["mux:32", "8259"], ["9", "5", "70", "*7"]),
        ("left5", wide[:3] + [digits(random, 57, 7), "8259"], ["9", "5", "70", "*7"]),
        ("left5", wide[:3] + [digits(random, 56, 7), "8259"], ["9", "5", "70", "*7"]),
    ]:
        yield Walk(random, form, leaves, wires).go(80, 40)


FILES = [
    ("lone.txt", 101, "Lone controllers", lone),
    ("pairs.txt", 102, "A controller cascaded into another", pairs),
    ("deep.txt", 103, "Cascades of three and four controllers", deep),
    ("refused.txt", 104, "Joins that are refused, so that the parent is alone", refused),
]

HEAD = """%s: %d walks, %d calls, written by tools/model/rebuild with seed %d.
A walk begins with its form, leaves and joins. A leaf is 8259, plic with the priority of each line, or mux with its width. A
join stands behind its parent and its child, and is the parent's line, after * where both were used before.
"""


def texts():
    """The files of walks, name and text, and what the program has to print of them."""
    given, expected = {}, []
    for name, seed, title, make_walks in FILES:
        walks = list(make_walks(Random(seed).random))
        calls = sum(len(walk.given) - 1 for walk in walks)
        lines = [line for walk in walks for line in walk.given]
        given[name] = HEAD % (title, len(walks), calls, seed) + "\n".join(lines) + "\n"
        expected += [name] + [line for walk in walks for line in walk.expected]
    return given, "\n".join(expected) + "\n"
