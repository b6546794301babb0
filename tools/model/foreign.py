"""Boards with controllers of another make: what crates/foreign_boards is run on and has to print.

A part is a leaf of walks.py; `highest` and the sense that it is made with; the same after `used`, on which calls were made before; or
a parent, a child and the parent's line, which are one part. The cases stand in the same order in crates/foreign_boards/src.
"""

from random import Random
from zlib import crc32

from blob import Tree
from boards import Board, Plan, Side, asked_for, bits, check_law, question
from lists import Lists
from model import Cascade, HighestFirst, I8259, Plic, StatusMux
from walks import leaf

EDGE, FOLLOWING, GATED, USED = "highest:edge", "highest:following", "highest:gated", "used:edge"


def plic(lines):
    """All of one priority."""
    return "plic:" + "1" * lines


# Each two are one part, of sixteen and of ten lines.
UNDER = ("mux:8", EDGE, 7)
TEN = (FOLLOWING, "mux:2", 3)

FAN = [(EDGE, "mux:4", 2), EDGE, "mux:5", GATED]
ROOM = ["8259", (EDGE, "mux:4", 2), "mux:6"]
LINE = ["plic:21317113", GATED, "mux:6"]
CHAIN = ["mux:3", plic(4), FOLLOWING, "mux:3"]
FOUR = [EDGE, FOLLOWING, GATED, USED]
BUS = [plic(10), "mux:4", (EDGE, GATED, 0), "mux:1"]

QUESTIONS = [
    # No specifier ends at a line that is wired. Past the tree's count any width will do.
    ("empty-strings", [EDGE]),
    ("empty-strings", [plic(8)]),
    ("four-8259as", FOUR),
    ("rig-chain", CHAIN),
    ("rig-fan", FAN),
    ("mux-timer", ROOM),
    ("line-after", LINE),
    ("riscv-guest", [UNDER]),
    ("fieldbus", BUS),
    ("rig-fan", [plic(12), EDGE, "mux:5", ("mux:3", "mux:5", 0)]),
    ("same-number", [plic(4), plic(4), "mux:4", EDGE]),
    ("empty-strings", [GATED, plic(64), "mux:1", (EDGE, GATED, 0)]),
    # A device's specifier ends at a wired line: of the first, the second, the third, the fourth.
    ("one-8259a", [EDGE]),
    ("line-before", [GATED]),
    ("nexus-pci", [EDGE, plic(8)]),
    ("riscv-guest", [(EDGE, GATED, 0)]),
    ("timer-direct", ["8259", EDGE]),
    ("carrier", [plic(32), EDGE]),
    ("fieldbus", [plic(10), "mux:4", (EDGE, GATED, 1), "mux:1"]),
    ("rig-fan", [plic(12), EDGE, "mux:5", ("mux:3", "mux:5", 1)]),
    # A child is cascaded at a wired line: of the first, twice of the second.
    ("mux-timer", [EDGE, plic(12), "mux:6"]),
    ("mux-timer", ["8259", (EDGE, "mux:4", 6), "mux:6"]),
    ("rig-chain", ["mux:3", ("mux:2", "mux:2", 1), EDGE, "mux:3"]),
    # A width: of the first, the second, the third, the fourth. At line 5 no pair can be made: its parent alone is too narrow, or as
    # wide as it is to be.
    ("empty-strings", ["mux:4"]),
    ("empty-strings", [(EDGE, GATED, 0)]),
    ("no-devices", [plic(4), EDGE]),
    ("rig-fan", [(EDGE, "mux:4", 2), "mux:7", "mux:5", EDGE]),
    ("rig-chain", ["mux:3", plic(4), plic(9), "mux:3"]),
    ("rig-chain", ["mux:3", plic(4), EDGE, EDGE]),
    ("mux-timer", ["8259", (EDGE, "mux:4", 5), "mux:6"]),
    ("empty-strings", [(EDGE, "mux:4", 5)]),
    # The tree has a refusal of its own, whatever the parts.
    ("inputs-0", [EDGE]),
    ("kind-unknown", ["mux:4", EDGE]),
    ("five-controllers", FOUR),
    ("sense-4", [EDGE]),
    ("routes-257", [(EDGE, GATED, 0)]),
    ("two-roots", [EDGE, EDGE]),
    ("shared-by-one", ["mux:1"]),
]

BOARDS = [
    ("empty-strings", [EDGE]),
    ("riscv-guest", [UNDER]),
    ("line-after", LINE),
    ("8259a-over-mux", [EDGE, "mux:5"]),
    ("four-8259as", FOUR),
    ("nexus-to-three", [FOLLOWING, EDGE, GATED]),
    ("mux-timer", ROOM),
    ("fieldbus", BUS),
    ("plic-over-8259a", [TEN, EDGE]),
    ("8259a-over-plic", ["8259", TEN]),
    ("rig-fan", FAN),
    ("one-8259a", [EDGE]),
]

# None: the parts that the tree asks for.
COMPARISONS = [
    ("rig-fan", None, "rig-fan", FAN),
    ("line-before", None, "line-after", LINE),
    ("four-8259as", None, "four-8259as", FOUR),
    ("riscv-guest", None, "riscv-guest", [UNDER]),
    ("timer-direct", None, "mux-timer", ROOM),
    ("rig-chain", CHAIN, "rig-fan", FAN),
    ("line-after", LINE, "line-after", [(EDGE, FOLLOWING, 5), EDGE, "mux:6"]),
    ("rig-flat", None, "one-8259a", [EDGE]),
]

BOARD_EVENTS, EVENTS = 60, 200


def made(word):
    """A new controller."""
    if isinstance(word, tuple):
        parent, child, wired = word
        return Cascade(made(parent), made(child), wired)
    kind, _, sense = word.partition(":")
    if kind == "used":
        return used(HighestFirst(sense))
    return HighestFirst(sense) if kind == "highest" else leaf(word)


def used(chip):
    """With line 7 in service and line 6 waiting."""
    for i in (7, 6):
        chip.change_mask(i, False)
        chip.drive(i, True)
    assert chip.claim() == 7 and chip.offer() == 6
    return chip


def make(controller):
    """What it is, and its width."""
    makes = {HighestFirst: "highest first", I8259: "8259A", Plic: "PLIC", StatusMux: "mux", Cascade: "pair"}
    return "%s %d" % (makes[type(controller)], controller.width())


def route_line(route):
    """`route N node P specifier I controller C input X line L sense S`, from a line of the listing."""
    return "route %d node %d specifier %d controller %d input %d line %d sense %s" % (
        route.number, route.node, route.index, route.controller, route.input, route.line, route.sense
    )


class Foreign(Side):
    """One side: a tree, four parts, and the board, without routes where the question has a refusal."""

    def __init__(self, inspected, word, name, words):
        self.word = word
        tree = Tree(inspected.blobs[name])
        plan = Plan(inspected.listings[name])
        parts = asked_for(tree, plan) if words is None else [made(one) for one in words]
        parts += [I8259() for _ in range(4 - len(parts))]
        self.refusal = question(plan, parts)
        self.head = "%s: %s" % (name, ", ".join(make(part) for part in parts))
        self.board = Board(tree, Plan() if self.refusal else plan, parts)

    def asked(self):
        """The tree and the parts, and the question."""
        return [self.head, "question " + ("refused: " + self.refusal if self.refusal else "accepted")]

    def route_lines(self):
        return ["routes %d" % len(self.routes())] + [route_line(route) for route in self.routes()]

    def devices(self):
        return [self.device(i) for i in range(len(self.routes()))]


def offer(board):
    offered = board.offered()
    return "none" if offered is None else str(offered)


def run_one(side, text):
    """A board with the offer after each event."""
    lines = side.asked() + side.route_lines() + ["offer " + offer(side.board)]
    for n, call in enumerate(text.splitlines()):
        side.run(call)
        lines.append("%s %d %s, offer %s" % (side.word, n, side.events()[-1].text(), offer(side.board)))
    return lines + side.devices()


def same(one, other):
    return "same" if one == other else "other"


def pair(old, i, new, j):
    """Of two devices of one sense: own steps and record (clause 3), changes and claims (clause 4)."""
    one, other = old.board.history, new.board.history
    return "old %d, new %d: steps %s, record %s, changes %s, claims %s" % (
        i, j,
        same(one.own[i], other.own[j]),
        same(bits(old.board.record(i)), bits(new.board.record(j))),
        same(one.changes(i), other.changes(j)),
        same(one.claims[i], other.claims[j]),
    )


def pairs(old, new):
    check_law(old, new)
    numbers = [(i, j) for i in range(len(old.routes())) for j in range(len(new.routes()))]
    return [pair(old, i, new, j) for i, j in numbers if old.sense(i) == new.sense(j)]


class Shown:
    """The blobs and lists of events in crates/foreign_boards/data, and the text."""

    def __init__(self, inspected):
        self.inspected = inspected
        self.used, self.lists, self.lines = set(), {}, []
        for name, words in QUESTIONS:
            side = self.side("asked", name, words)
            self.lines += side.asked() + side.route_lines()
        for name, words in BOARDS:
            self.show_board(name, words)
        for case in COMPARISONS:
            self.compare(*case)

    def side(self, word, name, words):
        self.used.add(name)
        return Foreign(self.inspected, word, name, words)

    def make_lists(self, title, old, new, size):
        """Two lists of events, each for one of the boards of two cases."""
        boards = [self.side("list", *case).board for case in (old, new)]
        Lists(Random(crc32(title.encode())).random, *boards, size)
        return [board.given() for board in boards]

    def put(self, title, text):
        assert title not in self.lists
        self.lists[title] = text

    def show_board(self, name, words):
        case = (name, words)
        text = self.make_lists(name, case, case, BOARD_EVENTS)[0]
        self.put(name, text)
        self.lines += run_one(self.side("board", *case), text)

    def compare(self, old_name, old_words, new_name, new_words):
        title = "%s-%s" % (old_name, new_name)
        texts = self.make_lists(title, (old_name, old_words), (new_name, new_words), EVENTS)
        sides = [self.side("old", old_name, old_words), self.side("new", new_name, new_words)]
        for side, text in zip(sides, texts):
            self.put(title + "." + side.word, text)
            side.run(text)
        for part in (Foreign.asked, Foreign.route_lines, Foreign.answers, Foreign.devices):
            self.lines += part(sides[0]) + part(sides[1])
        self.lines += pairs(*sides)

    def files(self):
        """The files under crates/foreign_boards/ and their bytes."""
        made = {"data/%s.dtb" % name: self.inspected.blobs[name] for name in sorted(self.used)}
        made.update({"data/%s.events" % title: text.encode() for title, text in self.lists.items()})
        made["stdout"] = "".join(line + "\n" for line in self.lines).encode()
        return made
