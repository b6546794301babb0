"""Which trees are compared, the lists of events for them, and the text of all comparisons."""

from itertools import product
from random import Random
from zlib import crc32

import example
from blob import cell
from boards import Board, Comparison, Plan, Side
from lists import Lists, mapped

LONG, SHORT = 200, 40

# Old and new tree; the same twice means two lists on one board. After `mapped` the new list has the calls of the old one, by path.
PAIRS = """
rig-flat rig-fan
rig-fan rig-chain
rig-chain rig-flat
rig-chain rig-fan
rig-flat rig-chain mapped
rig-fan rig-flat mapped
line-before line-after
line-after line-before mapped
timer-direct mux-timer
mux-timer mux-timer-room
mux-timer timer-direct mapped
8259a-over-8259a 8259a-over-8259a
8259a-over-mux mux-over-8259a
8259a-over-plic plic-over-8259a
mux-over-mux mux-over-mux
mux-over-plic controller-with-map
plic-over-plic plic-over-plic
one-8259a one-8259a
one-plic one-plic
one-plic-widest one-plic-widest
one-mux one-mux
one-mux-widest one-mux-widest
three-in-order three-backwards
switched-off three-in-order
three-rotated one-of-each
two-8259as two-8259as
two-muxes two-muxes
late-child four-branches
four-8259as four-8259as
four-backwards four-chain
four-chain four-smaller-first mapped
four-smaller-first four-star
four-star four-star-nop
four-mixed four-mixed-sorted
four-narrow four-narrow
four-stages four-stages
four-widest one-plic-widest
one-for-all same-number
carrier carrier
eight-rows eight-rows
empty-extended empty-extended
empty-lists empty-lists
empty-strings empty-strings
extended extended-tail
fieldbus fieldbus
first-kind first-kind
first-width first-width
full-board full-board
last-kind last-kind
many-phandles many-phandles
near-limit near-limit-full
nexus-cascade not-its-own
nexus-pci nexus-pci
nexus-to-three nexus-to-three
no-devices no-devices
own-interrupts own-interrupts
pc-isa pc-isa
pc-isa pc-isa-nop
pci-host pci-host
priorities-long-nop priorities-long-nop
riscv-guest riscv-guest
root-controller root-controller
"""

# Where one side or both have no board, or one without routes.
REFUSED = """
rig-flat inputs-0
kind-unknown rig-flat
rig-fan five-controllers
sense-4 rig-chain
routes-257 one-8259a
two-roots line-after
line-before shared-by-one
mezzanine carrier
extended mezzanine-nop
walk-before-input mux-timer
pc-isa cut-before-parents
two-roots kind-unknown
line-before line-cut
line-magic line-after
line-before line-version
line-blocks line-after
line-before line-token
line-rule line-after
line-before line-phandle
line-cut line-token
five-controllers line-rule
"""

# The kinds by their letters in the name of an ordered tree.
KINDS = {"8": "8259A", "p": "PLIC", "m": "mux"}

# Every order of one to four kinds, in placing order.
ORDERS = {kinds for count in range(1, 5) for kinds in product(KINDS.values(), repeat=count)}


def ordered():
    """The comparisons of the trees of every order, each tree in one: it and the next one have the same kinds."""
    orders = ["".join(letters) for count in range(1, 5) for letters in product(KINDS, repeat=count)]
    orders.sort(key=lambda order: (sorted(set(order)), len(order), sorted(order), order))
    return ["order-%s order-%s" % pair for pair in zip(orders[::2], orders[1::2])]


def damaged(data):
    """Blobs that opening refuses, made of the one of line-after."""

    def put(place, number):
        return data[:place] + number.to_bytes(4, "big") + data[place + 4 :]

    end = cell(data, 8) + cell(data, 36) - 4
    first = data.index(b"\0\0\0\1line\0")
    phandles = [at for at in range(cell(data, 8), end, 4) if is_phandle(data, at)]
    return {
        "line-cut": data[: len(data) // 2],
        "line-magic": put(0, 0xD00DFEEE),
        "line-version": put(20, 16),
        "line-blocks": put(32, cell(data, 32) + 4096),
        "line-token": put(first, 7),
        "line-rule": put(end - 4, 4),
        "line-phandle": put(phandles[1] + 12, cell(data, phandles[0] + 12)),
    }


def is_phandle(data, at):
    name = cell(data, 12) + cell(data, at + 8)
    return cell(data, at) == 3 and cell(data, at + 4) == 4 and data[name : name + 8] == b"phandle\0"


class Inspected:
    """The blobs of crates/inspect with the other reader's listings, and the damaged blobs."""

    def __init__(self, folder):
        names = (folder / "args").read_text().split()
        self.blobs = {name.removesuffix(".dtb"): (folder / "data" / name).read_bytes() for name in names}
        self.listings = {}
        waited = list(names)
        for line in (folder / "stdout").read_text().splitlines():
            if waited and line == waited[0] + ":":
                own = self.listings[waited.pop(0).removesuffix(".dtb")] = []
            else:
                own.append(line)
        assert not waited
        self.blobs.update(damaged(self.blobs["line-after"]))

    def side(self, word, name):
        return Side(word, self.blobs[name], self.listings.get(name, []))

    def accepted(self):
        return [name for name in self.listings if self.order(name)]

    def order(self, name):
        """The kinds of the board's controllers in placing order; none if there is no board."""
        return tuple(controller.kind for controller in Plan(self.listings[name]).placed)


class Compared:
    """The groups of four names, the lists of events, and the comparisons as they are run from the text of the lists."""

    def __init__(self, folder):
        self.inspected = Inspected(folder)
        self.groups, self.lists, self.comparisons = [], {}, []
        self.long_lists = set()
        self.add_example()
        for words in PAIRS.split("\n")[1:-1]:
            self.add(words, LONG)
        for words in ordered():
            self.add(words, LONG, at_once=True)
        for words in REFUSED.split("\n")[1:-1]:
            self.add(words, SHORT)
        assert self.long_lists == set(self.inspected.accepted())
        self.check_orders()
        for group in self.groups:
            self.comparisons.append(self.compare(group))

    def check_orders(self):
        """Every order of one to four kinds is that of a board with a long list; an ordered tree has the order of its name."""
        orders = {name: self.inspected.order(name) for name in self.long_lists}
        assert len(ORDERS) == 3 + 9 + 27 + 81 and set(orders.values()) == ORDERS
        for name, order in orders.items():
            if name.startswith("order-"):
                assert order == tuple(KINDS[letter] for letter in name.removeprefix("order-"))

    def add_example(self):
        for name, steps in example.LISTS.items():
            board = self.board(name.removesuffix("-late"))
            example.calls(steps, board)
            self.put(name, board)
        self.groups += example.COMPARISONS

    def board(self, name):
        """A board of the tree for which a list is made; where there is none, one without routes."""
        return self.inspected.side("old", name).board or Board(None, Plan())

    def put(self, name, board):
        assert name not in self.lists
        self.lists[name] = board.given()

    def add(self, words, size, at_once=False):
        names = words.split()
        old, new = self.board(names[0]), self.board(names[1])
        random = Random(crc32(words.encode())).random
        if names[2:] == ["mapped"]:
            Lists(random, old, self.board(names[1]), size)
            mapped(old, new)
        else:
            Lists(random, old, new, size, at_once)
        for name, board in zip(names, [old, new]):
            if len(board.events) >= LONG:
                self.long_lists.add(name)
            assert not at_once or all(board.history.claims)
        title = "-".join(names[:2] if names[0] != names[1] else [names[0], "twice"]) + "".join("-" + word for word in names[2:])
        self.put(title + ".old", old)
        self.put(title + ".new", new)
        self.groups.append((names[0], title + ".old", names[1], title + ".new"))

    def compare(self, group):
        old, new = self.inspected.side("old", group[0]), self.inspected.side("new", group[2])
        old.run(self.lists[group[1]])
        new.run(self.lists[group[3]])
        return Comparison(old, new)

    def files(self):
        """The files under crates/compare/ and their bytes."""
        used = sorted({name for group in self.groups for name in (group[0], group[2])})
        made = {"data/%s.dtb" % name: self.inspected.blobs[name] for name in used}
        made.update({"data/%s.events" % name: text.encode() for name, text in self.lists.items()})
        words = ["%s.dtb\n%s.events\n%s.dtb\n%s.events\n" % group for group in self.groups]
        made["args"] = "".join(words).encode()
        made["stdout"] = "".join(comparison.text() for comparison in self.comparisons).encode()
        return made
