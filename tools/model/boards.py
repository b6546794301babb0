"""Boards and comparisons of two, written from docs/BOARDS.md, docs/LINES.md and docs/REFUSALS.md.

The plan of a tree is read from the other reader's listing, a PLIC's priorities from the blob. A board is the cascade of
model.py with a route's line behind each route number. A history is read off the events and answers alone.
"""

from blob import Refusal, Tree, cells
from model import Cascade, I8259, Line, Plic, Refused, StatusMux, check, open_lines


class Controller:
    """A line `controller N KIND width W at PLACE lines B to E root`, or `.. cascaded at line K`."""

    def __init__(self, text):
        words = text.split(" ")
        self.number, self.kind, self.width = int(words[1]), words[2], int(words[4])
        self.place, self.first, self.last = int(words[6]), int(words[8]), int(words[10])
        self.wired = None if words[11] == "root" else int(words[14])


class Route:
    """A line `device N node P specifier I controller C input X line L sense S PATH`."""

    def __init__(self, text):
        words = text.split(" ", 14)
        self.number, self.node, self.index, self.controller = int(words[1]), int(words[3]), int(words[5]), int(words[7])
        self.input, self.line, self.sense, self.path = int(words[9]), int(words[11]), words[13], words[14]
        self.key = (self.path, self.index)


class Plan:
    """The plan of a tree, or its refusal, which leaves it without controllers and routes. Without a listing it has neither."""

    def __init__(self, listing=()):
        refused = [text for text in listing if text.startswith("board refused: ")]
        self.refusal = refused[0].partition(": ")[2] if refused else None
        controllers = [Controller(text) for text in listing if text.startswith("controller ")]
        self.routes = [Route(text) for text in listing if text.startswith("device ")]
        self.placed = sorted(controllers, key=lambda controller: controller.first)
        assert refused == [] or controllers == self.routes == []
        if controllers:
            self.check(controllers)

    def check(self, controllers):
        """What docs/BOARDS.md says of every plan."""
        assert [controller.number for controller in controllers] == list(range(len(controllers)))
        assert [route.number for route in self.routes] == list(range(len(self.routes)))
        parents = {}
        lines = 0
        for n, controller in enumerate(self.placed):
            before = self.placed[:n]
            assert controller.first == lines and controller.last == lines + controller.width - 1
            assert (controller.wired is None) == (n == 0)
            if n > 0:
                above = [one.number for one in before if one.first <= controller.wired <= one.last]
                assert len(above) == 1
                parents[controller.number] = above[0]
            lines += controller.width
        placed = [controller.number for controller in self.placed]
        for n in range(1, len(placed)):
            ready = [one for one in parents if one not in placed[:n] and parents[one] in placed[:n]]
            assert placed[n] == min(ready)
        wired = [controller.wired for controller in self.placed[1:]]
        taken = wired + [route.line for route in self.routes]
        assert len(set(taken)) == len(taken)
        for route in self.routes:
            owner = controllers[route.controller]
            assert 0 <= route.input < owner.width and route.line == owner.first + route.input


def priorities(tree, controller):
    found = tree.node_at(controller.place).find("factory,priorities")
    given = [1] * controller.width if found is None else cells(found[1])
    assert len(given) == controller.width and all(1 <= priority <= 7 for priority in given)
    return given


def part(tree, controller):
    """A controller as the tree asks for it."""
    if controller.kind == "8259A":
        assert controller.width == 8
        return I8259()
    if controller.kind == "PLIC":
        return Plic(priorities(tree, controller))
    assert controller.kind == "mux"
    return StatusMux(controller.width)


def asked_for(tree, plan):
    """The controllers that a tree asks for, in placing order."""
    return [part(tree, controller) for controller in plan.placed]


def question(plan, parts):
    """Why a board of a tree and these parts, of any make, has no routes, or none: the tree's refusal, or 23."""
    if plan.refusal:
        return plan.refusal
    ends = [(route.controller, route.input) for route in plan.routes]
    for controller in plan.placed[1:]:
        above = next(one for one in plan.placed if one.first <= controller.wired <= one.last)
        ends.append((above.number, controller.wired - above.first))
    for controller, part in zip(plan.placed, parts):
        taken = [i for number, i in ends if number == controller.number]
        if part.width() != controller.width or any(i not in open_lines(part) for i in taken):
            return "layer 4, number 23, node 0, property 0"
    return None


def assembled(plan, parts):
    """The parts in placing order, each cascaded into all before it; the senses of the routes set."""
    whole = parts[0]
    for controller, part in zip(plan.placed[1:], parts[1:]):
        whole = Cascade(whole, part, controller.wired)
        assert whole.paired
    whole.reset()
    for route in plan.routes:
        whole.change_sense(route.line, route.sense)
    return whole


def wired_lines(plan, parts):
    """The lines of a board that are not open: where a controller is cascaded, and those that a part itself has not open."""
    wired = {controller.wired for controller in plan.placed[1:]}
    for controller, part in zip(plan.placed, parts):
        own = open_lines(part)
        wired |= {controller.first + i for i in range(controller.width) if i not in own}
    return wired


LETTERS = {"H": True, "L": False, "M": True, "U": False}


class Event:
    """A call and its answer: none for a claim that names none, a route for one that names it, "done", or a refusal."""

    def __init__(self, letter, route, answer):
        self.letter, self.route, self.answer = letter, route, answer

    def given(self):
        """The call as a line of an events file."""
        return "%s%5d" % (self.letter, self.route)

    def text(self):
        """The call and its answer."""
        if self.letter == "C":
            return "C none" if self.answer is None else "C named %d" % self.answer
        answer = "done" if self.answer == "done" else "refused %d" % self.answer
        return "%s %d %s" % (self.letter, self.route, answer)


class Board:
    """A board, clean when made, over these parts of any make; over those that the tree asks for, where none are given. Every call is
    put down as an event, and the history is kept beside the controllers."""

    CHECKED_EVERY = 1

    def __init__(self, tree, plan, parts=None):
        self.plan = plan
        self.routes = plan.routes
        parts = asked_for(tree, plan) if parts is None else parts
        self.wired = wired_lines(plan, parts)
        self.whole = assembled(plan, parts) if plan.placed else None
        self.numbers = {route.line: route.number for route in self.routes}
        self.events = []
        self.history = History([route.sense for route in self.routes])
        self.check()

    def record(self, i):
        return self.whole.line(self.routes[i].line)

    def offered(self):
        line = None if self.whole is None else self.whole.offer()
        return None if line is None else self.numbers[line]

    def run(self, text):
        """Makes the calls of an events file."""
        for given in text.splitlines():
            assert len(given) == 6
            self.call(given[0], int(given[1:]))

    def given(self):
        """The calls of the events as an events file."""
        return "".join(event.given() + "\n" for event in self.events)

    def serving(self):
        return [i for i in range(len(self.routes)) if self.record(i).service]

    def call(self, letter, i=0):
        """One call, with its answer put down and checked."""
        answer = self.claim() if letter == "C" else self.change(letter, i)
        event = Event(letter, i, answer)
        self.history.take(event)
        self.events.append(event)
        if len(self.events) % self.CHECKED_EVERY == 0:
            self.check()
        return answer

    def claim(self):
        line = None if self.whole is None else self.whole.claim()
        return None if line is None else self.numbers[line]

    def change(self, letter, i):
        if i >= len(self.routes):
            return 24
        line = self.routes[i].line
        try:
            if letter in "HL":
                self.whole.drive(line, LETTERS[letter])
            elif letter in "MU":
                self.whole.change_mask(line, LETTERS[letter])
            else:
                self.whole.complete(line)
        except Refused as refusal:
            return refusal.number
        return "done"

    def check(self):
        """The laws and the tie of the cascade; the records are how the devices stand (clause 2); clause 1."""
        if self.whole is None:
            assert self.routes == []
            return
        check(self.whole)
        lines = open_lines(self.whole)
        for i, route in enumerate(self.routes):
            assert route.number == i and lines[route.line].sense == route.sense
            assert fields(lines[route.line]) == fields(self.history.standing[i])
        for line, record in lines.items():
            assert line in self.numbers or (record.mask and not record.service)
        assert {i for i in range(self.whole.width()) if i not in lines} == self.wired


def fields(line):
    return (line.sense, line.level, line.request, line.service, line.mask)


def rests(line):
    return line.mask or not (line.request or line.service)


class History:
    """What events and answers alone tell of each device (docs/LINES.md)."""

    def __init__(self, senses):
        self.standing = [Line(sense) for sense in senses]
        self.own = [[] for _ in senses]
        self.claims = [0 for _ in senses]
        self.kept = [True for _ in senses]

    def take(self, event):
        assert self.fair(event)
        if event.letter == "C":
            if event.answer is not None:
                self.own[event.answer].append("claim")
                self.claims[event.answer] += 1
                self.standing[event.answer].claim()
        elif event.answer == "done":
            self.step(event.letter, event.route)

    def step(self, letter, i):
        line = self.standing[i]
        self.own[i].append(letter)
        if letter != "E" and not rests(line):
            self.kept[i] = False
        if letter in "HL":
            line.drive(LETTERS[letter])
        elif letter in "MU":
            line.mask = LETTERS[letter]
        else:
            line.complete()

    def fair(self, event):
        """Whether the answer is fair, the devices standing as the events before it say."""
        waiting = [line.waits() for line in self.standing]
        below = event.route < len(self.standing)
        if event.letter == "C":
            if event.answer is not None:
                return waiting[event.answer]
            return any(line.service for line in self.standing) or not any(waiting)
        if event.letter == "E" and below:
            return event.answer == ("done" if self.standing[event.route].service else 30)
        return event.answer == ("done" if below else 24)

    def changes(self, i):
        return tuple(step for step in self.own[i] if step in LETTERS)

    def kept_up(self, i):
        return self.kept[i] and rests(self.standing[i])


class Side:
    """One of the two: a blob, its board if it has one, and the events that were run on it."""

    def __init__(self, word, data, listing):
        self.word = word
        self.refusal = None
        self.board = None
        try:
            tree = Tree(data)
        except Refusal as refusal:
            self.refusal = refusal.text
            return
        plan = Plan(listing)
        self.refusal = plan.refusal
        self.board = Board(tree, plan)

    def run(self, text):
        if self.board:
            self.board.run(text)

    def routes(self):
        return self.board.routes if self.board else []

    def events(self):
        return self.board.events if self.board else []

    def keys(self):
        """The first route of each path and index."""
        first = {}
        for route in self.routes():
            first.setdefault(route.key, route.number)
        return first

    def answers(self):
        return ["%s %d %s" % (self.word, n, event.text()) for n, event in enumerate(self.events())]

    def text(self):
        lines = ["%s refused: %s" % (self.word, self.refusal)] if self.refusal else []
        return lines + self.answers()

    def sense(self, i):
        return self.routes()[i].sense

    def device(self, i):
        """`old ROUTE SENSE claims N kept yes record LRSM`, from the controllers' record."""
        record = self.board.record(i)
        kept = "yes" if self.board.history.kept_up(i) else "no"
        claims = self.board.history.claims[i]
        return "%s %d %s claims %d kept %s record %s" % (self.word, i, record.sense, claims, kept, bits(record))


def bits(record):
    return "".join("01"[field] for field in fields(record)[1:])


def by_law(old, i, new, j):
    """Whether clause 3 or clause 4 of the law speaks of device i of old and j of new."""
    if old.sense(i) != new.sense(j):
        return False
    one, other = old.board.history, new.board.history
    if one.own[i] == other.own[j]:
        return True
    kept = one.kept_up(i) and other.kept_up(j)
    return old.sense(i) == "edge" and kept and one.changes(i) == other.changes(j)


def verdict(old, i, new, j):
    if old.sense(i) != new.sense(j):
        return "changed sense"
    if old.board.history.claims[i] != new.board.history.claims[j]:
        return "changed claims"
    if bits(old.board.record(i)) != bits(new.board.record(j)):
        return "changed record"
    return "unchanged"


def check_law(old, new):
    """Clauses 3 and 4, of every device of old and every one of new, matched or not."""
    records, counts = {}, {}
    for side in (old, new):
        for i in range(len(side.routes())):
            history = side.board.history
            alike = (side.sense(i), tuple(history.own[i]))
            records.setdefault(alike, set()).add(bits(side.board.record(i)))
            if side.sense(i) == "edge" and history.kept_up(i):
                counts.setdefault(history.changes(i), set()).add(history.claims[i])
    assert all(len(found) == 1 for found in records.values())
    assert all(len(found) == 1 for found in counts.values())


class Comparison:
    """Two sides whose events were run, and the text of their comparison."""

    def __init__(self, old, new):
        assert (old.word, new.word) == ("old", "new")
        self.old, self.new = old, new
        check_law(old, new)
        self.verdicts = []
        self.lines = old.text() + new.text()
        theirs = new.keys()
        for route in old.routes():
            if route.key in theirs:
                self.matched(route, theirs[route.key])
            else:
                self.alone(old, route, "removed")
        for route in new.routes():
            if route.key not in old.keys():
                self.alone(new, route, "added")
        changed = ["%s %d" % key for key, found in self.verdicts if not found.startswith("unchanged")]
        said = " changed for: " + ", ".join(changed) if changed else ": unchanged"
        self.lines.append("guest timekeeping" + said)

    def put(self, route, parts, found):
        self.verdicts.append((route.key, found))
        self.lines.append("device %s %d: %s: %s" % (route.path, route.index, ", ".join(parts), found))

    def matched(self, route, j):
        i = route.number
        found = verdict(self.old, i, self.new, j)
        if by_law(self.old, i, self.new, j):
            assert found == "unchanged"
            found += " by law"
        self.put(route, [self.old.device(i), self.new.device(j)], found)

    def alone(self, side, route, found):
        self.put(route, [side.device(route.number)], found)

    def text(self):
        return "".join(line + "\n" for line in self.lines)
