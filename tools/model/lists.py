"""Random lists of events for two boards: what the devices do, and how a guest serves them.

The same is done to the devices of both boards, by path, and each board has a guest of its own. Steady devices are served
so that their own steps are equal on both boards, but for a slow one, of which a guest may miss a tick, and a level that
is driven again now and then. What is done to the other devices differs.
"""

WAYS = ["low first", "low first", "complete first", "twice", "bounce", "blink", "pulse", "masked"]

# What a device that is not edge does at its first claim; at the next one, if it comes, it is low first.
AGAIN = {"twice": "E", "bounce": "LHE", "blink": "LHLE"}


class Guest:
    """One board with the guest on it, and the keys (path, index) of its devices."""

    def __init__(self, board, random):
        self.board, self.random = board, random
        self.numbers = {route.key: route.number for route in board.routes}
        self.keys = [route.key for route in board.routes]
        self.nests = random() < 0.5

    def pick(self, items):
        return items[int(self.random() * len(items))]

    def some(self, keys):
        """The keys of this board among these, in an order of its own."""
        left = [key for key in keys if key in self.numbers]
        order = []
        while left:
            order.append(left.pop(int(self.random() * len(left))))
        return order

    def on(self, letter, key):
        if key in self.numbers:
            self.board.call(letter, self.numbers[key])

    def follows(self, key):
        """Whether the device's level has to go low for it to be quiet."""
        return self.board.routes[self.numbers[key]].sense != "edge"

    def settle(self):
        """Completes whatever is in service."""
        for i in self.board.serving():
            self.board.call("E", i)

    def serve(self, burst, taken):
        """Claims until there is none. `burst` says of each device in it how it is handled; `taken` are claimed already."""
        left = dict(burst)
        while taken or self.board.offered() is not None or self.random() < 0.2:
            named = self.board.call("C")
            if named is not None:
                taken.append(self.keys[named])
                if self.nests and self.random() < 0.5:
                    continue
            while taken:
                self.handle(taken.pop(), left)

    def handle(self, key, left):
        """A device that was claimed: how often it is served before its level goes low, and when that is."""
        way = left.get(key, "low first")
        if way in AGAIN and self.follows(key):
            for letter in AGAIN[way]:
                self.on(letter, key)
            left[key] = "low first"
        elif self.board.record(self.numbers[key]).level:
            early = self.follows(key) and way != "complete first"
            for letter in "LE" if early else "EL":
                self.on(letter, key)
        else:
            self.on("E", key)

    def stray(self):
        """A call that is refused: no such route, or a completion of a device that is not in service."""
        count = len(self.numbers)
        idle = [i for i in range(count) if not self.board.record(i).service]
        if idle and self.random() < 0.5:
            self.board.call("E", self.pick(idle))
        else:
            self.board.call(self.pick("HLMUE"), self.pick([count, count, count + 1, 256, 99999]))

    def fidget(self, loose):
        """Any call on the loose devices, a claim, or a completion of any device in service."""
        serving = self.board.serving()
        chance = self.random()
        if chance < (0.4 if self.board.offered() is not None or not loose else 0.05):
            self.board.call("C")
        elif chance < 0.55 and serving:
            self.board.call("E", self.pick(serving))
        elif chance < 0.6 or not loose:
            self.stray()
        else:
            self.toggle(self.pick(loose))

    def toggle(self, key):
        """Mostly a call that changes something."""
        record = self.board.record(self.numbers[key])
        chance = self.random()
        if chance < 0.15:
            self.on("U" if record.mask else "M", key)
        elif chance < 0.3 and record.mask:
            self.on("U", key)
        elif chance < 0.95:
            self.on("L" if record.level else "H", key)
        else:
            self.on("H" if record.level else "L", key)


class Lists:
    """Two lists of events, each of at least that many. With `at_once` all devices are active at once at first."""

    def __init__(self, random, old, new, size, at_once=False):
        self.random = random
        self.guests = [Guest(old, random), Guest(new, random)]
        keys = self.guests[0].keys + [key for key in self.guests[1].keys if key not in self.guests[0].numbers]
        self.steady = [key for key in keys if random() < 0.7] or keys[:1]
        self.loose = [key for key in keys if key not in self.steady]
        edges = [key for guest in self.guests for key in self.steady if key in guest.numbers and not guest.follows(key)]
        self.slow = self.guests[0].pick(edges) if edges and random() < 0.25 else None
        self.begin()
        if at_once:
            self.all_at_once()
        while any(len(guest.board.events) < size for guest in self.guests):
            self.phase([guest for guest in self.guests if len(guest.board.events) < size])
        self.end()

    def begin(self):
        for guest in self.guests:
            guest.board.call("C")
            guest.stray()
            still = {key for key in self.loose if self.random() < 0.2}
            for key in guest.some(self.steady + self.loose):
                if key not in still:
                    guest.on("U", key)

    def all_at_once(self):
        """Every device becomes active before the first claim, so that the claims come in the order of the board."""
        for guest in self.guests:
            for key in guest.some(self.loose):
                guest.on("U", key)
            for key in guest.some(self.steady + self.loose):
                guest.on("H", key)
            guest.serve({}, [])

    def end(self):
        """Mostly everything is served at the end; one device may be left waiting, or in service."""
        if self.random() < 0.7:
            for guest in self.guests:
                guest.settle()
                guest.serve({}, [])
        for guest in self.guests:
            edges = [key for key in self.steady if key in guest.numbers and not guest.follows(key)]
            if self.random() < 0.3 and self.steady:
                guest.on("H", guest.pick(edges or self.steady))
                if self.random() < 0.5:
                    guest.board.call("C")

    def phase(self, behind):
        """A burst on both boards, or any calls on those whose lists are not long enough."""
        chance = self.random()
        if chance < 0.65 and self.steady:
            self.burst()
        elif chance < 0.9:
            for guest in behind:
                loose = [key for key in self.loose if key in guest.numbers]
                for _ in range(1 + int(self.random() * (12 if loose else 1))):
                    guest.fidget(loose)
        else:
            for guest in behind:
                guest.stray()

    def burst(self):
        """A few steady devices become active; each guest serves them in the order in which its board names them."""
        burst = {}
        for _ in range(1 + int(self.random() * 5)):
            burst[self.guests[0].pick(self.steady)] = self.guests[0].pick(WAYS)
        for guest in self.guests:
            guest.settle()
            taken = []
            if not any(key in guest.numbers for key in burst):
                for _ in range(1 + int(self.random() * 6)):
                    guest.fidget([])
            for key in guest.some(list(burst)):
                if key == self.slow:
                    self.tick(guest, burst, taken)
                else:
                    self.raise_one(guest, key, burst[key])
                named = guest.board.call("C") if guest.nests and self.random() < 0.3 else None
                if named is not None:
                    taken.append(guest.keys[named])
            guest.serve(burst, taken)
            again = self.guests[0].pick(list(burst))
            if again in guest.numbers and self.random() < 0.01:
                guest.on("H" if guest.board.record(guest.numbers[again]).level else "L", again)

    def tick(self, guest, burst, taken):
        """Two ticks of the slow device. The guest claims the first in time, or after the second has begun."""
        guest.on("H", self.slow)
        if self.random() < 0.5:
            guest.serve(burst, taken)
        else:
            guest.on("L", self.slow)
        guest.on("H", self.slow)

    def raise_one(self, guest, key, way):
        """The device goes high; an edge device may go low again at once; it may be masked meanwhile."""
        if way == "masked":
            guest.on("M", key)
        guest.on("H", key)
        if way in ("pulse", "masked") and not guest.follows(key):
            guest.on("L", key)
        if way == "masked":
            guest.on("U", key)


def mapped(old, new):
    """The calls of the old board's list made on the new board, by path. Calls on devices that it has not are left out."""
    theirs = {route.key: route.number for route in new.routes}
    count = len(old.routes)
    for event in old.events:
        if event.letter == "C":
            new.call("C")
        elif event.route >= count:
            new.call(event.letter, max(event.route, len(theirs)))
        elif old.routes[event.route].key in theirs:
            new.call(event.letter, theirs[old.routes[event.route].key])
