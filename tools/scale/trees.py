"""Random trees of one to four controllers, made so that each has a plan, by docs/ROUTING.md and docs/BOARDS.md.

What a tree is made of is known here before it is written: where each specifier ends, and with which sense. So the plan of a tree without
a fault is known without reading it.
"""

from fdt import Node, of_cells

KINDS = {"8259A": 8, "PLIC": 64, "mux": 32}
STRINGS = {"8259A": b"intel,i8259", "PLIC": b"sifive,plic-1.0.0", "mux": b"factory,status-mux"}
WIDTHS = {"PLIC": b"riscv,ndev", "mux": b"factory,inputs"}
STRANGERS = [b"", b"intel,i825", b"intel,i82590", b"Intel,i8259", b"sifive,plic-1.0", b"arm,gic-400", b"factory,status", b"simple-bus"]

CELLS, ADDRESS = b"#interrupt-cells", b"#address-cells"
CONTROLLER, MAP, MASK = b"interrupt-controller", b"interrupt-map", b"interrupt-map-mask"
PARENT, PLAIN, EXTENDED = b"interrupt-parent", b"interrupts", b"interrupts-extended"
REG, KIND, PRIORITIES, PHANDLE = b"reg", b"compatible", b"factory,priorities", b"phandle"
READ = [CELLS, ADDRESS, CONTROLLER, MAP, MASK, PARENT, PLAIN, EXTENDED, REG, KIND, PRIORITIES, PHANDLE, *WIDTHS.values()]

# Names that are nearly one that is read.
NEAR = [b"", b"interrupt", b"interrupts-", b"interrupt-map-", b"#interrupt-cell", b"linux,phandle", b"phandles", b"hw,interrupts", b"Reg"]
OTHER = [b"status", b"model", b"label", b"clocks", b"ranges", b"#size-cells", b"dma-coherent", b"serial-number", b"interrupt-names"]

MOST_DEPTH, MOST_LOOKED_AT, MOST_ROWS = 16, 64, 8


class Ref:
    """A cell that will hold the phandle of a node."""

    def __init__(self, node):
        self.node = node


class Controller:
    def __init__(self, node, kind, width):
        self.node, self.kind, self.width = node, kind, width
        self.free = list(range(width))
        self.above = None  # the place where its own specifier ends


class Place:
    """An input of a controller, with the sense that a specifier gives it."""

    def __init__(self, controller, input, chance):
        self.controller, self.input = controller, input
        first = input + 1 if controller.kind == "PLIC" else input
        self.cells = [first]
        self.sense = {"PLIC": "gated", "mux": "following"}.get(controller.kind)
        if self.sense is None:
            self.cells.append(chance.below(4))
            self.sense = "following" if self.cells[1] < 2 else "edge"


class Nexus:
    """A node with a map. A key is the masked cells of a row."""

    def __init__(self, node, address, count, mask):
        self.node, self.address, self.count, self.mask = node, address, count, mask
        self.rows = {}

    def key(self, cells):
        return tuple(cell & mask for cell, mask in zip(cells, self.mask or [0xFFFFFFFF] * len(cells)))


class Arrival:
    """Where a specifier that ends at a place arrives, with its cells, and with those of its unit address where it comes from a row."""

    def __init__(self, place, node, unit, cells):
        self.place, self.node, self.unit, self.cells = place, node, unit, cells

    @staticmethod
    def at(place):
        return Arrival(place, place.controller.node, None, place.cells)


class Style:
    """What trees differ in as a whole."""

    def __init__(self, chance):
        self.devices = chance.weighted({"none": 1, "few": 8, "many": 4, "all": 3})
        self.hops = chance.weighted({"none": 3, "some": 4, "long": 2})
        self.extended = chance.of([0.0, 0.3, 0.6, 1.0])
        self.deep = chance.often(0.2)
        self.buses = chance.of([0, 0, 2, 5, 12])
        self.junk = chance.of([0.0, 0.2, 0.8])
        self.doubles = chance.often(0.15)
        self.shared = chance.often(0.45)  # few names, so that trees share paths
        self.twins = chance.often(0.04)  # nodes side by side may have one name
        self.odd = chance.often(0.1)  # names of any bytes
        self.large = chance.often(0.12)


class Made:
    """A random tree. `tree` is its root, once `settle` has made bytes of all values."""

    def __init__(self, chance, style=None):
        self.chance = chance
        self.style = style or Style(chance)
        self.tree = Node(b"")
        self.nodes = [self.tree]  # as they were made
        self.controllers, self.nexuses, self.devices = [], [], []
        self.ends = {}  # of each node with specifiers, the places where these end
        self.phandles = {}
        self.add_buses(self.style.buses)
        self.add_controllers()
        self.add_devices()
        self.add_rest()
        self.settle()

    # ---- nodes ----

    def name(self, above, stem):
        """A name that no other node below `above` has."""
        taken = {child.name for child in above.children}
        while True:
            name = stem
            if self.style.shared:
                name += b"-%d" % self.chance.below(8)
            elif self.chance.often(0.7):
                name += b"@%x" % self.chance.below(1 << self.chance.of([4, 12, 32]))
            if self.style.odd and self.chance.often(0.3):
                name = self.chance.of([b"", b"@", b"a b", b"\xff\x80", b"x" * self.chance.below(90), b"\x01\x02", name + b"/z"])
            if name not in taken or self.style.twins and self.chance.often(0.3):
                return name
            if self.style.shared and len(taken) > 5:
                stem += b"x"

    def above(self, among=None):
        """A node that can have one more below it."""
        nodes = [node for node in among or self.nodes if node.depth < MOST_DEPTH]
        if self.style.deep and among is None and self.chance.often(0.7):
            return max(nodes, key=lambda node: node.depth)
        if self.style.shared and among is None and self.chance.often(0.8):
            return self.tree
        return self.chance.of(nodes)

    def node(self, stem, among=None):
        above = self.above(among)
        self.nodes.append(Node(self.name(above, stem), above))
        return self.nodes[-1]

    def add_buses(self, count):
        for _ in range(count):
            self.node(self.chance.of([b"bus", b"soc", b"isa", b"rail"]))

    # ---- controllers ----

    def add_controllers(self):
        count = self.chance.weighted({1: 25, 2: 28, 3: 22, 4: 25})
        kinds = [self.chance.of(list(KINDS)) for _ in range(count)]
        for kind in kinds:
            self.controllers.append(self.controller(kind))
        # Node order and placing order are apart: parents are chosen along an order of their own.
        order = self.chance.order(self.controllers)
        for n, controller in enumerate(order[1:], 1):
            above = [one for one in order[:n] if one.free]
            if not above:
                above = [order[0]]
                self.widen(order[0])
            controller.above = self.place(self.chance.of(above))
        self.waiting = order[1:]

    def controller(self, kind):
        most = KINDS[kind]
        width = 8 if kind == "8259A" else self.chance.of([1, 2, self.chance.between(1, most), self.chance.between(1, most), most])
        at_root = not self.controllers and self.chance.often(0.03)
        node = self.tree if at_root else self.node(self.chance.of([b"pic", b"plic", b"mux", b"interrupt-controller"]))
        node.set(CONTROLLER, self.chance.bytes(self.chance.of([0, 0, 0, 3, 4])))
        before = [self.chance.of(STRANGERS) for _ in range(self.chance.of([0, 0, 1, 2]))]
        behind = [self.chance.of(STRANGERS + list(STRINGS.values())) for _ in range(self.chance.of([0, 0, 1, 2]))]
        node.set(KIND, b"".join(string + b"\0" for string in before + [STRINGS[kind]] + behind))
        node.set(CELLS, [2 if kind == "8259A" else 1])
        if kind in WIDTHS:
            node.set(WIDTHS[kind], [width])
        if kind == "PLIC" and self.chance.often(0.6):
            node.set(PRIORITIES, [self.chance.between(1, 7) for _ in range(width)])
        return Controller(node, kind, width)

    def widen(self, controller):
        """A mux or a PLIC whose only inputs are taken gets more."""
        before, controller.width = controller.width, controller.width + 4
        controller.free += range(before, controller.width)
        controller.node.set(WIDTHS[controller.kind], [controller.width])
        if controller.node.has(PRIORITIES):
            controller.node.set(PRIORITIES, [self.chance.between(1, 7) for _ in range(controller.width)])

    def place(self, controller):
        return Place(controller, controller.free.pop(self.chance.below(len(controller.free))), self.chance)

    # ---- devices and their specifiers ----

    def add_devices(self):
        free = sum(len(controller.free) for controller in self.controllers)
        wanted = {"none": 0, "few": min(free, self.chance.between(1, 6)), "many": self.chance.between(free // 3, free), "all": free}
        left = wanted[self.style.devices]
        waiting = self.chance.order(self.waiting)
        while left > 0 or waiting:
            if waiting and (left == 0 or self.chance.often(0.3)):
                controller = waiting.pop()
                self.give(controller.node, [controller.above])
                continue
            count = min(left, self.chance.weighted({1: 6, 2: 3, 3: 2, 5: 1, 12: 1}))
            left -= self.device(count)

    def device(self, count):
        """A device with that many specifiers, or fewer where they have to end at one controller; how many it has."""
        among = [controller for controller in self.controllers if controller.free]
        first = self.chance.of(among)
        extended = self.chance.often(self.style.extended)
        if not extended:
            count = min(count, len(first.free))
        places = [self.place(first)]
        while len(places) < count:
            among = [controller for controller in self.controllers if controller.free] if extended else [first]
            places.append(self.place(self.chance.of(among)))
        device = self.give(None, places, extended)
        self.devices.append(device)
        return len(self.ends[device])

    def give(self, node, places, extended=None):
        """Gives a node, or a new one, specifiers that end at these places, or at the first of them."""
        chance = self.chance
        if extended is None:
            extended = chance.often(self.style.extended)
        reg = [chance.cell() for _ in range(chance.of([0, 1, 1, 2, 3, 4, 6]))]
        arrivals = [self.arrival(reg, self.hops(), places[0])]
        for place in places[1:]:
            found = self.arrival(reg, self.hops(), place) if extended else self.same(reg, arrivals[0].node, place)
            if found:
                arrivals.append(found)
            else:
                place.controller.free.append(place.input)
        places = [arrival.place for arrival in arrivals]
        node = node or self.new_device(arrivals[0].node, extended)
        if extended:
            node.set(EXTENDED, [cell for arrival in arrivals for cell in [Ref(arrival.node)] + arrival.cells])
            if chance.often(self.style.junk / 4):
                node.set(PLAIN, chance.bytes(chance.below(10)))
        else:
            node.set(PLAIN, [cell for arrival in arrivals for cell in arrival.cells])
            if self.searched(node) is not arrivals[0].node:
                node.set(PARENT, [Ref(self.leading_to(arrivals[0].node, node))])
        if reg or chance.often(0.3):
            node.set(REG, reg)
        self.ends[node] = places
        return node

    def new_device(self, arrived, extended):
        """Where nothing names the interrupt parent, the device stands where the search finds it."""
        if self.style.shared and self.chance.often(0.85):
            return self.node(b"dev", [self.tree])
        stem = self.chance.of([b"dev", b"timer", b"serial", b"valve"])
        if not extended and self.chance.often(0.5):
            among = [node for node in self.nodes if node.depth < MOST_DEPTH and self.searched_from(node) is arrived]
            if among:
                return self.node(stem, among)
        if self.chance.often(0.1):
            bus = self.node(b"bus")
            bus.set(PARENT, [Ref(arrived)])
            if bus.depth < MOST_DEPTH:
                return self.node(stem, [bus])
        return self.node(stem)

    def searched_from(self, candidate):
        """The interrupt parent that is found with this candidate first, or none."""
        for _ in range(MOST_LOOKED_AT):
            if candidate is None or candidate.has(CELLS):
                return candidate
            own = candidate.get(PARENT)
            candidate = own[0].node if own else candidate.above
        return None

    def searched(self, node):
        own = node.get(PARENT)
        return self.searched_from(own[0].node if own else node.above)

    def leading_to(self, arrived, device):
        """The interrupt parent itself, or another node than the device from which the search comes to it."""
        if self.chance.often(0.15):
            return self.chance.of([node for node in self.nodes if node is not device and self.searched_from(node) is arrived])
        return arrived

    def hops(self):
        if self.style.hops == "none":
            return 0
        most = MOST_ROWS if self.style.hops == "long" else 2
        return self.chance.between(1, most) if self.chance.often(0.5) else 0

    def arrival(self, reg, hops, place):
        """How to come to a place in that many rows. The first nexus takes its unit address from `reg`."""
        arrival = Arrival.at(place)
        for left in range(hops, 0, -1):
            arrival = self.through(reg if left == 1 else None, arrival)
        return arrival

    def same(self, reg, node, place):
        """An arrival at a node that is given; none where its rows leave no choice."""
        nexus = next((one for one in self.nexuses if one.node is node), None)
        return self.row(nexus, reg, Arrival.at(place)) if nexus else Arrival.at(place)

    def through(self, reg, arrival):
        """An arrival at a nexus, an old one or a new one, one of whose rows leads to the arrival."""
        fitting = [nexus for nexus in self.nexuses if reg is None or nexus.address <= len(reg)]
        for _ in range(3):
            if fitting and self.chance.often(0.7):
                found = self.row(self.chance.of(fitting), reg, arrival)
                if found:
                    return found
        found = None
        while found is None:
            found = self.row(self.new_nexus(len(reg) if reg is not None else 4), reg, arrival)
        return found

    def new_nexus(self, most):
        chance = self.chance
        address, count = chance.between(0, min(most, 4)), chance.between(1, 4)
        mask = None
        if chance.often(0.6):
            mask = [chance.of([0, 7, 0xF800, 0xFFFFFFFF, 0xFFFFFFFF, chance.number()]) for _ in range(address + count)]
        at_root = not self.tree.has(CELLS) and not self.tree.has(PARENT) and chance.often(0.05)
        node = self.tree if at_root else self.node(chance.of([b"nexus", b"pci", b"bridge"]))
        node.set(ADDRESS, [address])
        node.set(CELLS, [count])
        node.set(MAP, [])
        if mask is not None:
            node.set(MASK, mask)
        nexus = Nexus(node, address, count, mask)
        self.nexuses.append(nexus)
        return nexus

    def row(self, nexus, reg, arrival):
        """A new row of a nexus to an arrival; none where each choice of cells would match an older row."""
        chance = self.chance
        for _ in range(4):
            unit = reg[: nexus.address] if reg is not None else chance.cells(nexus.address)
            cells = chance.cells(nexus.count)
            key = nexus.key(unit + cells)
            if key in nexus.rows:
                continue
            nexus.rows[key] = self.parent_cells(arrival)
            return Arrival(arrival.place, nexus.node, unit, cells)
        return None

    def parent_cells(self, arrival):
        node = arrival.node
        if not node.has(ADDRESS):
            node.set(ADDRESS, [self.chance.of([0, 0, 0, 1, 2, 4])])
        unit = arrival.unit if arrival.unit is not None else self.chance.cells(node.get(ADDRESS)[0])
        return [Ref(node)] + unit + arrival.cells

    # ---- what else a tree has ----

    def add_rest(self):
        for nexus in self.nexuses:
            self.add_strangers(nexus)
            nexus.node.set(MAP, [cell for key in self.chance.order(nexus.rows) for cell in list(key) + nexus.rows[key]])
        if self.style.large:
            self.fill(self.chance.between(4000, 40000))
        for node in self.nodes:
            self.add_unread(node)

    def add_strangers(self, nexus):
        """Rows that nothing takes."""
        known = [one.node for one in self.nexuses] + [one.node for one in self.controllers]
        known = [node for node in known if node.has(ADDRESS)]
        most = 60 if self.style.large else 3
        for _ in range(self.chance.below(most + 1) if known else 0):
            key = tuple(self.chance.cells(nexus.address + nexus.count))
            if key not in nexus.rows:
                node = self.chance.of(known)
                counts = node.get(ADDRESS)[0] + node.get(CELLS)[0]
                nexus.rows[key] = [Ref(node)] + self.chance.cells(counts)

    def fill(self, size):
        """Nodes and values that nothing reads, about that many bytes."""
        wide = self.chance.often(0.7)
        while size > 0:
            if self.chance.often(0.5):
                value = self.chance.bytes(min(size, self.chance.of([0, 4, 40, 400, 4000] if wide else [0, 4])))
                self.chance.of(self.nodes).properties.append([self.chance.of(OTHER), value])
                size -= len(value) + 12
            else:
                self.node(b"other")
                size -= 24

    def add_unread(self, node):
        """Properties that no step reads, wrong ones too."""
        chance = self.chance
        if chance.often(self.style.junk):
            for _ in range(chance.between(1, 4)):
                node.properties.append([chance.of(NEAR + OTHER), chance.bytes(chance.of([0, 1, 4, 8, 15, 32]))])
        if chance.often(self.style.junk / 3) and node.has(CONTROLLER):
            for name in [MAP, MASK, REG, *WIDTHS.values(), PRIORITIES, ADDRESS]:
                kind = next(one.kind for one in self.controllers if one.node is node)
                read = {"PLIC": [WIDTHS["PLIC"], PRIORITIES], "mux": [WIDTHS["mux"]]}.get(kind, [])
                if not node.has(name) and name not in read and chance.often(0.4) and not (name == REG and node in self.ends):
                    node.set(name, chance.bytes(chance.below(9)))
        if chance.often(self.style.junk / 3) and not node.has(PLAIN) and not node.has(EXTENDED):
            node.set(chance.of([PLAIN, EXTENDED]), b"")
        node.properties = chance.order(node.properties)
        if self.style.doubles and node.properties and chance.often(0.5):
            # A later property of a name that the node has.
            at = chance.below(len(node.properties))
            later = chance.between(at + 1, len(node.properties))
            node.properties.insert(later, [node.properties[at][0], chance.bytes(chance.below(9))])

    # ---- phandles ----

    def settle(self):
        """Gives phandles to the nodes that are named, and to some others, and makes bytes of all values."""
        nodes = self.nodes
        values = [value for node in nodes for _, value in node.properties if isinstance(value, list)]
        named = {cell.node for value in values for cell in value if isinstance(cell, Ref)}
        numbers = self.numbers(len(nodes))
        for node in nodes:
            if node in named or self.chance.often(0.05):
                self.phandles[node] = numbers.pop()
        for node in nodes:
            for one in node.properties:
                if isinstance(one[1], list):
                    one[1] = of_cells([self.phandles[cell.node] if isinstance(cell, Ref) else cell for cell in one[1]])
            if node in self.phandles:
                at = next((n for n, one in enumerate(node.properties) if one[0] == PHANDLE), len(node.properties))
                node.properties.insert(self.chance.below(at + 1), [PHANDLE, of_cells([self.phandles[node]])])
                if self.style.doubles and self.chance.often(0.3):
                    node.properties.append([PHANDLE, self.chance.bytes(self.chance.below(6))])
            if self.chance.often(self.style.junk / 4):
                # The older name is not read, whatever number it holds.
                number = self.chance.of(sorted(self.phandles.values()) or [1])
                node.properties.insert(self.chance.below(len(node.properties) + 1), [b"linux,phandle", of_cells([number])])
        self.shuffle(self.tree)

    def numbers(self, count):
        if self.chance.often(0.6):
            return self.chance.order(range(1, count + 1))
        found = {0xFFFFFFFE}
        while len(found) < count:
            found.add(self.chance.between(1, 0xFFFFFFFE))
        return self.chance.order(sorted(found))

    def shuffle(self, node):
        node.children = self.chance.order(node.children)
        for child in node.children:
            self.shuffle(child)

    # ---- what is known of the plan ----

    def expected(self):
        """For each specifier of a device in blob order: path, index, path of the controller, input, sense."""
        controllers = {one.node for one in self.controllers}
        found = []
        for node in self.tree.all():
            if node in self.ends and node not in controllers:
                for index, place in enumerate(self.ends[node]):
                    found.append((node.path(), index, place.controller.node.path(), place.input, place.sense))
        return found
