#!/usr/bin/env python3
"""Writes the benchmark's trees into a folder: realistic ones as .dts, compiled by dtc, and the worst ones as blobs, token by token,
since dtc writes no no-op token and no name that is shared by its end.

    make.py FOLDER
"""

import os
import random
import struct
import subprocess
import sys

KIB = 1024


# ---- blobs, token by token ----


class Blob:
    """Tokens of a structure block, and the names in the strings block."""

    def __init__(self):
        self.structure = bytearray()
        self.strings = bytearray()
        self.names = {}

    def cell(self, *numbers):
        for number in numbers:
            self.structure += struct.pack(">I", number)

    def padded(self, data):
        self.structure += data + b"\0" * (-len(data) % 4)

    def open(self, name=""):
        self.cell(1)
        self.padded(name.encode() + b"\0")

    def close(self):
        self.cell(2)

    def nothing(self, count):
        self.cell(*[4] * count)

    def name(self, name):
        if name not in self.names:
            self.names[name] = len(self.strings)
            self.strings += name.encode() + b"\0"
        return self.names[name]

    def property(self, name, *cells):
        self.bytes(name, b"".join(struct.pack(">I", cell) for cell in cells))

    def bytes(self, name, value):
        self.cell(3, len(value), self.name(name))
        self.padded(value)

    def text(self, name, value):
        self.bytes(name, value.encode() + b"\0")

    def blob(self):
        self.cell(9)
        at, size = 56, len(self.structure)
        total = at + size + len(self.strings)
        head = struct.pack(
            ">10I", 0xD00DFEED, total, at, at + size, 40, 17, 16, 0, len(self.strings), size
        )
        return head + b"\0" * 16 + bytes(self.structure) + bytes(self.strings)


def plic(b, name, phandle, width, *own):
    """A PLIC; a list of cells is its `interrupts-extended`."""
    b.open(name)
    b.text("compatible", "sifive,plic-1.0.0")
    b.property("interrupt-controller")
    b.property("#interrupt-cells", 1)
    b.property("#address-cells", 0)
    b.property("riscv,ndev", width)
    b.property("phandle", phandle)
    if own:
        b.property("interrupts-extended", *own)
    b.close()


def fill(tree, size):
    """The blob of the largest tree of this sort that is no longer than size: `tree` writes the root's subnodes, more for a larger n."""

    def build(n):
        b = Blob()
        b.open()
        tree(b, n, size)
        b.close()
        return b.blob()

    low, high = 0, size
    while low < high:
        middle = (low + high + 1) // 2
        if len(build(middle)) <= size:
            low = middle
        else:
            high = middle - 1
    return build(low)


# ---- worst trees ----


def phandles(b, n, size):
    """Nodes with a phandle."""
    for i in range(n):
        b.open("n")
        b.property("phandle", i + 1)
        b.close()


def long_names(b, n, size):
    """Nodes with phandles after a node whose empty properties all have one long name: a third of the room each."""
    b.open("a")
    for _ in range(28 * n // 12):
        b.property("x" * (28 * n))
    b.close()
    phandles(b, n, size)


def four_plics(b):
    """Four PLICs, each but the first cascaded at the last input of the one before."""
    plic(b, "p", 1, 64)
    for number, name in enumerate("qrs", 2):
        plic(b, name, number, 64, number - 1, 64)


def device_count(size):
    return 253 * size // (64 * KIB)


def devices(b, size):
    """Up to 253 devices, each with its number for its specifier."""
    for d in range(device_count(size)):
        b.open("d")
        b.property("interrupts", d + 1)
        b.close()


def device_rows(size):
    """The cells of a map with a row for each device, which ends at an input of its own at one of the four PLICs."""
    inputs = [i for i in range(4 * 64) if i not in (63, 127, 191)]
    return [cell for d, i in enumerate(inputs[: device_count(size)]) for cell in (d + 1, 1 + i // 64, 1 + i % 64)]


def open_nexus(b, before=0, name="x"):
    """The nexus with phandle 9, open, up to its map, with no-ops before its properties."""
    b.open(name)
    b.nothing(before)
    b.property("#interrupt-cells", 1)
    b.property("#address-cells", 0)
    b.property("phandle", 9)


def below_nexus(b, count):
    """A PLIC with so many specifiers, each for the nexus with phandle 9."""
    b.open("p")
    b.text("compatible", "sifive,plic-1.0.0")
    b.property("interrupt-controller")
    b.property("#interrupt-cells", 1)
    b.property("riscv,ndev", 64)
    b.property("interrupt-parent", 9)
    b.property("interrupts", *[1] * count)
    b.close()


def eight_rows():
    """The cells of eight rows, of which each leads to the next through the nexus itself, and the last to the controller with phandle 2."""
    cells = []
    for i in range(1, 8):
        cells += [i, 9, i + 1]
    return [*cells, 8, 2, 1]


def through_rows(b, n, parent):
    """A controller with 3n specifiers, each eight times through a map whose first n rows do not match; `parent` gives the phandle that a row names."""
    below_nexus(b, 3 * n)
    open_nexus(b)
    cells = []
    for row in range(n):
        cells += [0, parent(row), 1]
    b.property("interrupt-map", *cells, *eight_rows())
    b.close()


def rows(b, n, size, parents=(4, 3)):
    """Up to 253 routes through one map, whose first rows do not match and name the last two nodes by turns; no-ops stand before those."""
    open_nexus(b)
    cells = []
    for row in range(n):
        cells += [0, parents[row % len(parents)], 1]
    b.property("interrupt-map", *cells, *device_rows(size))
    devices(b, size)
    b.close()
    b.nothing(3 * n)
    four_plics(b)


def rows_one(b, n, size):
    """The same, where all those rows name the last node."""
    rows(b, n, size, [4])


def before_candidates(b, n, size):
    """Four PLICs, and devices whose first candidate but one is the node with phandle 100; no-ops stand after those."""
    four_plics(b)
    b.open("x")
    b.property("interrupt-parent", 100)
    devices(b, size)
    b.close()
    b.nothing(n)


def last_candidate(b, size):
    """A nexus with phandle 162 and every input, so that each device has a line of its own."""
    b.open("z")
    b.property("phandle", 162)
    b.property("#interrupt-cells", 1)
    b.property("#address-cells", 0)
    b.property("interrupt-map", *device_rows(size))
    b.close()


def candidates(b, n, size):
    """Devices, each with a chain of 64 candidates for its interrupt parent; no-ops stand before the chain."""
    before_candidates(b, n, size)
    b.open("y")
    for i in range(62):
        b.open("c")
        b.property("phandle", 100 + i)
        b.property("interrupt-parent", 101 + i)
        b.close()
    last_candidate(b, size)
    b.close()


def deep(b, n, size):
    """Nodes 16 deep, each with a phandle that a device at the bottom names in `interrupts-extended`."""
    plic(b, "p", 1, 64)
    for _ in range(14):
        b.open("n")
    for i in range(n):
        b.open("d")
        b.property("phandle", i + 2)
        b.property("interrupts-extended")
        b.close()
    b.open("e")
    b.property("interrupts-extended", 1, 1)
    b.close()
    for _ in range(14):
        b.close()


def extended(b, n, size):
    """A controller with as many specifiers in `interrupts-extended` as no-ops stand before the node that they name."""
    plic(b, "p", 1, 64, *[2, 1] * n)
    b.nothing(2 * n)
    plic(b, "q", 2, 64)


def specifiers(b, n, size, wide=False):
    """A controller with many specifiers, each through a map eight times; its rows name the last two nodes by turns. A third of the room each for
    specifiers, rows and what a search passes: no-ops, or empty properties with one long name."""
    if wide:
        b.open("a")
        for _ in range(n):
            b.property("x" * (12 * n))
        b.close()
    else:
        b.nothing(3 * n)
    through_rows(b, n, lambda row: 2 + row % 2)
    plic(b, "q", 2, 64)
    plic(b, "r", 3, 64)


def wide_specifiers(b, n, size):
    specifiers(b, n, size, wide=True)


def arrive_at(b, count, before, name="x"):
    """A controller with so many specifiers, each eight times at one nexus with eight rows, of this name and with no-ops before its properties."""
    below_nexus(b, count)
    open_nexus(b, before, name)
    b.property("interrupt-map", *eight_rows())
    b.close()
    plic(b, "q", 2, 64)


def arrivals(b, n, size):
    """A controller with many specifiers, each eight times at one nexus with eight rows, which has no-ops before its properties. Half of the room each."""
    arrive_at(b, n, n)


def short_arrivals(b, n, size):
    """The same with 240 bytes of no-ops, and more specifiers."""
    arrive_at(b, n, 60)


def long_arrivals(b, n, size):
    """The same after nodes with no-ops of 256 bytes each, half of the room."""
    for _ in range(n // 64):
        b.open("l")
        b.nothing(64)
        b.close()
    arrivals(b, n // 2, size)


def long_node(b, n, size):
    """The same, where the nexus has a long name in place of no-ops: half of the room each."""
    arrive_at(b, n, 0, "x" * (4 * n))


def full_rows(b, n, size):
    """A controller with many specifiers, each through a map of rows that do not match eight times; half of the room each."""
    through_rows(b, n, lambda row: 2 + row % 2)
    plic(b, "q", 2, 64)
    plic(b, "r", 3, 64)


def handles(b, n, size):
    """The same, where the rows name 64 nodes in no order."""
    for handle in range(64):
        b.open("n")
        b.property("phandle", 16 + handle)
        b.property("#interrupt-cells", 1)
        b.property("#address-cells", 0)
        b.close()
    order = random.Random(1)
    through_rows(b, n, lambda row: 16 + order.randrange(64))
    plic(b, "q", 2, 64)


def ancestors(b, n, size):
    """Devices, each with 64 candidates for its interrupt parent, of which all but six are parents in the tree; no-ops stand before those."""
    before_candidates(b, n, size)
    b.open("y")
    for group, deep in enumerate((14, 14, 14, 14, 6)):
        for level in range(deep):
            b.open("c")
            if level == 0:
                b.property("interrupt-parent", 101 + group if group < 4 else 162)
            if level == deep - 1:
                b.property("phandle", 100 + group)
        for level in range(deep):
            b.close()
    last_candidate(b, size)
    b.close()


WORST = {
    "phandles": (phandles, 16, 64),
    "deep": (deep, 16, 64),
    "candidates": (candidates, 16, 64),
    "extended": (extended, 16, 64),
    "long-names": (long_names, 4, 64),
    "rows-one": (rows_one, 8, 32),
    "rows": (rows, 16, 64),
    "specifiers": (specifiers, 2, 64),
    "wide-specifiers": (wide_specifiers, 1, 64),
    "arrivals": (arrivals, 2, 64),
    "short-arrivals": (short_arrivals, 16, 64),
    "long-arrivals": (long_arrivals, 16, 64),
    "long-node": (long_node, 16, 64),
    "full-rows": (full_rows, 16, 64),
    "handles": (handles, 16, 64),
    "ancestors": (ancestors, 16, 64),
}


# ---- realistic trees ----

BUS = [
    ("serial", "ns16550a", "clock-frequency = <1843200>; current-speed = <115200>; reg-shift = <2>;"),
    ("i2c", "snps,designware-i2c", "#address-cells = <1>; #size-cells = <0>; clock-frequency = <400000>;"),
    ("spi", "snps,dw-apb-ssi", "#address-cells = <1>; #size-cells = <0>; num-cs = <4>;"),
    ("ethernet", "snps,dwmac-5.10a", 'phy-mode = "rgmii-id"; snps,pbl = <32>; local-mac-address = [02 00 00 00 00 01];'),
    ("can", "bosch,d_can", 'status = "okay"; bosch,mram-cfg = <0 128 64 0 0 32 32>;'),
    ("timer", "snps,dw-apb-timer", 'clock-names = "timer", "pclk";'),
    ("watchdog", "snps,dw-wdt", "timeout-sec = <30>;"),
    ("dma", "snps,axi-dma-1.01a", "#dma-cells = <1>; dma-channels = <8>; snps,dma-masters = <2>;"),
    ("mmc", "snps,dw-mshc", "bus-width = <4>; fifo-depth = <32>; cap-sd-highspeed; no-mmc;"),
    ("adc", "factory,adc-16", '#io-channel-cells = <1>; vref-supply = <&vref>; status = "okay";'),
    ("pwm", "factory,pwm-8", "#pwm-cells = <3>;"),
    ("encoder", "factory,quadrature", "factory,lines = <2048>; factory,filter-ns = <120>;"),
]


def realistic(devices, pins):
    """A panel computer: a PLIC at the root, a second PLIC, a status mux and an 8259A under it, a PCI bridge with an interrupt map,
    buses with devices, clocks, pins and sensors."""
    out = []
    say = out.append
    say("/dts-v1/;\n/ {")
    say('#address-cells = <1>; #size-cells = <1>; compatible = "factory,panel-computer", "sifive,fu540-c000"; model = "Panel computer";')
    say("interrupt-parent = <&plic>;")
    say('chosen { stdout-path = "/soc/serial@10000000"; bootargs = "console=ttyS0,115200 earlycon"; };')
    say('memory@80000000 { device_type = "memory"; reg = <0x80000000 0x40000000>; };')
    say("cpus { #address-cells = <1>; #size-cells = <0>; timebase-frequency = <1000000>;")
    say('cpu@0 { device_type = "cpu"; reg = <0>; compatible = "sifive,u54", "riscv"; riscv,isa = "rv64imafdc"; mmu-type = "riscv,sv39"; }; };')
    say('osc: oscillator { compatible = "fixed-clock"; #clock-cells = <0>; clock-frequency = <33333333>; clock-output-names = "osc"; };')
    say('vref: regulator-vref { compatible = "regulator-fixed"; regulator-name = "vref"; regulator-min-microvolt = <2500000>; regulator-max-microvolt = <2500000>; };')
    say("pinctrl: pinctrl@20000000 { compatible = \"factory,pinctrl\"; reg = <0x20000000 0x1000>;")
    for i in range(pins):
        say("pins%d: pins-%d { pinmux = <%d %d %d>; bias-pull-up; drive-strength = <%d>; };" % (i, i, 4 * i, 4 * i + 1, 4 * i + 2, 2 + i % 6))
    say("};")
    say('soc { #address-cells = <1>; #size-cells = <1>; compatible = "simple-bus"; ranges;')
    say('plic: interrupt-controller@c000000 { compatible = "sifive,plic-1.0.0"; reg = <0xc000000 0x4000000>; interrupt-controller; #interrupt-cells = <1>; #address-cells = <0>; riscv,ndev = <64>; };')
    say('plic2: interrupt-controller@d000000 { compatible = "sifive,plic-1.0.0"; reg = <0xd000000 0x4000000>; interrupt-controller; #interrupt-cells = <1>; #address-cells = <0>; riscv,ndev = <64>; interrupts-extended = <&plic 64>; };')
    say('mux: interrupt-controller@e000000 { compatible = "factory,status-mux"; reg = <0xe000000 0x1000>; interrupt-controller; #interrupt-cells = <1>; #address-cells = <0>; factory,inputs = <32>; interrupts-extended = <&plic 63>; };')
    say('pic: interrupt-controller@20 { compatible = "intel,i8259"; reg = <0x20 2>; interrupt-controller; #interrupt-cells = <2>; #address-cells = <0>; interrupts-extended = <&plic 62>; };')
    say("pcie@30000000 { compatible = \"pci-host-ecam-generic\"; device_type = \"pci\"; #address-cells = <3>; #size-cells = <2>; #interrupt-cells = <1>; reg = <0x30000000 0x1000000>; bus-range = <0 255>;")
    say("interrupt-map-mask = <0xf800 0 0 7>; interrupt-map = <")
    for slot in range(4):
        for pin in range(1, 5):
            say("0x%x 0 0 %d &plic %d" % (slot << 11, pin, 50 + (slot + pin) % 4))
    say(">;")
    for slot in range(4):
        say('device@%d,0 { reg = <0x%x 0 0 0 0>; interrupts = <1>; compatible = "pci8086,100e"; };' % (slot, slot << 11))
    say("};")
    inputs = [("plic", i) for i in range(1, 50)] + [("plic2", i) for i in range(1, 65)]
    inputs += [("mux", i) for i in range(32)] + [("pic", i) for i in range(8)]
    # Devices spread over the four controllers, as boards grow.
    inputs = sorted(inputs, key=lambda at: (at[1] * 37 % 64, at[0]))[:devices]
    for d, (at, i) in enumerate(inputs):
        kind, compatible, rest = BUS[d % len(BUS)]
        place = 0x10000000 + 0x1000 * d
        cells = "%d %d" % (i, 3 if i % 2 else 1) if at == "pic" else "%d" % i
        how = "interrupts-extended = <&%s %s>;" % (at, cells) if d % 3 == 0 or at == "pic" else "interrupt-parent = <&%s>; interrupts = <%s>;" % (at, cells)
        say('%s@%x { compatible = "%s"; reg = <0x%x 0x1000>; clocks = <&osc>; pinctrl-names = "default"; pinctrl-0 = <&pins%d>; %s %s' % (kind, place, compatible, place, d % pins, how, rest))
        if kind == "i2c":
            say('sensor@48 { compatible = "ti,tmp102"; reg = <0x48>; vcc-supply = <&vref>; }; eeprom@50 { compatible = "atmel,24c32"; reg = <0x50>; pagesize = <32>; };')
        if kind == "spi":
            say('flash@0 { compatible = "jedec,spi-nor"; reg = <0>; spi-max-frequency = <40000000>; partition@0 { label = "boot"; reg = <0 0x100000>; read-only; }; };')
        say("};")
    say("};\n};")
    return "\n".join(out)


def compile_tree(text, name):
    with open(name + ".dts", "w") as out:
        out.write(text)
    subprocess.run(
        ["dtc", "-q", "-I", "dts", "-O", "dtb", "-o", name + ".dtb", name + ".dts"], check=True
    )
    return os.path.getsize(name + ".dtb")


def sized(folder, name, size):
    """The realistic tree with as many devices, and then pins, as there is room for."""
    file = os.path.join(folder, name)
    devices, pins = 4, 4
    for step in (32, 8, 1):
        while devices + step <= 145 and compile_tree(realistic(devices + step, max(pins, (devices + step) // 2)), file) <= size:
            devices += step
    pins = max(pins, devices // 2)
    for step in (64, 8, 1):
        while compile_tree(realistic(devices, pins + step), file) <= size:
            pins += step
    compile_tree(realistic(devices, pins), file)


# ---- boards for events ----


def one(compatible, rest):
    return (
        "a: a { compatible = \"%s\"; interrupt-controller; %s };" % (compatible, rest)
    )


def lone():
    """An 8259A with eight devices."""
    text = "/dts-v1/;\n/ { " + one("intel,i8259", "#interrupt-cells = <2>;")
    for i in range(8):
        text += "d%d { interrupts-extended = <&a %d %d>; };\n" % (i, i, 3 if i % 2 else 1)
    return text + "};"


def chain(kinds):
    """Controllers, each cascaded at the last input of the one before, with a device at every other input."""
    text = "/dts-v1/;\n/ {\n"
    for n, (kind, width) in enumerate(kinds):
        first = 1 if kind == "sifive,plic-1.0.0" else 0
        sense = " 1" if kind == "intel,i8259" else ""
        count = {"sifive,plic-1.0.0": "riscv,ndev = <%d>;" % width, "factory,status-mux": "factory,inputs = <%d>;" % width}.get(kind, "")
        text += "c%d: c%d { compatible = \"%s\"; interrupt-controller; #interrupt-cells = <%d>; %s" % (n, n, kind, 2 if sense else 1, count)
        if kind == "sifive,plic-1.0.0":
            text += " factory,priorities = <%s>;" % " ".join(str(1 + (5 * i) % 7) for i in range(width))
        if n:
            above, wide = kinds[n - 1]
            last = wide if above == "sifive,plic-1.0.0" else wide - 1
            text += " interrupts-extended = <&c%d %d%s>;" % (n - 1, last, " 1" if above == "intel,i8259" else "")
        text += " };\n"
        devices = width - (n + 1 < len(kinds))
        for i in range(devices):
            text += "d%d-%d { interrupts-extended = <&c%d %d%s>; };\n" % (n, i, n, first + i, " 3" if sense and i % 2 else sense)
    return text + "};"


BOARDS = {
    "board-lone": lone,
    "board-four": lambda: chain([("sifive,plic-1.0.0", 16), ("factory,status-mux", 8), ("intel,i8259", 8), ("intel,i8259", 8)]),
    "board-full": lambda: chain([("sifive,plic-1.0.0", 64)] * 4),
}


def main(folder):
    os.makedirs(folder, exist_ok=True)
    for name, size in (("small", 4), ("middle", 24), ("full", 64)):
        sized(folder, name, size * KIB)
    for name, tree in BOARDS.items():
        compile_tree(tree(), os.path.join(folder, name))
    for name, (tree, size, last) in WORST.items():
        # Each twice as large as the one before.
        while size <= last:
            with open(os.path.join(folder, "worst-%s-%02d.dtb" % (name, size)), "wb") as out:
                out.write(fill(tree, size * KIB))
            size *= 2


main(sys.argv[1])
