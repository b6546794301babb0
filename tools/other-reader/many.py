#!/usr/bin/env python3
"""Writes the generated trees into a folder (default: trees/), or with --check
says whether those stored there differ. No chance is involved: the text is always the same.

    many.py [--check] [FOLDER]
"""

import os
import sys
from itertools import permutations, product

# Bytes of the last property of near-limit.dts: chosen so that its blob has 65,535 bytes.
PAD = 6250


class Writer:
    """Collects the lines of one tree, with tabs by depth."""

    def __init__(self, comment):
        self.lines = ["/* %s Written by tools/other-reader/many.py. */" % comment, "", "/dts-v1/;", ""]
        self.depth = 0

    def put(self, text):
        self.lines.append("\t" * self.depth + text if text else "")

    def open(self, name):
        self.put(name + " {")
        self.depth += 1

    def close(self):
        self.depth -= 1
        self.put("};")

    def text(self):
        return "\n".join(self.lines) + "\n"


def root(w, model, compatible):
    w.open("/")
    w.put("#address-cells = <1>;")
    w.put("#size-cells = <1>;")
    w.put('compatible = "%s";' % compatible)
    w.put('model = "%s";' % model)


def plic(w, label, place, width, above=None):
    w.open("%s: interrupt-controller@%x" % (label, place))
    w.put('compatible = "sifive,plic-1.0.0";')
    w.put("reg = <0x%x 0x400000>;" % place)
    w.put("interrupt-controller;")
    w.put("#interrupt-cells = <1>;")
    w.put("#address-cells = <0>;")
    w.put("riscv,ndev = <%d>;" % width)
    if above:
        w.put("interrupts-extended = <&%s %d>;" % above)
    w.close()


def many_phandles():
    """A tree of clocks and their users: each node is named by another one."""
    w = Writer("Many phandles: clocks, gates and users, each named by another node.")
    root(w, "Clock tree", "example,clock-tree")
    w.put("interrupt-parent = <&plic>;")
    plic(w, "plic", 0xC000000, 64)
    for p in range(12):
        w.open("pll%d: pll-%d" % (p, p))
        w.put('compatible = "example,pll";')
        # Some numbers are given, far apart and not in order; dtc chooses the others.
        if p % 3 == 0:
            w.put("phandle = <0x%x>;" % (0xFFFFFFFE - 0x11111111 * p))
        w.put("#clock-cells = <1>;")
        w.put("clocks = <&gate%d>;" % (p * 10))
        w.close()
    w.open("gates")
    for g in range(180):
        w.open("gate%d: gate-%d" % (g, g))
        if g % 7 == 0:
            w.put("phandle = <%d>;" % (5000 - 13 * g))
        w.put("#clock-cells = <0>;")
        w.put("clocks = <&pll%d %d>;" % (g % 12, g // 12))
        if g % 5 == 0:
            w.put("next = <&gate%d>;" % ((g + 77) % 180))
        w.close()
    w.close()
    w.open("users")
    w.put("#address-cells = <1>;")
    w.put("#size-cells = <0>;")
    for u in range(240):
        w.open("user%d: user@%x" % (u, u))
        w.put("reg = <%d>;" % u)
        w.put("clocks = <&gate%d>;" % (u * 7 % 180))
        w.put("peer = <&user%d>;" % ((u + 1) % 240))
        if u % 4 == 0:
            w.put("interrupts = <%d>;" % (u // 4 + 1))
        w.close()
    w.close()
    w.close()
    return w.text()


def full_board():
    """Four PLICs of 64 inputs, every input taken: 253 devices."""
    w = Writer("A full board: four PLICs of 64 inputs, a device or a controller at each input.")
    root(w, "Full board", "factory,full-board")
    above = {1: (0, 64), 2: (1, 1), 3: (0, 32)}
    for c in range(4):
        parent = ("plic%d" % above[c][0], above[c][1]) if c in above else None
        plic(w, "plic%d" % c, 0xC000000 + 0x1000000 * c, 64, parent)
    for c in range(4):
        w.open("bus-%d" % c)
        w.put("#address-cells = <1>;")
        w.put("#size-cells = <0>;")
        w.put("interrupt-parent = <&plic%d>;" % c)
        for source in range(1, 65):
            if (c, source) in above.values():
                continue
            w.open("input@%x" % source)
            w.put("reg = <%d>;" % source)
            w.put("interrupts = <%d>;" % source)
            w.close()
        w.close()
    w.close()
    return w.text()


def near_limit():
    """Racks of modules with channels, as many as fit."""
    w = Writer("Near the limit: racks, modules and channels; the blob has 65,535 bytes.")
    root(w, "Remote inputs and outputs", "factory,remote-io")
    plic(w, "plic", 0xC000000, 64)
    for rack in range(8):
        w.open("rack@%x" % (0x20000000 + 0x100000 * rack))
        w.put("reg = <0x%x 0x100000>;" % (0x20000000 + 0x100000 * rack))
        w.put("#address-cells = <1>;")
        w.put("#size-cells = <0>;")
        w.put("interrupt-parent = <&plic>;")
        for slot in range(8):
            w.open("rack%d_slot%d: module@%d" % (rack, slot, slot))
            w.put("reg = <%d>;" % slot)
            w.put('compatible = "factory,io-module-%d", "factory,io-module";' % (slot % 3))
            w.put("interrupts = <%d>;" % (8 * rack + slot + 1))
            w.put("next-module = <&rack%d_slot%d>;" % (rack, (slot + 1) % 8))
            w.put("serial-number = [%s];" % " ".join("%02x" % ((37 * slot + 11 * rack + i) % 256) for i in range(1 + slot)))
            for channel in range(11):
                w.open("channel-%d" % channel)
                w.put('label = "r%d.s%d.c%d";' % (rack, slot, channel))
                if channel % 3 == 0:
                    w.put("inverted;")
                w.put("range = <%d %d>;" % (-channel & 0xFFFFFFFF, 1000 * channel))
                w.close()
            w.close()
        w.close()
    w.open("calibration")
    w.put("tables =")
    w.depth += 1
    for start in range(0, PAD, 32):
        row = " ".join("%02x" % (i * i % 251) for i in range(start, min(start + 32, PAD)))
        w.put("[%s]%s" % (row, "," if start + 32 < PAD else ";"))
    w.depth -= 1
    w.close()
    w.close()
    return w.text()


def candidates():
    """Searches for an interrupt parent that end at the 62nd to the 66th candidate."""
    w = Writer("Interrupt parents by way of many candidates: the 64th may still be one (13 after it).")
    w.open("/")
    w.put('compatible = "factory,candidates";')
    w.open("pic: interrupt-controller")
    w.put("interrupt-controller;")
    w.put("#interrupt-cells = <2>;")
    w.close()
    # hop65 names hop64, and so on; hop1 names the controller.
    for hop in range(65, 0, -1):
        w.open("hop%d: hop-%d" % (hop, hop))
        w.put("interrupt-parent = <&%s>;" % ("hop%d" % (hop - 1) if hop > 1 else "pic"))
        w.close()
    w.put("")
    w.put("/* From hop N the controller is candidate N + 1. */")
    for hop in (1, 2, 61, 62, 63, 64, 65):
        w.open("device-%d" % hop)
        w.put("interrupt-parent = <&hop%d>;" % hop)
        w.put("interrupts = <%d 4>, <%d 8>;" % (hop, hop))
        w.close()
    w.put("")
    w.put("/* By way of parents in the tree: each is a candidate too. */")
    w.open("box")
    w.put("interrupt-parent = <&hop60>;")
    w.open("shelf")
    for name in ("board", "part", "chip"):
        w.open(name)
        w.put("interrupts = <70 4>;")
    for _ in range(3):
        w.close()
    w.close()
    w.close()
    w.close()
    return w.text()


def cells(*values):
    return "<%s>" % " ".join(str(v) for v in values)


def put_list(w, name, groups):
    """A property of several groups of cells, one in a line."""
    for i, group in enumerate(groups):
        front = name + " = " if i == 0 else "\t" * 2
        w.put(front + group + (";" if i == len(groups) - 1 else ","))


def wide_map():
    """A back plane of 32 slots with 4 pins: 128 rows, two kinds of parents."""
    w = Writer("A back plane of 32 slots with 4 pins each: one map of 128 rows.")
    root(w, "Back plane", "factory,back-plane")
    plic(w, "plic", 0xC000000, 64)
    w.open("gic: interrupt-controller@d000000")
    w.put("reg = <0xd000000 0x1000>;")
    w.put("interrupt-controller;")
    w.put("#interrupt-cells = <3>;")
    w.put("#address-cells = <1>;")
    w.close()
    w.open("plane: back-plane@20000000")
    w.put("reg = <0x20000000 0x100000>;")
    w.put("#address-cells = <2>;")
    w.put("#size-cells = <1>;")
    w.put("#interrupt-cells = <1>;")
    w.put("interrupt-map-mask = <0x1f 0x0 0x7>;")
    rows = []
    for slot in range(32):
        for pin in range(1, 5):
            line = (slot + pin - 1) % 32 + 1
            if (slot + pin) % 3:
                rows.append(cells(slot, 0, pin, "&plic", line))
            else:
                rows.append(cells(slot, 0, pin, "&gic", "0x%x" % slot, 0, 64 + 4 * slot + pin, 4))
    put_list(w, "interrupt-map", rows)
    for slot in range(0, 40, 3):
        w.open("card@%x" % slot)
        # Bits above the slot's are masked away.
        w.put("reg = <0x%x 0x%x 0x1000>;" % (0x100 * slot + slot, 0x1000 * slot))
        w.put("interrupts = %s;" % ", ".join(cells(pin) for pin in range(1, 6 if slot % 2 else 4)))
        w.close()
    w.close()
    w.close()
    return w.text()


class Soc:
    """A vendor's chip with its blocks, and a board around it."""

    def __init__(self, w, tail):
        self.w = w
        self.tail = tail        # cells after the sense cell of a specifier
        self.line = 20          # next shared line
        self.clock = 1

    def spi_lines(self, count):
        """The next shared lines, as specifiers."""
        first = self.line
        self.line += count
        return ", ".join(cells(0, n, 4, *self.tail) for n in range(first, first + count))

    def clocks(self, names):
        first = self.clock
        self.clock += len(names)
        self.w.put("clocks = %s;" % ", ".join("<&clkc %d>" % n for n in range(first, self.clock)))
        self.w.put("clock-names = %s;" % ", ".join('"%s"' % n for n in names))

    def block(self, label, name, place, compatible, lines=1, size=0x10000):
        self.w.open("%s: %s@%x" % (label, name, place))
        self.w.put('compatible = "%s";' % compatible)
        self.w.put("reg = <0x0 0x%x 0x0 0x%x>;" % (place, size))
        if lines:
            self.w.put("interrupts = %s;" % self.spi_lines(lines))

    def cpus(self, clusters, each):
        w = self.w
        w.open("cpus")
        w.put("#address-cells = <2>;")
        w.put("#size-cells = <0>;")
        for c in range(clusters):
            for k in range(each):
                w.open("cpu%d_%d: cpu@%x" % (c, k, 0x100 * c + k))
                w.put('device_type = "cpu";')
                w.put('compatible = "arm,cortex-a%d";' % (72 if c % 2 else 53))
                w.put("reg = <0x0 0x%x>;" % (0x100 * c + k))
                w.put('enable-method = "psci";')
                w.put("operating-points-v2 = <&opp%d>;" % c)
                w.put("#cooling-cells = <2>;")
                w.put("dynamic-power-coefficient = <%d>;" % (100 + 300 * (c % 2)))
                w.close()
        w.close()
        for c in range(clusters):
            w.open("opp%d: opp-table-%d" % (c, c))
            w.put('compatible = "operating-points-v2";')
            w.put("opp-shared;")
            for step in range(8):
                hz = 408000000 + 204000000 * step
                w.open("opp-%d" % hz)
                w.put("opp-hz = /bits/ 64 <%d>;" % hz)
                w.put("opp-microvolt = <%d>;" % (800000 + 50000 * step))
                w.put("clock-latency-ns = <40000>;")
                w.close()
            w.close()

    def gic(self, parts=0):
        w = self.w
        w.open("gic: interrupt-controller@fee00000")
        w.put('compatible = "arm,gic-v3";')
        w.put("reg = <0x0 0xfee00000 0x0 0x10000>, <0x0 0xfef00000 0x0 0xc0000>;")
        w.put("#interrupt-cells = <%d>;" % (3 + len(self.tail)))
        w.put("#address-cells = <2>;")
        w.put("#size-cells = <2>;")
        w.put("ranges;")
        w.put("interrupt-controller;")
        w.put("interrupts = %s;" % cells(1, 9, 4, *self.tail))
        w.open("its: msi-controller@fee20000")
        w.put('compatible = "arm,gic-v3-its";')
        w.put("reg = <0x0 0xfee20000 0x0 0x20000>;")
        w.put("msi-controller;")
        w.close()
        if parts:
            w.open("ppi-partitions")
            for p in range(parts):
                w.open("part%d: interrupt-partition-%d" % (p, p))
                w.put("affinity = <%s>;" % " ".join("&cpu%d_%d" % (p, k) for k in range(2)))
                w.close()
            w.close()
        w.close()
        w.open("timer")
        w.put('compatible = "arm,armv8-timer";')
        w.put("interrupts = %s;" % ", ".join(cells(1, n, 8, *self.tail) for n in (13, 14, 11, 10)))
        w.close()
        for p in range(max(parts, 1)):
            w.open("pmu-%d" % p)
            w.put('compatible = "arm,armv8-pmuv3";')
            w.put("interrupts = %s;" % (cells(1, 7, 8, "&part%d" % p) if parts else cells(1, 7, 8, *self.tail)))
            w.close()

    def pcie(self, number, place, devices):
        w = self.w
        self.block("pcie%d" % number, "pcie", place, "heron,pcie", 3)
        w.put('device_type = "pci";')
        w.put("#address-cells = <3>;")
        w.put("#size-cells = <2>;")
        w.put("#interrupt-cells = <1>;")
        w.put("msi-parent = <&its>;")
        w.put("interrupt-map-mask = <0x1800 0 0 7>;")
        rows = []
        base = self.line
        self.line += 4
        for slot in range(4):
            for pin in range(1, 5):
                line = base + (slot + pin - 1) % 4
                rows.append(cells("0x%x" % (0x800 * slot), 0, 0, pin, "&gic", 0, 0, 0, line, 4, *self.tail))
        put_list(w, "interrupt-map", rows)
        for d in range(devices):
            w.open("device@%x,0" % d)
            w.put("reg = <0x%x 0 0 0 0>;" % (0x800 * d))
            w.put("interrupts = <%d>;" % (d % 4 + 1))
            w.close()
        w.close()

    def gpio(self, number, place):
        w = self.w
        self.block("gpio%d" % number, "gpio", place, "heron,gpio-bank", 1, 0x100)
        w.put("clocks = <&clkc %d>;" % (200 + number))
        w.put("gpio-controller;")
        w.put("#gpio-cells = <2>;")
        w.put("interrupt-controller;")
        w.put("#interrupt-cells = <2>;")
        w.close()

    def bus(self, kind, number, place, chips, banks):
        """An I2C or SPI bus with chips that ask gpio banks."""
        w = self.w
        self.block("%s%d" % (kind, number), kind, place, "heron,%s" % kind, 1, 0x1000)
        self.clocks([kind, "pclk"])
        w.put('pinctrl-names = "default", "sleep";')
        w.put("pinctrl-0 = <&%s%d_pins>;" % (kind, number))
        w.put("#address-cells = <1>;")
        w.put("#size-cells = <0>;")
        for c in range(chips):
            w.open("%s@%x" % (("sensor", "expander", "touch", "eeprom")[c % 4], 0x20 + c))
            w.put('compatible = "heron,chip-%d", "heron,chip";' % (c + 8 * number))
            w.put("reg = <0x%x>;" % (0x20 + c))
            bank, pin = (number + c) % banks, (5 * number + 7 * c) % 32
            if c % 3 == 0:
                w.put("interrupt-parent = <&gpio%d>;" % bank)
                w.put("interrupts = <%d 8>;" % pin)
            elif c % 3 == 1:
                w.put("interrupts-extended = <&gpio%d %d 2>, <&gic %s>;" % (
                    bank, pin, " ".join(str(v) for v in (0, 400 + pin, 1, *self.tail))))
            w.put("vdd-supply = <&reg%d>;" % (c % 6))
            w.close()
        w.close()

    def pins(self, kinds):
        w = self.w
        w.open("pinctrl: pinctrl@ff770000")
        w.put('compatible = "heron,pinctrl";')
        w.put("reg = <0x0 0xff770000 0x0 0x10000>;")
        w.open("pcfg_up: pcfg-pull-up")
        w.put("bias-pull-up;")
        w.close()
        for kind, count in kinds:
            for n in range(count):
                w.open("%s%d" % (kind, n))
                w.open("%s%d_pins: %s%d-pins" % (kind, n, kind, n))
                w.put("heron,pins = <%d %d 1 &pcfg_up>, <%d %d 1 &pcfg_up>;" % (n % 5, 2 * n, n % 5, 2 * n + 1))
                w.close()
                w.close()
        w.close()

    def power(self):
        w = self.w
        for n in range(6):
            w.open("reg%d: regulator-%d" % (n, n))
            w.put('compatible = "regulator-fixed";')
            w.put('regulator-name = "vcc%d";' % n)
            w.put("regulator-min-microvolt = <%d>;" % (1800000 + 300000 * n))
            w.put("regulator-max-microvolt = <%d>;" % (1800000 + 300000 * n))
            w.close()

    def zones(self, count):
        w = self.w
        w.open("thermal-zones")
        for n in range(count):
            w.open("zone-%d" % n)
            w.put("polling-delay = <1000>;")
            w.put("thermal-sensors = <&tsens %d>;" % n)
            w.open("trips")
            for name, degrees in (("alert", 70), ("hot", 85), ("critical", 95)):
                w.open("%s%d: %s" % (name, n, name))
                w.put("temperature = <%d>;" % (degrees * 1000))
                w.put("hysteresis = <2000>;")
                w.put('type = "%s";' % ("critical" if degrees == 95 else "passive"))
                w.close()
            w.close()
            w.open("cooling-maps")
            w.open("map0")
            w.put("trip = <&alert%d>;" % n)
            w.put("cooling-device = <&cpu0_0 0xffffffff 0xffffffff>;")
            w.close()
            w.close()
            w.close()
        w.close()


def soc_board(comment, model, tail, clusters, each, uarts, buses, chips, zones, lanes, parts):
    w = Writer(comment)
    w.open("/")
    w.put('model = "%s";' % model)
    w.put('compatible = "heron,%s";' % model.split()[1].lower())
    w.put("#address-cells = <2>;")
    w.put("#size-cells = <2>;")
    w.put("interrupt-parent = <&gic>;")
    soc = Soc(w, tail)
    soc.cpus(clusters, each)
    soc.power()
    soc.gic(parts)
    w.open("soc")
    w.put('compatible = "simple-bus";')
    w.put("#address-cells = <2>;")
    w.put("#size-cells = <2>;")
    w.put("ranges;")
    w.open("clkc: clock-controller@ff760000")
    w.put("reg = <0x0 0xff760000 0x0 0x1000>;")
    w.put("#clock-cells = <1>;")
    w.put("#reset-cells = <1>;")
    w.close()
    for n in range(2):
        soc.pcie(n, 0xF8000000 + 0x2000000 * n, 5)
    for n in range(5):
        soc.gpio(n, 0xFF720000 + 0x1000 * n)
    for n in range(uarts):
        soc.block("uart%d" % n, "serial", 0xFF180000 + 0x10000 * n, "heron,uart", 1, 0x100)
        soc.clocks(["baudclk", "apb_pclk"])
        w.put("pinctrl-0 = <&uart%d_pins>;" % n)
        w.put("reg-shift = <2>;")
        w.put("reg-io-width = <4>;")
        w.put('status = "%s";' % ("disabled" if n % 3 else "okay"))
        w.close()
    for kind, first in (("i2c", 0xFF110000), ("spi", 0xFF400000)):
        for n in range(buses):
            soc.bus(kind, n, first + 0x10000 * n, chips, 5)
    for n in range(lanes):
        soc.block("mac%d" % n, "ethernet", 0xFE300000 + 0x10000 * n, "heron,mac", 6)
        w.put('interrupt-names = "mac", "wake", "tx0", "tx1", "rx0", "rx1";')
        soc.clocks(["mac", "rx", "tx", "ref", "aclk", "pclk"])
        w.put('phy-mode = "rgmii";')
        w.put("local-mac-address = [02 1a 2b 00 00 %02x];" % n)
        w.close()
        soc.block("dma%d" % n, "dma-controller", 0xFF6D0000 + 0x1000 * n, "arm,pl330", 2, 0x1000)
        w.put("#dma-cells = <1>;")
        w.close()
        soc.block("mmu%d" % n, "iommu", 0xFF900000 + 0x10000 * n, "heron,iommu", 4, 0x100)
        w.put("#iommu-cells = <0>;")
        w.close()
    soc.block("tsens", "thermal-sensor", 0xFF260000, "heron,tsens")
    w.put("#thermal-sensor-cells = <1>;")
    w.close()
    soc.pins((("uart", uarts), ("i2c", buses), ("spi", buses)))
    w.close()
    soc.zones(zones)
    w.close()
    return w.text()


def server_soc():
    return soc_board("A large vendor board with specifiers of 3 cells; its blob is near 64 KiB.",
                     "Heron H9 server", (), 4, 8, 16, 10, 9, 30, 12, 0)


def panel_soc():
    return soc_board("A vendor board with specifiers of 4 cells, the fourth for partitions of processors.",
                     "Heron H5 panel", (0,), 2, 2, 5, 6, 7, 6, 3, 2)


# The kinds by their letters in the name of an ordered tree, and its controllers' labels in placing order.
KINDS = {"8": "8259A", "p": "PLIC", "m": "mux"}
LABELS = ["first", "second", "third", "fourth"]

# Under which one placed before each controller but the root is cascaded, by how many controllers there are.
SHAPES = {
    1: [[]],
    2: [[0]],
    3: [[0, 1], [0, 0]],
    4: [[0, 1, 2], [0, 0, 0], [0, 1, 1], [0, 0, 1], [0, 1, 0], [0, 0, 2]],
}

# A device's name is chosen by its sense, so that ordered trees share paths.
NAMES = {
    "edge": ["encoder", "press", "spindle-clock", "cutter"],
    "following": ["guard-door", "lamp", "light-curtain", "coolant"],
    "gated": ["serial", "scale", "camera", "printer"],
}


def placing(blob, parents):
    """The controllers in placing order, where `blob` has them in blob order: each time the first whose parent is placed."""
    placed = [0]
    while len(placed) < len(blob):
        placed.append(next(c for c in blob if c not in placed and parents[c - 1] in placed))
    return placed


class Ordered:
    """A small tree whose controllers have these kinds in placing order. All else varies with n, the number of the order
    among those of as many controllers, and with the sum of the kinds' own numbers."""

    def __init__(self, letters, n):
        self.letters, self.n = letters, n
        self.sum = sum(map(list(KINDS).index, letters))
        self.count = len(letters)
        self.places = range(self.count)
        self.parents = SHAPES[self.count][n // 2 % len(SHAPES[self.count])]
        self.blob = self.blob_order()
        self.widths = [self.width(c) for c in self.places]
        self.free = [self.inputs(c) for c in self.places]
        self.wired = [self.specifier(parent, (n + k) % 4) for k, parent in enumerate(self.parents)]
        self.edges = False
        self.devices = self.all_devices()

    def blob_order(self):
        """The placing order in every other tree; in the rest another one that leads to the same placing."""
        own = tuple(self.places)
        others = [blob for blob in permutations(own) if blob != own and placing(blob, self.parents) == list(own)]
        return others[self.n // 2 % len(others)] if others and self.n % 2 == 0 else own

    def width(self, c):
        """A line for each controller below and none to two more; two to four lines for one with none below."""
        below = self.parents.count(c)
        return 8 if self.letters[c] == "8" else (below or 2) + (self.sum + 2 * c + 1) % 3

    def inputs(self, c):
        """All inputs of a controller, from one in the middle on."""
        first = (self.n + c) % self.widths[c]
        return [*range(first, self.widths[c]), *range(first)]

    def specifier(self, c, sense=0):
        """A free input of a controller and the sense cell, which an 8259A has."""
        return c, self.free[c].pop(0), sense

    def device_specifier(self, c):
        """On 8259As every other one is edge, the first of them too."""
        if self.letters[c] == "8":
            self.edges = not self.edges
        return self.specifier(c, 2 * self.edges + self.n % 2)

    def numbers(self, specifier):
        c, at, sense = specifier
        return {"8": [at, sense], "p": [at + 1], "m": [at]}[self.letters[c]]

    def sense(self, specifier):
        c, _, sense = specifier
        return {"8": "edge" if sense > 1 else "following", "p": "gated", "m": "following"}[self.letters[c]]

    def all_devices(self):
        """Two to four devices, by name: on the root first, then from the last controller back, where lines are free; in
        half of the trees the second one has two specifiers."""
        turns = [0, *reversed(self.places[1:])] * 4
        turns = [c for k, c in enumerate(turns) if turns[:k].count(c) < len(self.free[c])]
        wanted = 3 + self.sum % 2 if self.count == 4 else 2 + self.sum % 3
        twice = 1 if self.sum % 4 < 2 else None
        devices = {}
        for k in range(min(wanted, len(turns))):
            found = [self.device_specifier(turns.pop(0))]
            if k == twice and len(turns) >= wanted - k:
                found.append(self.device_specifier(turns.pop(0)))
            name = next(name for name in NAMES[self.sense(found[0])] if name not in devices)
            devices[name] = found
        return devices

    def comment(self):
        words = [KINDS[self.letters[0]]]
        words += ["%s under the %s" % (KINDS[self.letters[c]], LABELS[self.parents[c - 1]]) for c in self.places[1:]]
        placed = ", ".join(str(self.blob.index(c)) for c in self.places)
        return "Every order of kinds: %s; placed %s %s." % (", ".join(words), "are" if self.parents else "is", placed)

    def put_controller(self, w, c):
        w.put("")
        w.open("%s: %s" % (LABELS[c], LABELS[c]))
        kind = self.letters[c]
        w.put('compatible = "%s";' % {"8": "intel,i8259", "p": "sifive,plic-1.0.0", "m": "factory,status-mux"}[kind])
        w.put("interrupt-controller;")
        w.put("#interrupt-cells = <%d>;" % (2 if kind == "8" else 1))
        if kind == "p":
            w.put("riscv,ndev = <%d>;" % self.widths[c])
            if (self.n + c) % 2:
                given = [1 + (3 * i + self.n + c) % 7 for i in range(self.widths[c])]
                w.put("factory,priorities = %s;" % cells(*given))
        if kind == "m":
            w.put("factory,inputs = <%d>;" % self.widths[c])
        if c > 0:
            w.put("interrupts-extended = %s;" % self.extended(self.wired[c - 1]))
        w.close()

    def extended(self, specifier):
        return cells("&" + LABELS[specifier[0]], *self.numbers(specifier))

    def put_device(self, w, name):
        w.put("")
        w.open(name)
        specifiers = self.devices[name]
        owners = {c for c, _, _ in specifiers}
        if len(owners) == 1:
            w.put("interrupt-parent = <&%s>;" % LABELS[owners.pop()])
            w.put("interrupts = %s;" % ", ".join(cells(*self.numbers(one)) for one in specifiers))
        else:
            w.put("interrupts-extended = %s;" % ", ".join(self.extended(one) for one in specifiers))
        w.close()

    def text(self):
        w = Writer(self.comment())
        w.open("/")
        w.put('compatible = "factory,order-%s";' % self.letters)
        for c in self.blob:
            self.put_controller(w, c)
        names = list(self.devices)
        for name in names if self.n % 4 < 2 else reversed(names):
            self.put_device(w, name)
        w.close()
        return w.text()


def ordered():
    """The trees of every order of one to four kinds, by file name."""
    trees = {}
    for count in range(1, 5):
        for n, letters in enumerate(product(KINDS, repeat=count)):
            order = "".join(letters)
            trees["order-%s.dts" % order] = Ordered(order, n).text
    return trees


TREES = {
    "candidates.dts": candidates,
    "full-board.dts": full_board,
    "many-phandles.dts": many_phandles,
    "near-limit.dts": near_limit,
    "panel-soc.dts": panel_soc,
    "server-soc.dts": server_soc,
    "wide-map.dts": wide_map,
    **ordered(),
}


def main(arguments):
    check = arguments[:1] == ["--check"]
    rest = arguments[1:] if check else arguments
    here = os.path.dirname(os.path.abspath(__file__))
    folder = rest[0] if rest else os.path.join(here, "..", "..", "trees")
    differ = 0
    for name, make in TREES.items():
        path = os.path.join(folder, name)
        if check:
            with open(path) as stored:
                if stored.read() != make():
                    print("differs: %s" % name)
                    differ = 1
        else:
            with open(path, "w") as out:
                out.write(make())
    return differ


if __name__ == "__main__":
    sys.exit(main(sys.argv[1:]))
