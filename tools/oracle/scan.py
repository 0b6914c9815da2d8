#!/usr/bin/env python3
"""The report of `harmscan scan STUDY`, by another program.

usage: scan.py STUDY

It follows docs/elements.md, arithmetic.md, admittance.md, elimination.md, inverse.md, branchwise.md, scan.md and report.md over
Python's whole numbers and exact fractions, and shares no code with harmscan. It takes accepted studies, and judges nothing: of a
study that harmscan refuses it says nothing, or anything. It is slow: a test of a box takes milliseconds.
"""
import math
import sys
import tomllib
from fractions import Fraction

LIMIT = 1 << 62
MILLION = 10 ** 6


class NoValue(Exception):
    """A step of the interval arithmetic has no value."""


# ---- numbers of a study

def decimal(value):
    return Fraction(value)


def millionths(value):
    whole = decimal(value) * MILLION
    assert whole.denominator == 1
    return whole.numerator


def six(n):
    return f"{n // MILLION}.{n % MILLION:06d}"


# ---- intervals: pairs of whole ends in units of 1/2^S

def floor_div(a, b):
    return a // b


def ceil_div(a, b):
    return -((-a) // b)


def ends(low, high):
    if low < -LIMIT or high > LIMIT:
        raise NoValue
    assert low <= high
    return (low, high)


class Arithmetic:
    """Operations on ends at one scale."""

    def __init__(self, scale):
        self.scale = scale
        self.one_raw = 1 << scale

    def range(self, a, b):
        a, b = a * self.one_raw, b * self.one_raw
        return ends(floor_div(a.numerator, a.denominator), ceil_div(b.numerator, b.denominator))

    def of(self, x):
        return self.range(x, x)

    def add(self, x, y):
        return ends(x[0] + y[0], x[1] + y[1])

    def sub(self, x, y):
        return ends(x[0] - y[1], x[1] - y[0])

    def mul(self, x, y):
        products = [p * q for p in x for q in y]
        return ends(min(products) >> self.scale, -((-max(products)) >> self.scale))

    def square(self, x):
        a, b = x[0] * x[0], x[1] * x[1]
        if x[0] <= 0 <= x[1]:
            return ends(0, -((-max(a, b)) >> self.scale))
        return ends(min(a, b) >> self.scale, -((-max(a, b)) >> self.scale))

    def div(self, x, y):
        if y[0] <= 0 <= y[1]:
            raise NoValue
        # the floors and ceilings of the four quotients of ends
        low = min(floor_div(p << self.scale, q) for p in x for q in y)
        high = max(ceil_div(p << self.scale, q) for p in x for q in y)
        return ends(low, high)

    # complex intervals: pairs of intervals

    def cadd(self, x, y):
        return (self.add(x[0], y[0]), self.add(x[1], y[1]))

    def csub(self, x, y):
        return (self.sub(x[0], y[0]), self.sub(x[1], y[1]))

    def cmul(self, x, y):
        (a, b), (c, d) = x, y
        return (self.sub(self.mul(a, c), self.mul(b, d)), self.add(self.mul(a, d), self.mul(b, c)))

    def cscale(self, x, factor):
        return (self.mul(x[0], factor), self.mul(x[1], factor))

    def clipped(self, t, side):
        """The part of t on the side of zero where `side` lies."""
        if side[0] > 0:
            if t[1] < 0:
                raise NoValue
            return (max(t[0], 0), t[1])
        if t[0] > 0:
            raise NoValue
        return (t[0], min(t[1], 0))

    def cdiv(self, x, y):
        (a, b), (c, d) = x, y
        if mig(c) == 0 and mig(d) == 0:
            raise NoValue
        if mig(c) >= mig(d):
            rho = self.div(d, c)
            e = self.add(c, self.clipped(self.mul(d, rho), c))
            return (self.div(self.add(a, self.mul(b, rho)), e), self.div(self.sub(b, self.mul(a, rho)), e))
        rho = self.div(c, d)
        e = self.add(d, self.clipped(self.mul(c, rho), d))
        return (self.div(self.add(self.mul(a, rho), b), e), self.div(self.sub(self.mul(b, rho), a), e))


def mig(x):
    return 0 if x[0] <= 0 <= x[1] else min(abs(x[0]), abs(x[1]))


def mag(x):
    return max(abs(x[0]), abs(x[1]))


def low_square(z):
    return mig(z[0]) ** 2 + mig(z[1]) ** 2


def high_square(z):
    return mag(z[0]) ** 2 + mag(z[1]) ** 2


def size(z):
    return mag(z[0]) + mag(z[1])


NOUGHT = ((0, 0), (0, 0))


# ---- the certified inverse: an entry of a solution with the bound of its error

def point(re, im=0):
    return ((re, re), (im, im))


def low_point(z):
    return point(z[0][0], z[1][0])


def middle_inverse(a, rows):
    """The inverse of the middles of the entries."""
    n = len(rows)
    one = point(a.one_raw)
    work = [[point((x[0][0] + x[0][1]) // 2, (x[1][0] + x[1][1]) // 2) for x in row] for row in rows]
    work = [row + [one if i == j else NOUGHT for j in range(n)] for i, row in enumerate(work)]
    for j in range(n):
        best = max(range(j, n), key=lambda i: (size(work[i][j]), -i))
        if size(work[best][j]) == 0:
            raise NoValue
        work[j], work[best] = work[best], work[j]
        pivot = work[j][j]
        work[j] = [low_point(a.cdiv(x, pivot)) for x in work[j]]
        for i in range(n):
            if i != j:
                factor = work[i][j]
                work[i] = [low_point(a.csub(x, low_point(a.cmul(factor, y)))) for x, y in zip(work[i], work[j])]
    return [row[n:] for row in work]


def dot(a, xs, ys):
    total = NOUGHT
    for x, y in zip(xs, ys):
        total = a.cadd(total, a.cmul(x, y))
    return total


def enclosed(a, rows):
    """The last entry of the solution for the unit column there, and the bound of its error, in units of 1/2^S."""
    n = len(rows)
    one = point(a.one_raw)
    unit = [[one if i == j else NOUGHT for j in range(n)] for i in range(n)]
    guess = middle_inverse(a, rows)
    columns = list(zip(*rows))
    theta = max(sum(size(a.csub(unit[i][j], dot(a, guess[i], columns[j]))) for j in range(n)) for i in range(n))
    if theta >= a.one_raw:
        raise NoValue
    x = [row[-1] for row in guess]
    left = [a.csub(e, dot(a, row, x)) for e, row in zip(unit[-1], rows)]
    sigma = max(size(dot(a, row, left)) for row in guess)
    error = ceil_div(sigma << a.scale, a.one_raw - theta)
    if sigma > LIMIT or error > LIMIT:
        raise NoValue
    return x[-1][0][0], x[-1][1][0], error


# ---- the estimate branch by branch, with the bound of its error

class Drop:
    """The sum of the voltages of some nodes, each times the ratio of its tap; and the admittances with which other drops count at it, by their
    numbers, each as a middle and a rest."""

    def __init__(self, taps):
        self.taps = taps
        self.middles, self.rests = {}, {}

    def grow(self, a, number, middle, rest):
        self.middles[number] = a.cadd(self.middles.get(number, NOUGHT), middle)
        self.rests[number] = a.cadd(self.rests.get(number, NOUGHT), rest)

    def of(self, a, voltages):
        total = NOUGHT
        for place, ratio in self.taps:
            total = a.cadd(total, a.cscale(voltages[place], ratio))
        return total


def halves(a, y):
    """The point in the middle of an admittance, and the rest of it."""
    middle = point((y[0][0] + y[0][1]) // 2, (y[1][0] + y[1][1]) // 2)
    return middle, a.csub(y, middle)


def drops_of(a, count, units):
    """One for each node, then one for each branch of two taps or more, and for each branch of a group. Units have their branches' taps, their
    admittances by row and column, and whether they are a group."""
    one = a.of(Fraction(1))
    drops = [Drop([(place, one)]) for place in range(count)]
    for branches, ys, coupled in units:
        if not coupled and len(branches[0]) == 1:
            (place, ratio), = branches[0]
            middle, rest = halves(a, ys[0][0])
            factor = a.mul(ratio, ratio)
            drops[place].grow(a, place, a.cscale(middle, factor), a.cscale(rest, factor))
            continue
        first = len(drops)
        drops += [Drop(taps) for taps in branches]
        for p, row in enumerate(ys):
            for q, y in enumerate(row):
                middle, rest = halves(a, y)
                drops[first + p].grow(a, first + q, a.cscale(middle, one), a.cscale(rest, one))
    return drops


def kept(n):
    if n > LIMIT:
        raise NoValue
    return n


class Reach:
    """What drops of given sizes reach at most."""

    def __init__(self, a, drops, eta, kappa, rho):
        self.a, self.drops, self.eta, self.kappa, self.rho = a, drops, eta, kappa, rho

    def part(self, x, y):
        return ceil_div(x * y, self.a.one_raw)

    def of(self, sizes):
        nodes = [kept(sum(self.part(e, v) for e, v in zip(row, sizes))) for row in self.eta]
        edges = [kept(sum(self.part(mag(ratio), nodes[place]) for place, ratio in drop.taps)) for drop in self.drops]
        far = [kept(sum(self.part(r, sizes[other]) for other, r in row.items())) for row in self.rho]
        return edges, [kept(edge + sum(self.part(k, f) for k, f in zip(row, far))) for edge, row in zip(edges, self.kappa)]


def corrected(a, k, x, d):
    """The product of three: the first two first, or the last two where that has no value."""
    try:
        return a.cmul(a.cmul(k, x), d)
    except NoValue:
        return a.cmul(k, a.cmul(x, d))


def estimated(a, count, units):
    """The impedance of the last node as a rectangle, and the bound of its error, in units of 1/2^S."""
    drops = drops_of(a, count, units)
    middles = [[NOUGHT] * count for _ in range(count)]
    for drop in drops:
        for other, middle in drop.middles.items():
            for i, c in drop.taps:
                for j, d in drops[other].taps:
                    middles[i][j] = a.cadd(middles[i][j], a.cscale(middle, a.mul(c, d)))
    guess = middle_inverse(a, middles)
    columns = list(zip(*middles))
    one = point(a.one_raw)
    eta = [[kept(size(a.csub(one if i == j else NOUGHT, dot(a, guess[i], columns[j])))) for j in range(count)] for i in range(count)]
    voltages = [[drop.of(a, row) for row in guess] for drop in drops]
    kappa = [[kept(size(drop.of(a, v))) for v in voltages] for drop in drops]
    rho = [{other: kept(size(rest)) for other, rest in drop.rests.items()} for drop in drops]
    reach = Reach(a, drops, eta, kappa, rho)
    last = count - 1
    column = voltages[last]
    found = [drop.of(a, column) for drop in drops]
    edges, reached = reach.of([kept(size(x)) for x in found])
    weights = [kept(s + max(reached) // (1 << 20) + 65536) for s in reached]
    _, weighed = reach.of(weights)
    theta = kept(max(ceil_div(t << a.scale, w) for t, w in zip(weighed, weights)))
    if theta >= a.one_raw:
        raise NoValue
    error = kept(edges[last] + ceil_div(weighed[last] << a.scale, a.one_raw - theta))
    total = NOUGHT
    for drop, v in zip(drops, voltages):
        for other, rest in drop.rests.items():
            total = a.cadd(total, corrected(a, v[last], found[other], rest))
    return a.csub(column[last], total), error


# ---- a threshold over the orders

class Curve:
    def __init__(self, entry):
        if "threshold" in entry:
            ohms = millionths(str(entry["threshold"]))
            self.points = [(MILLION // 10, ohms), (100 * MILLION, ohms)]
        else:
            self.points = [(millionths(str(at)), millionths(str(ohms))) for at, ohms in zip(entry["curve_at"], entry["curve_ohms"])]

    def at(self, x):
        for (a, v), (b, w) in zip(self.points, self.points[1:]):
            if a <= x <= b:
                return v + Fraction((w - v) * (x - a), b - a)
        raise AssertionError

    def least(self, lo, hi):
        return min([self.at(lo), self.at(hi)] + [Fraction(ohms) for at, ohms in self.points if lo < at < hi])


# ---- networks: branches are (taps, law); a tap is (node, ratio). Three coupled branches come one after another.

class Network:
    def __init__(self, buses):
        self.buses = buses
        self.nodes = buses
        self.branches = []
        self.owners = []
        self.owner = 0

    def add(self, taps, law):
        self.branches.append((taps, law))
        self.owners.append(self.owner)

    def with_branches(self, kept):
        """With these branches in the place of its own: pairs of a branch and its owner."""
        other = Network(self.buses)
        other.nodes = self.nodes
        other.branches, other.owners = [branch for branch, _ in kept], [owner for _, owner in kept]
        return other

    def without(self, owner):
        """Without the branches of an element; its own nodes stay."""
        return self.with_branches([(branch, own) for branch, own in zip(self.branches, self.owners) if own != owner])

    def only(self, owner):
        """With the branches of one element alone."""
        return self.with_branches([(branch, own) for branch, own in zip(self.branches, self.owners) if own == owner])

    def widened(self, owner, factor):
        """With each r, x and xc, and each b, of an element's branches times a factor."""
        def law_of(law):
            if law[0] == "shunt":
                return ("shunt", law[1] * factor)
            _, r, k, m, x, xc = law
            return ("series", r * factor, k, m, x * factor, xc * factor)
        return self.with_branches([((taps, law_of(law) if own == owner else law), own) for (taps, law), own in zip(self.branches, self.owners)])

    def inner(self):
        self.nodes += 1
        return self.nodes - 1

    def series(self, taps, r, x, xc=Fraction(0), k=Fraction(0), m=Fraction(1)):
        self.add(taps, ("series", r, k, m, x, xc))

    def shunt(self, taps, b):
        self.add(taps, ("shunt", b))

    def group(self, three, own, mutual, pairs=None, k=Fraction(0), m=Fraction(1)):
        """Three coupled branches, by their own r and x and the mutual ones; or by the mutual reactances of a and b, b and c, c and a."""
        for place, taps in enumerate(three):
            self.add(taps, ("coupled", place, *own, mutual[0], *(pairs or [mutual[1]] * 3), k, m))

    def live(self):
        live = set()
        while True:
            before = len(live)
            for taps, _ in self.branches:
                if len(taps) == 1 or any(n in live for n, _ in taps):
                    live.update(n for n, _ in taps)
            if len(live) == before:
                return live


def ground(node):
    return [(node, Fraction(1))]


def between(a, b):
    return [(a, Fraction(1)), (b, Fraction(-1))]


def in_zero(entry):
    """Whether a load, a bank or a filter is in the zero network too: where it is grounded, or stands at one phase."""
    return entry.get("grounded", False) or "phase" in entry


class Study:
    def __init__(self, table):
        study = table["study"]
        self.mva = decimal(study["mva"])
        self.hz = decimal(study.get("hz", 50))
        self.scale = study.get("scale", 40)
        self.table = table
        self.kv = [decimal(bus["kv"]) for bus in table["bus"]]
        self.bus = {bus["name"]: number for number, bus in enumerate(table["bus"])}

    def ohms(self, z, v):
        return decimal(z) * self.mva / (v * v)

    def siemens(self, b, v):
        return decimal(b) * v * v / (self.mva * MILLION)

    def skin(self, entry):
        return {"k": decimal(entry.get("skin_k", 0)), "m": decimal(entry.get("skin_m", 1))}

    def network(self, zero):
        net = Network(len(self.kv))
        for net.owner, (kind, entry) in enumerate(self.elements(), 1):
            getattr(self, kind)(net, entry, zero)
        return net

    def elements(self):
        """All elements in their order, each with its kind."""
        return [(kind, entry) for kind in ("source", "line", "transformer", "load", "bank", "filter") for entry in self.table.get(kind, [])]

    def seen(self, entry):
        """The network and the node that a scan looks at."""
        return self.network(entry.get("network", "positive") == "zero"), self.bus[entry["bus"]]

    def source(self, net, e, zero):
        r, x = ("r0", "x0") if zero else ("r", "x")
        if r in e:
            bus = self.bus[e["bus"]]
            v = self.kv[bus]
            net.series(ground(bus), self.ohms(e[r], v), self.ohms(e[x], v), **self.skin(e))

    def line(self, net, e, zero):
        r, x, b = ("r0", "x0", "b0") if zero else ("r", "x", "b")
        if r not in e:
            return
        start, end = self.bus[e["from"]], self.bus[e["to"]]
        v = self.kv[start]
        count = e.get("sections", 1)
        inner = [net.inner() for _ in range(count - 1)]
        nodes = [start] + inner + [end]
        shunt = self.siemens(e.get(b, 0), v) / (2 * count)
        for near, far in zip(nodes, nodes[1:]):
            net.series(between(near, far), self.ohms(e[r], v) / count, self.ohms(e[x], v) / count, **self.skin(e))
            if shunt > 0:
                net.shunt(ground(near), shunt)
                net.shunt(ground(far), shunt)

    def transformer(self, net, e, zero):
        sides = {"from": self.bus[e["from"]], "to": self.bus[e["to"]]}
        base = 100 * decimal(e["mva"])
        leakage = (decimal(e["r"]) * self.mva / base, decimal(e["x"]) * self.mva / base)
        up = 1 / decimal(e.get("ratio", 1))
        ways = [e.get("from_conn", "star"), e.get("to_conn", "star")]
        if zero:
            if sorted(ways) not in (["grounded", "grounded"], ["delta", "grounded"]):
                return
            for side, way in zip(("from", "to"), ways):
                rn, xn = decimal(e.get(side + "_rn", 0)), decimal(e.get(side + "_xn", 0))
                if way == "grounded" and (rn, xn) != (0, 0):
                    v = self.kv[sides[side]]
                    node = net.inner()
                    net.series(between(sides[side], node), self.ohms(3 * rn, v), self.ohms(3 * xn, v), **self.skin(e))
                    sides[side] = node
        taps = [(sides["from"], up), (sides["to"], Fraction(-1))]
        if zero and "delta" in ways:
            taps = taps[:1] if ways[0] == "grounded" else [(sides["to"], Fraction(1))]
        net.series(taps, *leakage, **self.skin(e))

    def load(self, net, e, zero):
        if zero and not in_zero(e):
            return
        bus = self.bus[e["bus"]]
        s = self.mva
        if e["model"] == "series":
            net.series(ground(bus), self.ohms(e["r"], self.kv[bus]), self.ohms(e["x"], self.kv[bus]))
            return
        p, q = decimal(e["p"]), decimal(e["q"])
        if e["model"] == "parallel":
            if p > 0:
                net.series(ground(bus), s / p, Fraction(0))
            if q > 0:
                net.series(ground(bus), Fraction(0), s / q)
            return
        net.series(ground(bus), s / p, 73 * s / (1000 * p))
        if 670 * q > 74 * p:
            net.series(ground(bus), Fraction(0), 100 * s / (670 * q - 74 * p))

    def bank(self, net, e, zero):
        if not zero or in_zero(e):
            net.shunt(ground(self.bus[e["bus"]]), decimal(e["q"]) / self.mva)

    def filter(self, net, e, zero):
        if zero and not in_zero(e):
            return
        bus = self.bus[e["bus"]]
        xc = self.mva / decimal(e["q"])
        n, quality = decimal(e["order"]), decimal(e["quality"])
        if e["kind"] == "single":
            net.series(ground(bus), xc / (n * quality), xc / (n * n), xc)
            return
        node = net.inner()
        net.series(between(bus, node), Fraction(0), Fraction(0), xc)
        if e["kind"] == "highpass":
            net.series(ground(node), quality * xc / n, Fraction(0))
            net.series(ground(node), Fraction(0), xc / (n * n))
        else:
            x = xc / (n * n - 1)
            net.series(ground(node), quality * n * x, Fraction(0))
            net.series(ground(node), Fraction(0), x, x)


# ---- networks of three phases: node 3i + p is that of phase p at bus i

def opposite(taps):
    return [(node, -ratio) for node, ratio in taps]


class Phases(Study):
    """A study whose network is that of the three phases."""

    def __init__(self, table):
        super().__init__(table)
        self.root3 = decimal(table["study"].get("root3", "1.732051"))

    def network(self, zero=None):
        """The network of the phases; a sequence network where one is asked for."""
        if zero is not None:
            return super().network(zero)
        net = Network(3 * len(self.kv))
        for net.owner, (kind, entry) in enumerate(self.elements(), 1):
            getattr(self, kind + "_phases")(net, entry)
        return net

    def seen(self, entry):
        return self.network(), 3 * self.bus[entry["bus"]] + "abc".index(entry["phase"])

    def of_bus(self, name):
        return [3 * self.bus[name] + phase for phase in range(3)]

    def impedance(self, e, r, x, v):
        return self.ohms(e[r], v), self.ohms(e[x], v)

    def own_and_mutual(self, e, v, parts=1):
        z, z0 = self.impedance(e, "r", "x", v), self.impedance(e, "r0", "x0", v)
        return [(b + 2 * a) / (3 * parts) for a, b in zip(z, z0)], [(b - a) / (3 * parts) for a, b in zip(z, z0)]

    def source_phases(self, net, e):
        nodes, v = self.of_bus(e["bus"]), self.kv[self.bus[e["bus"]]]
        if "r0" in e:
            net.group([ground(node) for node in nodes], *self.own_and_mutual(e, v), **self.skin(e))
            return
        neutral = net.inner()
        for node in nodes:
            net.series(between(node, neutral), *self.impedance(e, "r", "x", v), **self.skin(e))

    def line_phases(self, net, e):
        v, count = self.kv[self.bus[e["from"]]], e.get("sections", 1)
        ends = [self.of_bus(e["from"])] + [[net.inner() for _ in range(3)] for _ in range(count - 1)] + [self.of_bus(e["to"])]
        own, mutual = self.own_and_mutual(e, v, count)
        pairs = [self.ohms(e[key], v) / count for key in ("xab", "xbc", "xca")] if "xab" in e else None
        b, b0 = self.siemens(e.get("b", 0), v), self.siemens(e.get("b0", 0), v)
        for near, far in zip(ends, ends[1:]):
            net.group([between(p, q) for p, q in zip(near, far)], own, mutual, pairs, **self.skin(e))
            for three in (near, far):
                for node in three if b0 > 0 else []:
                    net.shunt(ground(node), b0 / (2 * count))
                for p in range(3) if b > b0 else []:
                    net.shunt(between(three[p], three[(p + 1) % 3]), (b - b0) / (6 * count))

    def transformer_phases(self, net, e):
        base = 100 * decimal(e["mva"])
        leakage = [decimal(e[key]) * self.mva / base for key in ("r", "x")]
        sides = [("from", e.get("from_conn", "star"), 1 / decimal(e.get("ratio", 1))), ("to", e.get("to_conn", "star"), Fraction(-1))]
        if all(way == "star" for _, way, _ in sides):
            joint = net.inner()
            for p in range(3):
                taps = [(self.of_bus(e[side])[p], ratio) for side, _, ratio in sides] + [(joint, Fraction(1))]
                net.series(taps, *leakage, **self.skin(e))
            return
        windings, neutrals = [], []
        for side, way, ratio in sides:
            nodes, v = self.of_bus(e[side]), self.kv[self.bus[e[side]]]
            taps = [[(node, ratio)] for node in nodes]
            earth = [self.ohms(e.get(side + key, 0), v) for key in ("_rn", "_xn")]
            if way == "delta":
                taps = [[(nodes[p], ratio / self.root3), (nodes[(p + 1) % 3], -ratio / self.root3)] for p in range(3)]
            elif way == "star" or earth != [0, 0]:
                neutral = net.inner()
                taps = [[(node, ratio), (neutral, -ratio)] for node in nodes]
                if way == "grounded":
                    neutrals.append((neutral, earth))
            windings.append(taps)
        for start, end in zip(*windings):
            net.series(start + end, *leakage, **self.skin(e))
        for neutral, earth in neutrals:
            net.series(ground(neutral), *earth, **self.skin(e))

    def each_phase(self, net, e, add):
        """The positive branches of each phase to one point, or those of the element's own phase to ground, with its power on that phase."""
        nodes = self.of_bus(e["bus"])
        if "phase" in e:
            add(nodes["abc".index(e["phase"])], None, 3)
            return
        neutral = None if e.get("grounded", False) else net.inner()
        for node in nodes:
            add(node, neutral, 1)

    def load_phases(self, net, e):
        s, v = self.mva, self.kv[self.bus[e["bus"]]]

        def add(node, neutral, times):
            taps = to(node, neutral)
            if e["model"] == "series":
                net.series(taps, *self.impedance(e, "r", "x", v))
                return
            p, q = times * decimal(e["p"]), times * decimal(e["q"])
            if e["model"] == "parallel":
                if p > 0:
                    net.series(taps, s / p, Fraction(0))
                if q > 0:
                    net.series(taps, Fraction(0), s / q)
                return
            net.series(taps, s / p, 73 * s / (1000 * p))
            if 670 * q > 74 * p:
                net.series(taps, Fraction(0), 100 * s / (670 * q - 74 * p))
        self.each_phase(net, e, add)

    def bank_phases(self, net, e):
        self.each_phase(net, e, lambda node, neutral, times: net.shunt(to(node, neutral), times * decimal(e["q"]) / self.mva))

    def filter_phases(self, net, e):
        n, quality = decimal(e["order"]), decimal(e["quality"])

        def add(node, neutral, times):
            xc = self.mva / (times * decimal(e["q"]))
            if e["kind"] == "single":
                net.series(to(node, neutral), xc / (n * quality), xc / (n * n), xc)
                return
            inner = net.inner()
            net.series(between(node, inner), Fraction(0), Fraction(0), xc)
            if e["kind"] == "highpass":
                net.series(to(inner, neutral), quality * xc / n, Fraction(0))
                net.series(to(inner, neutral), Fraction(0), xc / (n * n))
            else:
                x = xc / (n * n - 1)
                net.series(to(inner, neutral), quality * n * x, Fraction(0))
                net.series(to(inner, neutral), Fraction(0), x, x)
        self.each_phase(net, e, add)


def to(node, neutral):
    return ground(node) if neutral is None else between(node, neutral)


def study_of(table):
    return (Phases if table["study"].get("model") == "phases" else Study)(table)


# ---- the admittances of branches and groups

def solution(a, rows, right):
    """The solution of a system, by the steps of the reduction with one column more."""
    rows = [row + [b] for row, b in zip(rows, right)]
    n = len(rows)
    for step, pivot in enumerate(rows):
        if all(part[0] <= 0 <= part[1] for part in pivot[step]):
            raise NoValue
        for row in rows[step + 1:]:
            if row[step] != NOUGHT:
                factor = a.cdiv(row[step], pivot[step])
                for column in range(step + 1, n + 1):
                    row[column] = a.csub(row[column], a.cmul(factor, pivot[column]))
    found = [None] * n
    for i in reversed(range(n)):
        left = rows[i][n]
        for j in range(i + 1, n):
            left = a.csub(left, a.cmul(rows[i][j], found[j]))
        found[i] = a.cdiv(left, rows[i][i])
    return found


class Unit:
    """A branch alone, or three coupled ones, with the taps that are at live nodes, and the law from that of one network to that of another."""

    def __init__(self, a, branches, places, high=None):
        self.a = a
        self.law, self.high = branches[0][1], high or branches[0][1]
        self.exact = [[tap for tap in taps if tap[0] in places] for taps, _ in branches]
        self.taps = [[(places[node], a.of(ratio)) for node, ratio in taps] for taps in self.exact]
        self.factors = [[[(i, j, a.mul(c, d)) for i, c in row for j, d in column] for column in self.taps] for row in self.taps]
        first = 2 if self.law[0] == "coupled" else 1
        self.values = [a.range(x, y) for x, y in zip(self.law[first:], self.high[first:])]

    def resistance(self, r, h, k, m):
        a = self.a
        plain = self.law[2] == 0 if self.law[0] == "series" else self.law[-2] == 0
        if plain:
            return r
        return a.mul(r, a.sub(a.add(a.of(Fraction(1)), k), a.div(a.mul(k, m), a.add(m, a.square(h)))))

    def admittances(self, h):
        """By row and column of the unit's branches."""
        a = self.a
        one = a.of(Fraction(1))
        if self.law[0] == "shunt":
            return [[((0, 0), a.mul(h, self.values[0]))]]
        if self.law[0] == "series":
            r, k, m, x, xc = self.values
            return [[a.cdiv((one, (0, 0)), (self.resistance(r, h, k, m), a.sub(a.mul(h, x), a.div(xc, h))))]]
        own_r, own_x, mutual_r, ab, bc, ca, k, m = self.values
        own = (self.resistance(own_r, h, k, m), a.mul(h, own_x))
        mutual = {pair: (self.resistance(mutual_r, h, k, m), a.mul(h, x)) for pair, x in (((0, 1), ab), ((1, 2), bc), ((0, 2), ca))}
        rows = [[own if p == q else mutual[min(p, q), max(p, q)] for q in range(3)] for p in range(3)]
        columns = [solution(a, rows, [(one, (0, 0)) if p == q else NOUGHT for p in range(3)]) for q in range(3)]
        return [list(row) for row in zip(*columns)]

    def kept(self, h):
        """The branches that have a tap, their admittances, and whether they are of a group."""
        ys = self.admittances(h)
        there = [p for p, taps in enumerate(self.taps) if taps]
        return [self.taps[p] for p in there], [[ys[p][q] for q in there] for p in there], self.law[0] == "coupled"

    def apart(self, places):
        """A group whose mutual reactances are equal, as four branches; any other unit as it is."""
        if self.law[0] != "coupled" or len(set(self.law[5:8])) != 1:
            return [self]
        _, _, own_r, own_x, mutual_r, ab, _, _, k, m = self.law
        a, b, c = self.exact
        difference = ("series", 3 * (own_r - mutual_r), k, m, 3 * (own_x - ab), Fraction(0))
        total = ("series", 3 * (own_r + 2 * mutual_r), k, m, 3 * (own_x + 2 * ab), Fraction(0))
        four = [(a + opposite(b), difference), (b + opposite(c), difference), (a + opposite(c), difference), (a + b + c, total)]
        return [Unit(self.a, [branch], places) for branch in four if branch[0]]


def units_of(a, net, high, places):
    """The branches and groups that have a live node, from one network to another."""
    units, at = [], 0
    while at < len(net.branches):
        count = 3 if net.branches[at][1][0] == "coupled" else 1
        branches = net.branches[at:at + count]
        if any(node in places for taps, _ in branches for node, _ in taps):
            units.append(Unit(a, branches, places, high.branches[at][1]))
        at += count
    return units


# ---- the matrix of a box, and its reduction

class Scan:
    """A scan of the network that the study has for it, or of others from one to another, with an extra susceptance at its node."""

    def __init__(self, study, entry, pair=None, extra=Fraction(0)):
        self.a = Arithmetic(study.scale)
        self.bus = study.bus[entry["bus"]]
        net, driven = study.seen(entry)
        net, self.high = pair or (net, net)
        self.extra = extra
        live = net.live()
        ordering = [n for n in range(net.buses, net.nodes) if n in live]
        ordering += [n for n in range(net.buses) if n in live and n != driven]
        ordering += [driven]
        self.fed = driven in live
        self.places = {node: place for place, node in enumerate(ordering)}
        self.size = len(ordering)
        self.net = net
        self.units = None
        self.v, self.s = millionths(str(study.table["bus"][self.bus]["kv"])), millionths(str(study.table["study"]["mva"]))
        self.curve = Curve(entry)
        self.method = study.table["study"].get("method", "elimination")
        self.finest = millionths(str(entry["finest"]))
        self.locate = millionths(str(entry.get("locate", entry["finest"])))
        self.lo, self.hi = millionths(str(entry["from"])), millionths(str(entry["to"]))

    def prepared(self):
        if self.units is None:
            self.units = units_of(self.a, self.net, self.high, self.places)
        return self.units

    def orders(self, lo, hi):
        return ends(floor_div(lo << self.a.scale, MILLION), ceil_div(hi << self.a.scale, MILLION))

    def matrix(self, lo, hi):
        a, h = self.a, self.orders(lo, hi)
        rows = [[NOUGHT] * self.size for _ in range(self.size)]
        for unit in self.prepared():
            for ys, factors in zip(unit.admittances(h), unit.factors):
                for y, pairs in zip(ys, factors):
                    for row, column, factor in pairs:
                        rows[row][column] = a.cadd(rows[row][column], a.cscale(y, factor))
        return rows

    def reduced(self, rows):
        a = self.a
        rows = [row[:] for row in rows]
        for step in range(self.size - 1):
            pivot = rows[step]
            head = pivot[step]
            if all(part[0] <= 0 <= part[1] for part in head):
                raise NoValue
            for row in rows[step + 1:]:
                if row[step] == NOUGHT:
                    continue
                factor = a.cdiv(row[step], head)
                for column in range(step + 1, self.size):
                    row[column] = a.csub(row[column], a.cmul(factor, pivot[column]))
        return rows[-1][-1]

    def extra_at(self, lo, hi):
        """The admittance of the extra susceptance."""
        return ((0, 0), self.a.mul(self.orders(lo, hi), self.a.of(self.extra)))

    def by_elimination(self, rows, more, T):
        """The answers of the elimination part: whether it clears, and its micro-ohms. T is the threshold per unit."""
        clear_bound, above_bound = math.ceil((1 << self.a.scale) / T), math.floor((1 << self.a.scale) / T)
        try:
            y = self.a.cadd(self.reduced(rows), more)
        except NoValue:
            return False, None
        clear = clear_bound <= LIMIT and low_square(y) >= clear_bound ** 2
        if above_bound > LIMIT or not (high_square(y) < above_bound ** 2 and low_square(y) > 0):
            return clear, None
        return clear, (self.v * self.v << self.a.scale) // (self.s * root_ceil(high_square(y)))

    def by_inverse(self, rows, more, T):
        """The same of the inverse part."""
        most, least = math.floor(T * (1 << self.a.scale)), math.ceil(T * (1 << self.a.scale))
        try:
            rows = rows[:-1] + [rows[-1][:-1] + [self.a.cadd(rows[-1][-1], more)]]
            re, im, error = enclosed(self.a, rows)
        except NoValue:
            return False, None
        square = re * re + im * im
        clear = most <= LIMIT and root_ceil(square) + error <= most
        over = math.isqrt(square) - error
        if least > LIMIT or over <= least:
            return clear, None
        return clear, over * self.v * self.v // ((1 << self.a.scale) * self.s)

    def by_branches(self, lo, hi, T):
        """The same of the branch-wise part."""
        most, least = math.floor(T * (1 << self.a.scale)), math.ceil(T * (1 << self.a.scale))
        try:
            h = self.orders(lo, hi)
            parts = [part for unit in self.prepared() for part in unit.apart(self.places)]
            bank = [([[(self.size - 1, self.a.of(Fraction(1)))]], [[self.extra_at(lo, hi)]], False)] if self.extra > 0 else []
            z, error = estimated(self.a, self.size, [part.kept(h) for part in parts] + bank)
        except NoValue:
            return False, None
        clear = most <= LIMIT and root_ceil(high_square(z)) + error <= most
        over = math.isqrt(low_square(z)) - error
        if least > LIMIT or over <= least:
            return clear, None
        return clear, over * self.v * self.v // ((1 << self.a.scale) * self.s)

    def answers(self, lo, hi):
        """The answers of the parts, the first of them first; none at a node that is not fed."""
        if not self.fed:
            return
        T = self.curve.least(lo, hi) * self.s / (self.v * self.v)
        try:
            rows, more = self.matrix(lo, hi), self.extra_at(lo, hi)
        except NoValue:
            rows = more = None
        if rows:
            yield self.by_elimination(rows, more, T)
        if self.method == "branchwise":
            yield self.by_branches(lo, hi, T)
        elif rows and self.method == "both" and hi - lo <= self.locate:
            yield self.by_inverse(rows, more, T)

    def is_clear(self, lo, hi):
        return any(clear for clear, _ in self.answers(lo, hi))

    def micro_ohms(self, at):
        return next((ohms for _, ohms in self.answers(at, at) if ohms is not None), None)

    def boxes(self):
        todo = [(self.lo, self.hi)]
        while todo:
            lo, hi = todo.pop()
            if self.is_clear(lo, hi):
                yield lo, hi, "cleared", None, None
                continue
            middle = (lo + hi) // 2
            if hi - lo <= self.locate:
                found = next(((at, ohms) for at in (middle, lo, hi) if (ohms := self.micro_ohms(at)) is not None), None)
                if found:
                    yield lo, hi, "peak", *found
                    continue
            if hi - lo <= self.finest:
                yield lo, hi, "undecided", None, None
                continue
            todo += [(middle, hi), (lo, middle)]


def root_ceil(n):
    root = math.isqrt(n)
    return root if root * root == n else root + 1


# ---- the report

def dash(value):
    return "-" if value is None else six(value)


def region_row(number, run, hz):
    lo, hi = run[0][0], run[-1][1]
    peaks = [box for box in run if box[2] == "peak"]
    best = max(peaks, key=lambda box: box[4]) if peaks else (None,) * 5
    low, high = lo * hz // MILLION, ceil_div(hi * hz, MILLION)
    return f"region,{number},{six(lo)},{six(hi)},{six(low)},{six(high)},{len(peaks)},{len(run) - len(peaks)},{dash(best[3])},{dash(best[4])}"


def report(table, made=Scan):
    """The report of scans that are made so."""
    study = study_of(table)
    hz = millionths(str(table["study"].get("hz", 50)))
    status = 0
    for entry in table.get("scan", []):
        scan = made(study, entry)
        threshold = six(millionths(str(entry["threshold"]))) if "threshold" in entry else "curve"
        method = table["study"].get("method", "elimination")
        yield f"scan,{entry['name']},{entry['bus']},{entry.get('phase', entry.get('network', 'positive'))},{six(scan.lo)},{six(scan.hi)},{threshold},{method}"
        counts, regions, run, number = {"cleared": 0, "peak": 0, "undecided": 0}, 0, [], 0
        for box in scan.boxes():
            if box[2] == "cleared" and run:
                regions += 1
                yield region_row(regions, run, hz)
                run = []
            number += 1
            counts[box[2]] += 1
            yield f"box,{number},{six(box[0])},{six(box[1])},{box[2]},{dash(box[3])},{dash(box[4])}"
            if box[2] != "cleared":
                run.append(box)
        if run:
            regions += 1
            yield region_row(regions, run, hz)
        yield f"summary,{entry['name']},{number},{counts['cleared']},{counts['peak']},{counts['undecided']},{regions}"
        if counts["peak"]:
            status = 3
        elif counts["undecided"] and status == 0:
            status = 4
    yield f"end,{status}"


def main():
    with open(sys.argv[1], "rb") as file:
        table = tomllib.load(file)
    for line in report(table):
        print(line)


if __name__ == "__main__":
    main()
