#!/usr/bin/env python3
"""The report of `harmscan limits STUDY SPECTRUM [LEVELS]`, by another program.

usage: limits.py STUDY SPECTRUM [LEVELS]

It follows docs/distortion.md, limits.md, spectrum.md and report.md over the whole numbers and fractions of scan.py, and shares no code with
harmscan. It takes accepted studies, spectra and levels, and judges nothing.
"""
import csv
import math
import sys
import tomllib
import typing
from fractions import Fraction

import scan
from scan import MILLION, NOUGHT, NoValue, ends, high_square, low_square, millionths, root_ceil

KINDS = ("source", "line", "transformer", "load", "bank", "filter")
MOST = 1 << 125


class Row(typing.NamedTuple):
    """An injected current, in amperes; the phase is None in the sequence model."""

    order: int
    bus: str
    phase: str | None
    re: str
    im: str


def node_of(study, bus, phase):
    return study.bus[bus] if phase is None else 3 * study.bus[bus] + "abc".index(phase)


def owned(study, order):
    """The network that an order sees, and the numbers of its elements, from 1 over the kinds in order, each with its own branches."""
    net = study.network() if isinstance(study, scan.Phases) else study.network(order % 3 == 0)
    owners = [(number, net.only(number)) for number in range(1, len(study.elements()) + 1)]
    return net, owners


class Order:
    """The solution of an order for its injections, where it has one."""

    def __init__(self, study, order, rows):
        self.a = a = scan.Arithmetic(study.scale)
        self.study = study
        net, owners = owned(study, order)
        live = net.live()
        driven = max(live, default=None)
        nodes = [n for n in range(net.buses, net.nodes) if n in live and n != driven]
        nodes += [n for n in range(net.buses) if n in live and n != driven]
        self.places = {node: place for place, node in enumerate(nodes + [driven])} if live else {}
        self.h = ends(order << a.scale, order << a.scale)
        self.volts = None
        try:
            # the units of each element that has a live node, by its number
            self.units = [(owner, unit) for owner, part in owners for unit in scan.units_of(a, part, part, self.places)]
            self.volts = scan.solution(a, self.matrix(), self.right(rows))
        except (NoValue, KeyError):
            # a node that isn't live has no place, and no solution where a current is injected
            pass

    def right(self, rows):
        a, table = self.a, self.study.table
        right = [NOUGHT] * len(self.places)
        s = millionths(str(table["study"]["mva"]))
        for row in rows:
            v = millionths(str(table["bus"][self.study.bus[row.bus]]["kv"]))
            amount = tuple(a.of(Fraction(millionths(part) * v, 10 ** 9 * s)) for part in (row.re, row.im))
            place = self.places[node_of(self.study, row.bus, row.phase)]
            right[place] = a.cadd(right[place], amount)
        return right

    def matrix(self):
        a = self.a
        rows = [[NOUGHT] * len(self.places) for _ in self.places]
        for _, unit in self.units:
            for ys, factors in zip(unit.admittances(self.h), unit.factors):
                for y, pairs in zip(ys, factors):
                    for i, j, factor in pairs:
                        rows[i][j] = a.cadd(rows[i][j], a.cscale(y, factor))
        return rows

    def voltage(self, node):
        """The squares of a voltage, if it has any."""
        if self.volts is None:
            return None
        v = self.volts[self.places[node]]
        return low_square(v), high_square(v)

    def current(self, owner, node):
        """The squares of the current of an element at a node, if it has any."""
        if self.volts is None:
            return None
        try:
            total = self.terminal(owner, self.places[node])
        except NoValue:
            return None
        return low_square(total), high_square(total)

    def terminal(self, owner, place):
        a, total = self.a, NOUGHT
        for number, unit in self.units:
            if number != owner or all(other != place for taps in unit.taps for other, _ in taps):
                continue
            drops = []
            for taps in unit.taps:
                drop = NOUGHT
                for other, ratio in taps:
                    drop = a.cadd(drop, a.cscale(self.volts[other], ratio))
                drops.append(drop)
            for taps, ys in zip(unit.taps, unit.admittances(self.h)):
                through = scan.dot(a, ys, drops)
                for other, ratio in taps:
                    if other == place:
                        total = a.cadd(total, a.cscale(through, ratio))
        return total


def total_of(squares):
    if any(pair is None for pair in squares):
        return None
    low, high = sum(pair[0] for pair in squares), sum(pair[1] for pair in squares)
    return (low, high) if high < MOST else None


def bounds_of(squares, times, rho, scale):
    """Bounds in ten-thousandths of a percent, if there are any."""
    if squares is None:
        return None
    low = math.floor(math.isqrt(times * squares[0]) * rho / (1 << scale))
    high = math.ceil(root_ceil(times * squares[1]) * rho / (1 << scale))
    return (low, high) if max(low, high) < 1 << 64 else None


# ---- limits, in ten-thousandths of a percent

def by_class(value, classes, last):
    return next((figure for most, figure in classes if value <= most), last)


def voltage_limits(kv):
    return by_class(kv, [(MILLION, (50000, 80000)), (69 * MILLION, (30000, 50000)), (161 * MILLION, (15000, 25000))], (10000, 15000))


UP_TO_69 = [(1000, (150000, 70000, 60000, 25000, 14000, 200000)), (100, (120000, 55000, 50000, 20000, 10000, 150000)),
            (50, (100000, 45000, 40000, 15000, 7000, 120000)), (20, (70000, 35000, 25000, 10000, 5000, 80000)),
            (0, (40000, 20000, 15000, 6000, 3000, 50000))]
ABOVE_161 = [(50, (30000, 15000, 11500, 4500, 2200, 37500)), (25, (20000, 10000, 7500, 3000, 1500, 25000)),
             (0, (10000, 5000, 3800, 1500, 1000, 15000))]


def current_figures(kv, isc, il):
    table = UP_TO_69 if kv <= 161 * MILLION else ABOVE_161
    figures = next(row for times, row in table if isc >= times * il)
    return tuple(figure // 2 for figure in figures) if 69 * MILLION < kv <= 161 * MILLION else figures


def current_limit(figures, order):
    if order in (2, 4, 6):
        return figures[0] // 2
    return figures[next(i for i, most in enumerate((10, 16, 22, 34, 50)) if order <= most)]


# ---- the report

def four(n):
    return f"{n // 10000}.{n % 10000:04d}"


class Report:
    def __init__(self, study, spectrum, levels):
        self.study = study
        self.words = "abc" if isinstance(study, scan.Phases) else "s"
        self.orders = sorted({row.order for row in spectrum})
        self.solved = {order: Order(study, order, [row for row in spectrum if row.order == order]) for order in self.orders}
        self.levels = levels
        self.counts = {"pass": 0, "fail": 0, "undecided": 0}
        self.buses = [(bus["name"], millionths(str(bus["kv"]))) for bus in study.table["bus"]]

    def judged(self, bounds, limit):
        verdict = "undecided"
        if bounds is not None and bounds[1] <= limit:
            verdict = "pass"
        elif bounds is not None and bounds[0] > limit:
            verdict = "fail"
        self.counts[verdict] += 1
        low, high = map(four, bounds) if bounds is not None else "--"
        return f"{low},{high},{four(limit)},{verdict}"

    def node(self, bus, word):
        return node_of(self.study, bus, None if word == "s" else word)

    def seen(self, node):
        """The orders in whose network a node is live."""
        return [order for order in self.orders if node in self.solved[order].places]

    def rows(self):
        yield from self.voltages()
        yield from self.distortions()
        for point in self.study.table.get("pcc", []):
            yield from self.currents(point)
        yield "summary,limits," + ",".join(str(self.counts[word]) for word in ("pass", "fail", "undecided"))
        yield f"end,{3 if self.counts['fail'] else 4 if self.counts['undecided'] else 0}"

    def voltages(self):
        for order in self.orders:
            for name, kv in self.buses:
                for word in self.words:
                    node = self.node(name, word)
                    if node in self.solved[order].places:
                        limit = self.levels.get((name, order), voltage_limits(kv)[0])
                        bounds = bounds_of(self.solved[order].voltage(node), 3, MILLION, self.study.scale)
                        yield f"voltage,{name},{word},{order},{self.judged(bounds, limit)}"

    def distortions(self):
        for name, kv in self.buses:
            for word in self.words:
                node = self.node(name, word)
                limit = self.levels.get((name, "thd"), voltage_limits(kv)[1])
                squares = total_of([self.solved[order].voltage(node) for order in self.seen(node)])
                yield f"thd,{name},{word},{self.judged(bounds_of(squares, 3, MILLION, self.study.scale), limit)}"

    def currents(self, point):
        table, s, scale = self.study.table, millionths(str(self.study.table["study"]["mva"])), self.study.scale
        elements = [entry["name"] for kind in KINDS for entry in table.get(kind, [])]
        owner = elements.index(point["element"]) + 1
        v, il, isc = dict(self.buses)[point["bus"]], millionths(str(point["il"])), millionths(str(point["isc"]))
        figures, rho = current_figures(v, isc, il), Fraction(10 ** 15 * s, v * il)
        nodes = [(word, self.node(point["bus"], word)) for word in self.words]
        for order in self.orders:
            for word, node in nodes:
                if node in self.solved[order].places:
                    bounds = bounds_of(self.solved[order].current(owner, node), 1, rho, scale)
                    yield f"current,{point['name']},{word},{order},{self.judged(bounds, current_limit(figures, order))}"
        for word, node in nodes:
            squares = total_of([self.solved[order].current(owner, node) for order in self.seen(node)])
            yield f"tdd,{point['name']},{word},{self.judged(bounds_of(squares, 1, rho, scale), figures[5])}"


def spectrum_of(text):
    """The rows of a spectrum, with or without a column of phases."""
    head, *rows = csv.reader(text.splitlines())
    return [Row(int(row[0]), row[1], row[2] if "phase" in head else None, *row[-2:]) for row in rows]


def levels_of(text):
    rows = list(csv.reader(text.splitlines()))[1:]
    return {(bus, order if order == "thd" else int(order)): millionths(percent) // 100 for bus, order, percent in rows}


def report(table, spectrum, levels=None):
    return Report(scan.study_of(table), spectrum_of(spectrum), levels_of(levels) if levels is not None else {}).rows()


def main():
    texts = [open(name, encoding="utf-8").read() for name in sys.argv[1:]]
    for line in report(tomllib.loads(texts[0]), *texts[1:]):
        print(line)


if __name__ == "__main__":
    main()
