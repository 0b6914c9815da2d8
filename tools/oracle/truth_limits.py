#!/usr/bin/env python3
"""Asks of the reports of the built program on distortion whether they are true, on random studies and over exact fractions.

usage: truth_limits.py PROGRAM [--phases] [--count N] [--seed S]

The studies, spectra and levels are those of compare.py, with --phases those of the three phases. The voltages of an order are the exact solution of its nodal equations, the currents
those of the exact branches. Each pair of bounds has to hold the exact value, and each pass or fail has to be true of it; the square of a
value in ten-thousandths of a percent is compared with the squares of the bounds, so no root and no rounding stands in between. Prints
what is false, and counts; the status is 1 where something is.
"""
import argparse
import pathlib
import random
import subprocess
import sys
import tempfile
import tomllib
from fractions import Fraction

sys.path.insert(0, str(pathlib.Path(__file__).resolve().parent))
import compare  # noqa: E402
import limits  # noqa: E402
import scan  # noqa: E402
import truth  # noqa: E402

ONE = 10 ** 6  # all of a whole, in ten-thousandths of a percent


NOUGHT = (Fraction(0), Fraction(0))


def solved(system, n):
    """The solutions of a system of n rows for each of its right sides, none where there is no one solution."""
    for step in range(n):
        best = next((i for i in range(step, n) if system[i][step] != (0, 0)), None)
        if best is None:
            return None
        system[step], system[best] = system[best], system[step]
        head = truth.inverse(system[step][step])
        system[step] = [truth.times(x, head) for x in system[step]]
        for i in range(n):
            if i != step and system[i][step] != (0, 0):
                factor = system[i][step]
                system[i] = [truth.less(x, truth.times(factor, y)) for x, y in zip(system[i], system[step])]
    return [row[n:] for row in system]


def group_admittance(law, h):
    """The admittances of three coupled branches by row and column, none where their impedances have no inverse."""
    _, _, r, x, mutual, ab, bc, ca, k, m = law
    grown = lambda value: value * (1 + k - k * m / (m + h * h)) if k else value
    own, other = (grown(r), h * x), lambda x: (grown(mutual), h * x)
    rows = [[own, other(ab), other(ca)], [other(ab), own, other(bc)], [other(ca), other(bc), own]]
    return solved([row + [(Fraction(int(i == j)), Fraction(0)) for j in range(3)] for i, row in enumerate(rows)], 3)


def units_of(part, h):
    """The branches of an element, each alone or three together, as lists of taps, with their admittances by row and column."""
    rest = list(part.branches)
    while rest:
        law = rest[0][1]
        count = 3 if law[0] == "coupled" else 1
        y = group_admittance(law, h) if count == 3 else truth.admittance(law, h)
        yield [taps for taps, _ in rest[:count]], y if count == 3 else y and [[y]]
        rest = rest[count:]


class Order:
    """The exact voltages of an order, none where there is no one solution or some branch has no admittance."""

    def __init__(self, study, order, rows):
        net, owners = limits.owned(study, order)
        live = net.live()
        self.places = {node: place for place, node in enumerate(sorted(live))}
        units = [(owner, *unit) for owner, part in owners for unit in units_of(part, Fraction(order))]
        # the taps at nodes that aren't live have no voltage
        units = [(owner, [[tap for tap in taps if tap[0] in live] for taps in all_taps], y) for owner, all_taps, y in units]
        self.units = [unit for unit in units if any(unit[1])]
        self.volts = None
        nodes = [limits.node_of(study, row.bus, row.phase) for row in rows]
        if all(y is not None for *_, y in self.units) and live.issuperset(nodes):
            found = solved(self.system(study, rows, nodes), len(self.places))
            self.volts = found and [row[0] for row in found]

    def system(self, study, rows, nodes):
        n = len(self.places)
        system = [[NOUGHT] * (n + 1) for _ in range(n)]
        for _, all_taps, ys in self.units:
            for p, taps in enumerate(all_taps):
                for q, others in enumerate(all_taps):
                    for node, c in taps:
                        for other, d in others:
                            i, j, y = self.places[node], self.places[other], ys[p][q]
                            system[i][j] = (system[i][j][0] + y[0] * c * d, system[i][j][1] + y[1] * c * d)
        for row, node in zip(rows, nodes):
            base = study.kv[study.bus[row.bus]] / (1000 * study.mva)
            i = self.places[node]
            system[i][n] = (system[i][n][0] + Fraction(row.re) * base, system[i][n][1] + Fraction(row.im) * base)
        return system

    def voltage(self, node):
        """Three times the square of the size of a voltage."""
        return 3 * truth.square(self.volts[self.places[node]])

    def current(self, owner, node):
        """The square of the size of the current of an element at a node."""
        total = NOUGHT
        for number, all_taps, ys in self.units:
            if number != owner:
                continue
            drops = [tuple(sum((c * self.volts[self.places[n]][part] for n, c in taps), Fraction(0)) for part in (0, 1)) for taps in all_taps]
            for p, taps in enumerate(all_taps):
                ratio = sum(c for n, c in taps if n == node)
                for y, drop in zip(ys[p], drops):
                    through = truth.times(y, drop)
                    total = (total[0] + ratio * through[0], total[1] + ratio * through[1])
        return truth.square(total)


class Judge:
    def __init__(self, texts):
        table, spectrum, *levels = texts
        table = tomllib.loads(table)
        self.study = (scan.Phases if table["study"].get("model") == "phases" else scan.Study)(table)
        self.rows = limits.spectrum_of(spectrum)
        self.levels = limits.levels_of(levels[0]) if levels else {}
        self.orders = {order: Order(self.study, order, [row for row in self.rows if row.order == order]) for order in {row.order for row in self.rows}}
        self.points = {point["name"]: point for point in self.study.table.get("pcc", [])}
        self.asked = 0

    def squares(self, word, name, phase, order):
        """The distortion squares whose sum a row speaks of, and none for an order without a solution."""
        bus = self.study.bus[name] if word in ("voltage", "thd") else self.study.bus[self.points[name]["bus"]]
        node = bus if phase == "s" else 3 * bus + "abc".index(phase)
        orders = [order] if order else [h for h in self.orders if node in self.orders[h].places]
        for h in orders:
            solved = self.orders[h]
            if solved.volts is None:
                yield None
            elif word in ("voltage", "thd"):
                yield solved.voltage(node)
            else:
                point = self.points[name]
                elements = [entry["name"] for kind in limits.KINDS for entry in self.study.table.get(kind, [])]
                full = 1000 * self.study.mva / (self.study.kv[bus] * Fraction(str(point["il"])))
                yield solved.current(elements.index(point["element"]) + 1, node) * full * full

    def limit(self, word, name, order):
        if word in ("voltage", "thd"):
            kv = scan.millionths(str(self.study.table["bus"][self.study.bus[name]]["kv"]))
            return self.levels.get((name, order or "thd"), limits.voltage_limits(kv)[0 if order else 1])
        point = self.points[name]
        kv = scan.millionths(str(self.study.table["bus"][self.study.bus[point["bus"]]]["kv"]))
        figures = limits.current_figures(kv, *(scan.millionths(str(point[key])) for key in ("isc", "il")))
        return limits.current_limit(figures, order) if order else figures[5]

    def faults(self, fields):
        word, name, order = fields[0], fields[1], int(fields[3]) if fields[0] in ("voltage", "current") else None
        low, high, limit, verdict = fields[-4:]
        if int(limit.replace(".", "")) != self.limit(word, name, order):
            yield f"the limit is not {limit}"
        if low == "-":
            if verdict != "undecided":
                yield "a verdict without bounds"
            return
        self.asked += 1
        parts = list(self.squares(word, name, fields[2], order))
        if any(part is None for part in parts):
            yield "bounds where there is no solution"
            return
        exact = sum(parts) * ONE * ONE
        low, high, limit = (int(text.replace(".", "")) for text in (low, high, limit))
        if not low * low <= exact <= high * high:
            yield "the value is not between its bounds"
        if verdict == "pass" and exact > limit * limit or verdict == "fail" and exact <= limit * limit:
            yield f"the verdict is not {verdict}"
        if verdict == "undecided" and not low <= limit < high:
            yield "undecided, and the limit is not between the bounds"


def main():
    parser = argparse.ArgumentParser()
    parser.add_argument("program")
    parser.add_argument("--phases", action="store_true")
    parser.add_argument("--count", type=int, default=100)
    parser.add_argument("--seed", type=int, default=1)
    words = parser.parse_args()
    studies = refused = rows = asked = false = 0
    with tempfile.TemporaryDirectory() as folder:
        folder = pathlib.Path(folder)
        for seed in range(words.seed, words.seed + words.count):
            texts = compare.files(random.Random(seed), True, words.phases)
            for name, text in texts.items():
                (folder / name).write_text(text)
            run = subprocess.run([words.program, "limits", *(str(folder / name) for name in texts)], capture_output=True, text=True, timeout=600)
            if run.returncode == 2:
                refused += 1
                continue
            studies += 1
            judge = Judge(list(texts.values()))
            for line in run.stdout.splitlines():
                fields = line.split(",")
                if fields[0] in ("voltage", "thd", "current", "tdd"):
                    rows += 1
                    for fault in judge.faults(fields):
                        false += 1
                        print(f"seed {seed}, {line}: {fault}")
            asked += judge.asked
    print(f"{studies} studies, {refused} refused; {rows} rows, {asked} with bounds; {false} false")
    sys.exit(1 if false or not asked else 0)


if __name__ == "__main__":
    main()
