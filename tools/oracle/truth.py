#!/usr/bin/env python3
"""Asks of the reports of the built program whether they are true, on random studies and over exact fractions.

usage: truth.py PROGRAM [--count N] [--seed S] [--method METHOD]

The studies are those of compare.py. In a cleared box the exact driving-point impedance has to exist and to be at most the threshold at the
ends of the box and at fractional orders between that are drawn; at the order of a peak it has to exist, to be above the threshold, and
to have at least the ohms of the row. The boxes of a scan have to cover its band, and an undecided one is no wider than the finest
width. Of a long report some boxes are drawn. No interval and no rounding stands in between: an impedance is a quotient of Gaussian
integers. Prints what is false, and counts; the status is 1 where something is.
"""
import argparse
import pathlib
import random
import subprocess
import sys
import tempfile
import tomllib
from fractions import Fraction
from math import lcm

sys.path.insert(0, str(pathlib.Path(__file__).resolve().parent))
import compare  # noqa: E402
import scan  # noqa: E402


def times(x, y):
    return x[0] * y[0] - x[1] * y[1], x[0] * y[1] + x[1] * y[0]


def less(x, y):
    return x[0] - y[0], x[1] - y[1]


def square(x):
    return x[0] * x[0] + x[1] * x[1]


def exactly_over(x, y):
    """A quotient of Gaussian integers that is one."""
    size = square(y)
    re, im = times(x, (y[0], -y[1]))
    assert re % size == 0 and im % size == 0
    return re // size, im // size


def inverse(z):
    """1/z, none of zero."""
    size = square(z)
    return (z[0] / size, -z[1] / size) if size else None


def admittance(law, h):
    if law[0] == "shunt":
        return Fraction(0), h * law[1]
    _, r, k, m, x, xc = law
    return inverse((r * (1 + k - k * m / (m + h * h)) if k else r, h * x - xc / h))


class Exact:
    """A network, seen at one node."""

    def __init__(self, net, driven, base):
        live = net.live()
        ordering = sorted(live - {driven}) + [driven]
        self.place = {node: place for place, node in enumerate(ordering)}
        self.branches = [branch for branch in net.branches if branch[0][0][0] in live]
        self.base = base

    def square_ohms(self, h):
        """The square of the size of the impedance in ohms, none where there is no impedance or some branch has no admittance."""
        n = len(self.place)
        rows = [[(Fraction(0), Fraction(0))] * n + [(Fraction(int(i == n - 1)), Fraction(0))] for i in range(n)]
        for taps, law in self.branches:
            y = admittance(law, h)
            if y is None:
                return None
            for node, c in taps:
                for other, d in taps:
                    i, j = self.place[node], self.place[other]
                    rows[i][j] = (rows[i][j][0] + y[0] * c * d, rows[i][j][1] + y[1] * c * d)
        z = last_of_solution([whole(row) for row in rows])
        return None if z is None else z * self.base ** 2


def whole(row):
    """A row in Gaussian integers, times the denominator of all its parts."""
    scale = lcm(*(part.denominator for x in row for part in x))
    return [(int(re * scale), int(im * scale)) for re, im in row]


def last_of_solution(rows):
    """The square of the size of the last entry of the solution, by elimination without fractions (Bareiss); none where there is none."""
    n, before = len(rows), (1, 0)
    for step in range(n):
        best = next((i for i in range(step, n) if rows[i][step] != (0, 0)), None)
        if best is None:
            return None
        rows[step], rows[best] = rows[best], rows[step]
        pivot = rows[step][step]
        for i in range(step + 1, n):
            factor = rows[i][step]
            rows[i] = [(0, 0)] * (step + 1) + [exactly_over(less(times(pivot, rows[i][j]), times(factor, rows[step][j])), before) for j in range(step + 1, n + 1)]
        before = pivot
    return Fraction(square(rows[-1][n]), square(rows[-1][n - 1]))


class Judge:
    """What is false in the boxes of one scan, and how many orders were asked."""

    def __init__(self, table, entry, rng):
        study = scan.Study(table)
        self.bus = study.bus[entry["bus"]]
        self.exact = Exact(study.seen(entry)[0], self.bus, study.kv[self.bus] ** 2 / study.mva)
        self.curve, self.rng, self.entry, self.asked = scan.Curve(entry), rng, entry, 0

    def threshold(self, h):
        return self.curve.at(h * scan.MILLION) / scan.MILLION

    def cleared(self, lo, hi):
        between = [lo + (hi - lo) * Fraction(self.rng.randrange(1, 997), 997) for _ in range(3)]
        for h in {lo, hi, (lo + hi) / 2, *between}:
            self.asked += 1
            z = self.exact.square_ohms(h)
            if z is None or z > self.threshold(h) ** 2:
                yield f"at order {h} the impedance is not within"

    def peak(self, lo, hi, at, ohms):
        self.asked += 1
        z = self.exact.square_ohms(at)
        if not lo <= at <= hi:
            yield f"the order {at} lies outside"
        if z is None or z <= self.threshold(at) ** 2:
            yield f"at order {at} the impedance is not above"
        elif z < ohms ** 2:
            yield f"at order {at} the impedance is below {ohms}"

    def boxes(self, rows, most=12):
        ends = [(Fraction(row[1]), Fraction(row[2])) for row in rows]
        band = (Fraction(str(self.entry["from"])), Fraction(str(self.entry["to"])))
        if (ends[0][0], ends[-1][1]) != band or any(a[1] != b[0] for a, b in zip(ends, ends[1:])):
            yield "the boxes do not cover the band"
        chosen = range(len(rows)) if len(rows) <= most else self.rng.sample(range(len(rows)), most)
        for number in chosen:
            (lo, hi), (kind, at, ohms) = ends[number], rows[number][3:]
            if kind == "cleared":
                faults = self.cleared(lo, hi)
            elif kind == "peak":
                faults = self.peak(lo, hi, Fraction(at), Fraction(ohms))
            else:
                faults = [] if hi - lo <= Fraction(str(self.entry["finest"])) else ["an undecided box is wide"]
            yield from (f"box {number + 1}: {fault}" for fault in faults)


def main():
    parser = argparse.ArgumentParser()
    parser.add_argument("program")
    parser.add_argument("--count", type=int, default=100)
    parser.add_argument("--seed", type=int, default=1)
    parser.add_argument("--method", help="of each study, in the place of the one that is drawn")
    words = parser.parse_args()
    studies = refused = boxes = asked = false = 0
    kinds = {"cleared": 0, "peak": 0, "undecided": 0}
    with tempfile.TemporaryDirectory() as folder:
        path = pathlib.Path(folder) / "study.toml"
        for seed in range(words.seed, words.seed + words.count):
            text = compare.study(random.Random(seed), words.method)
            path.write_text(text)
            run = subprocess.run([words.program, "scan", str(path)], capture_output=True, text=True, timeout=600)
            if run.returncode == 2:
                refused += 1
                continue
            studies += 1
            table, rng = tomllib.loads(text), random.Random(seed)
            entries = {entry["name"]: entry for entry in table["scan"]}
            reports, rows = {}, None
            for word, *fields in (line.split(",") for line in run.stdout.splitlines()):
                if word == "scan":
                    rows = reports[fields[0]] = []
                elif word == "box":
                    rows.append(fields)
            if reports.keys() != entries.keys():
                false += 1
                print(f"seed {seed}: the report has other scans")
            for name, rows in reports.items():
                judge = Judge(table, entries[name], rng)
                for row in rows:
                    kinds[row[3]] += 1
                for fault in judge.boxes(rows):
                    false += 1
                    print(f"seed {seed}, {name}, {fault}")
                boxes, asked = boxes + len(rows), asked + judge.asked
    print(f"{studies} studies, {refused} refused; {boxes} boxes: {kinds['cleared']} cleared, {kinds['peak']} peaks, {kinds['undecided']} undecided; {asked} orders asked; {false} false")
    sys.exit(1 if false or not asked else 0)


if __name__ == "__main__":
    main()
