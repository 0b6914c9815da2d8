#!/usr/bin/env python3
"""Draws a report of `harmscan scan`. Nothing here is proved.

usage: plot.py REPORT [STUDY] -o FILE

Each scan is a panel over the orders, and over hertz where they are known. A cleared box is a band up to its threshold: at every
order of it the impedance is within that. A peak is a mark at the order and the ohms of its row, an undecided box is hatched, and a
region carries its hertz. With the study the threshold of a curve is drawn too, and the impedance as it is sampled in floating
point, a thin line of which nothing is claimed.

FILE is of any kind that matplotlib writes: png, svg, pdf. It needs matplotlib (the package python3-matplotlib of Debian), and with a
study Python 3.11.
"""
import argparse
import itertools
import pathlib
import sys

# told apart by colour-blind readers too, after Okabe and Ito
CLEARED, PEAK, UNDECIDED, SAMPLED = "#009E73", "#D55E00", "#999999", "#0072B2"

# above so many boxes their edges aren't drawn, and above so many peaks their marks are small
MANY = 60


class Scan:
    """The rows of one scan of a report."""

    def __init__(self, fields):
        self.name, self.bus, self.network = fields[:3]
        self.lo, self.hi = float(fields[3]), float(fields[4])
        self.threshold = None if fields[5] == "curve" else float(fields[5])
        self.method = fields[6]
        self.boxes, self.regions = [], []


def read_report(text):
    """The scans of a report, each with its boxes and regions as lists of fields."""
    scans = []
    for line in text.splitlines():
        word, *fields = line.split(",")
        if word == "scan":
            scans.append(Scan(fields))
        elif word == "box":
            scans[-1].boxes.append(fields)
        elif word == "region":
            scans[-1].regions.append(fields)
    return scans


def hertz_of_order(scans):
    """The fundamental frequency, from the first region's row, if there is one."""
    for scan in scans:
        for _, lo, _, hertz, *_ in scan.regions:
            return float(hertz) / float(lo)
    return None


class Samples:
    """A study in floating point: thresholds, and impedances at single orders."""

    def __init__(self, path):
        import tomllib

        sys.path.insert(0, str(pathlib.Path(__file__).resolve().parents[1] / "oracle"))
        import scan as oracle

        self.table = tomllib.loads(pathlib.Path(path).read_text())
        self.study = oracle.Study(self.table)
        self.hz = float(self.study.hz)
        self.entries = {entry["name"]: entry for entry in self.table.get("scan", [])}

    def threshold(self, scan):
        """The orders and ohms of the scan's threshold."""
        entry = self.entries[scan.name]
        if "curve_at" not in entry:
            return [scan.lo, scan.hi], [scan.threshold] * 2
        return [float(at) for at in entry["curve_at"]], [float(ohms) for ohms in entry["curve_ohms"]]

    def impedances(self, scan, orders):
        """The size of the impedance in ohms at each order, none where the nodal matrix is singular."""
        net = self.study.network(scan.network == "zero")
        live = sorted(net.live())
        place = {node: number for number, node in enumerate(live)}
        driven = self.study.bus[scan.bus]
        branches = [([(place[node], float(ratio)) for node, ratio in taps], law[0], [float(x) for x in law[1:]]) for taps, law in net.branches if taps[0][0] in place]
        base = float(self.study.kv[driven]) ** 2 / float(self.study.mva)
        return [sampled(branches, len(live), place[driven], h, base) for h in orders]


def admittance(kind, values, h):
    if kind == "shunt":
        return 1j * h * values[0]
    r, k, m, x, xc = values
    return 1 / complex(r * (1 + k - k * m / (m + h * h)), h * x - xc / h)


def sampled(branches, size, driven, h, base):
    """The size of the driving-point impedance at an order, by elimination in floating point."""
    try:
        rows = [[0j] * size + [0j] for _ in range(size)]
        rows[driven][size] = 1 + 0j
        for taps, kind, values in branches:
            y = admittance(kind, values, h)
            for i, c in taps:
                for j, d in taps:
                    rows[i][j] += y * c * d
        for step in range(size):
            best = max(range(step, size), key=lambda i: abs(rows[i][step]))
            rows[step], rows[best] = rows[best], rows[step]
            for row in rows[:step] + rows[step + 1:]:
                factor = row[step] / rows[step][step]
                if factor:
                    for column in range(step, size + 1):
                        row[column] -= factor * rows[step][column]
        return abs(rows[driven][size] / rows[driven][driven]) * base
    except ZeroDivisionError:
        return None


def draw(scan, axes, samples, hz):
    at, ohms = samples.threshold(scan) if samples else ([scan.lo, scan.hi], [scan.threshold] * 2)
    known = ohms[0] is not None
    tops = list(ohms) if known else []
    if samples:
        count = 2000
        orders = [scan.lo + (scan.hi - scan.lo) * i / count for i in range(count + 1)]
        impedances = samples.impedances(scan, orders)
        tops += [z for z in impedances if z is not None]
        axes.plot(orders, [float("nan") if z is None else z for z in impedances], color=SAMPLED, linewidth=0.7, label="sampled, nothing is claimed of it", zorder=4)
    tops += [float(box[5]) for box in scan.boxes if box[3] == "peak"]
    bottom, top = min(tops, default=1) / 4, max(tops, default=1) * 2
    axes.set_yscale("log")
    axes.set_ylim(bottom, top)
    axes.set_xlim(scan.lo, scan.hi)
    named = set()

    def label(text):
        return "_" if text in named else named.add(text) or text

    for kind, lo, hi in runs(scan.boxes):
        if kind == "cleared":
            orders = dense(at, lo, hi)
            heights = [height(at, ohms, x) if known else top for x in orders]
            axes.fill_between(orders, bottom, heights, color=CLEARED, alpha=0.3, linewidth=0, label=label("cleared: within at every order"))
        elif kind == "peak":
            axes.axvspan(lo, hi, color=PEAK, alpha=0.15, linewidth=0, label=label("box with a peak"))
        else:
            axes.axvspan(lo, hi, facecolor="none", edgecolor=UNDECIDED, hatch="////", linewidth=0.4, label=label("undecided"))
    if len(scan.boxes) <= MANY:
        edges = [float(box[1]) for box in scan.boxes]
        axes.vlines(edges, bottom, [height(at, ohms, x) if known else top for x in edges], color=CLEARED, linewidth=0.4)
    peaks = [(float(box[4]), float(box[5])) for box in scan.boxes if box[3] == "peak"]
    if peaks:
        axes.plot(*zip(*peaks), linestyle="none", marker="^", markersize=5 if len(peaks) <= MANY else 2, color=PEAK, label="peak: at least these ohms", zorder=5)
    if known:
        orders = dense(at, scan.lo, scan.hi)
        axes.plot(orders, [height(at, ohms, x) for x in orders], color="black", linewidth=1.2, label="threshold", zorder=3)
    for _, lo, hi, low, high, *_ in scan.regions[:12]:
        axes.annotate(f"{float(low):.5g}–{float(high):.5g} Hz", ((float(lo) + float(hi)) / 2, top), xytext=(0, -4), textcoords="offset points", ha="center", va="top", fontsize=7, rotation=90 if len(scan.regions) > 3 else 0)
    axes.set_title(f"{scan.name}: {scan.bus}, {scan.network}, {scan.method}", loc="left", fontsize=10)
    axes.set_xlabel("order")
    axes.set_ylabel("impedance in ohms")
    if hz:
        axes.secondary_xaxis("top", functions=(lambda x: x * hz, lambda x: x / hz)).set_xlabel("Hz", fontsize=8)
    axes.legend(fontsize=7, loc="upper left", bbox_to_anchor=(1.01, 1), borderaxespad=0, frameon=False)


def runs(boxes):
    """The boxes, those of one kind that follow one another as one: the kind, and both ends."""
    for kind, run in itertools.groupby(boxes, key=lambda box: box[3]):
        run = list(run)
        yield kind, float(run[0][1]), float(run[-1][2])


def dense(at, lo, hi):
    """Orders from lo to hi, with the points of a curve and many between: its lines are straight in ohms, and the axis is logarithmic."""
    count = 1 + int(200 * (hi - lo) / (at[-1] - at[0]))
    return sorted({lo, hi, *(x for x in at if lo < x < hi), *(lo + (hi - lo) * i / count for i in range(count))})


def height(at, ohms, x):
    """The threshold at an order."""
    for a, b, v, w in zip(at, at[1:], ohms, ohms[1:]):
        if a <= x <= b:
            return v + (w - v) * (x - a) / (b - a)
    return ohms[-1]


def main():
    parser = argparse.ArgumentParser(description="Draws a report of harmscan. Nothing here is proved.")
    parser.add_argument("report")
    parser.add_argument("study", nargs="?", help="for the threshold of a curve, hertz, and a sampled impedance")
    parser.add_argument("-o", dest="file", required=True, help="the picture: .png, .svg or .pdf")
    words = parser.parse_args()
    scans = read_report(pathlib.Path(words.report).read_text())
    if not scans:
        sys.exit("plot: the report has no scan")
    try:
        import matplotlib
    except ImportError:
        sys.exit("plot: matplotlib is missing (the package python3-matplotlib)")
    matplotlib.use("Agg")
    matplotlib.rcParams.update({"svg.hashsalt": "harmscan", "svg.fonttype": "none"})
    from matplotlib import pyplot

    samples = Samples(words.study) if words.study else None
    if samples and any(scan.name not in samples.entries for scan in scans):
        sys.exit("plot: the report is not of this study")
    hz = samples.hz if samples else hertz_of_order(scans)
    figure, panels = pyplot.subplots(len(scans), 1, figsize=(9, 3.2 * len(scans)), squeeze=False, layout="constrained")
    for scan, axes in zip(scans, panels[:, 0]):
        draw(scan, axes, samples, hz)
    figure.savefig(words.file, dpi=110, metadata={"Date": None} if words.file.endswith(".svg") else None)


if __name__ == "__main__":
    main()
