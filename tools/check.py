#!/usr/bin/env python3
"""Tries the tools that read reports, tools/plot and tools/many, on the reports of examples/. The status is 1 where one answers something
else than expected. Where matplotlib is missing, or Python is older than 3.11, the pictures are passed over, with a line that says so."""
import pathlib
import subprocess
import sys
import tempfile

TOP = pathlib.Path(__file__).resolve().parents[1]

# a report, the words that its picture has with its study, and some that it has not
PICTURES = [
    ("moved", ["cleared: within at every order", "threshold", "sampled, nothing is claimed of it"], ["peak: at least these ohms", "undecided"]),
    ("voltage", ["cleared: within at every order", "peak: at least these ohms", "300–350 Hz", "threshold"], ["undecided"]),
    ("open", ["undecided", "734.38–781.25 Hz"], ["peak: at least these ohms"]),
    ("zero", ["zero: WORKS, zero, elimination", "positive: WORKS, positive, elimination", "478.12–581.25 Hz"], ["undecided"]),
]

TABLE = [
    "report,scan,boxes,cleared,peaks,undecided,regions,status",
    "moved.csv,around-5-and-7,1,1,0,0,0,0",
    "moved.csv,around-11-and-13,1,1,0,0,0,0",
    "open.csv,s1,8,7,0,1,1,4",
    "cut.csv,-,-,-,-,-,-,-",
]


def run(*words):
    return subprocess.run([sys.executable, *map(str, words)], cwd=TOP, capture_output=True, text=True)


def has_matplotlib():
    return sys.version_info >= (3, 11) and run("-c", "import matplotlib").returncode == 0


def pictures(folder):
    """The faults of the pictures of some examples."""
    for name, there, absent in PICTURES:
        file = folder / f"{name}.svg"
        answer = run("tools/plot/plot.py", f"examples/{name}.csv", f"examples/{name}.toml", "-o", file)
        text = file.read_text() if answer.returncode == 0 else ""
        yield from (f"plot: {name} lacks {words!r} {answer.stderr}" for words in there if words not in text)
        yield from (f"plot: {name} has {words!r}" for words in absent if words in text)
        alone = run("tools/plot/plot.py", f"examples/{name}.csv", "-o", folder / f"{name}.png")
        if alone.returncode != 0:
            yield f"plot: {name} without its study: {alone.stderr}"


def table(folder):
    """The faults of a table of reports, of which one is cut in its third line."""
    cut = folder / "cut.csv"
    cut.write_text((TOP / "examples/open.csv").read_text()[:100])
    answer = run("tools/many/summary.py", "examples/moved.csv", "examples/open.csv", cut)
    if answer.stdout.splitlines() != TABLE:
        yield f"many: the table is {answer.stdout!r} {answer.stderr}"


def main():
    with tempfile.TemporaryDirectory() as folder:
        folder = pathlib.Path(folder)
        faults = list(table(folder))
        if has_matplotlib():
            faults += pictures(folder)
        else:
            print("tools: no matplotlib, or Python before 3.11: the pictures are not tried")
    for fault in faults:
        print(f"tools: {fault}")
    sys.exit(1 if faults else 0)


if __name__ == "__main__":
    main()
