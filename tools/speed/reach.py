#!/usr/bin/env python3
"""Times `harmscan candidates` and `outages` beside the scans that they stand for, and tells how much of a band `tolerance` decides.

usage: reach.py PROGRAM [--runs N]

The studies are those of examples/planners, examples/plant.toml and the network of drill 7. Three tables, each time the least processor
time of N runs in milliseconds:
- 64 sizes at the first scan of the positive network: of one run of `candidates`, and of 64 scans of the study with a bank of that size;
- 32 elements of the network of drill 7 out in turn: of one run of `outages`, and of one scan;
- every element with the same tolerance: of all scans, the part of the bands that is cleared or a peak, in percent of their widths.
"""
import argparse
import pathlib
import re
import resource
import subprocess
import sys
import tempfile
import tomllib
from fractions import Fraction

HERE = pathlib.Path(__file__).resolve()
EXAMPLES = HERE.parents[2] / "examples"
KINDS = ("source", "line", "transformer", "load", "bank", "filter")
SIZES = [Fraction(step, 2) for step in range(1, 65)]


def run(program, command, path):
    """The rows of a report, and the processor time of the run."""
    before = resource.getrusage(resource.RUSAGE_CHILDREN)
    answer = subprocess.run([program, command, path], capture_output=True, text=True)
    after = resource.getrusage(resource.RUSAGE_CHILDREN)
    if answer.returncode not in (0, 3, 4):
        sys.exit(f"{command} {path}: {answer.stderr}")
    return [row.split(",") for row in answer.stdout.splitlines()], sum(after[:2]) - sum(before[:2])


def least(asked, folder, command, text):
    """The rows of a study of this text, and the least time of the runs in milliseconds."""
    path = pathlib.Path(folder) / "study.toml"
    path.write_text(text)
    answers = [run(asked.program, command, path) for _ in range(asked.runs)]
    return answers[0][0], 1000 * min(time for _, time in answers)


def drill(*band):
    return subprocess.run([sys.executable, HERE.parent / "drill.py", "7", *band], capture_output=True, text=True, check=True).stdout


def with_entries(text, kind, entries):
    """The text with more entries of a kind, which the study may have already as an array or as tables."""
    lines = [[f"{key} = {value}" for key, value in entry.items()] for entry in entries]
    if re.search(rf"(?m)^{kind} = \[", text):
        table = "".join(f"{{ {', '.join(line)} }}, " for line in lines)
        return re.sub(rf"(?m)^{kind} = \[", f"{kind} = [{table}", text, count=1)
    return text + "".join(f"\n[[{kind}]]\n" + "\n".join(line) + "\n" for line in lines)


def elements(table):
    return [entry["name"] for kind in KINDS for entry in table.get(kind, [])]


def first_scan(table):
    return next(entry for entry in table["scan"] if entry.get("network") != "zero")


def only_scan(text, name):
    """The text without the other scans, where each is a table of its own."""
    parts = re.split(r"(?m)^(?=\[)", text)
    return "".join(part for part in parts if not part.startswith("[[scan]]") or f'name = "{name}"' in part)


def main():
    parser = argparse.ArgumentParser()
    parser.add_argument("program")
    parser.add_argument("--runs", type=int, default=3)
    asked = parser.parse_args()
    asked.program = str(pathlib.Path(asked.program).resolve())
    studies = {path.stem: path.read_text() for path in sorted(EXAMPLES.glob("planners/*.toml"))}
    studies["plant"] = (EXAMPLES / "plant.toml").read_text()
    studies["drill 7"] = drill("2", "12", "0.05", "0.1", "branchwise")
    with tempfile.TemporaryDirectory() as folder:
        print("study,candidates,scans,scans / candidates")
        for name, text in studies.items():
            entry = first_scan(tomllib.loads(text))
            alone = only_scan(text, entry["name"])
            sizes = ", ".join(f'"{float(size)}"' for size in SIZES)
            _, tried = least(asked, folder, "candidates", with_entries(alone, "candidate", [{"scan": f'"{entry["name"]}"', "sizes": f"[{sizes}]"}]))
            scanned = sum(least(asked, folder, "scan", with_entries(alone, "bank", [{"name": '"TRIED"', "bus": f'"{entry["bus"]}"', "q": f'"{float(size)}"'}]))[1]
                          for size in SIZES)
            print(f"{name},{tried:.0f},{scanned:.0f},{scanned / max(tried, 1):.2f}")
        print("\nstudy,elements,outages,one scan,outages / scan")
        text = studies["drill 7"]
        names = elements(tomllib.loads(text))[:32]
        _, listed = least(asked, folder, "outages", with_entries(text, "outage", [{"element": f'"{name}"'} for name in names]))
        _, scanned = least(asked, folder, "scan", text)
        print(f"drill 7,{len(names)},{listed:.0f},{scanned:.0f},{listed / scanned:.1f}")
        print("\nstudy,permille,boxes,undecided,decided part of the bands,milliseconds")
        for name, text in studies.items():
            table = tomllib.loads(text)
            for permille in (10, 20, 50):
                rows, time = least(asked, folder, "tolerance", with_entries(text, "tolerance", [{"element": f'"{it}"', "permille": permille} for it in elements(table)]))
                boxes = [(Fraction(row[3]) - Fraction(row[2]), row[4]) for row in rows if row[0] == "box"]
                decided = sum(width for width, word in boxes if word != "undecided")
                print(f"{name},{permille},{len(boxes)},{sum(word == 'undecided' for _, word in boxes)},{float(100 * decided / sum(width for width, _ in boxes)):.1f},{time:.0f}")


main()
