#!/usr/bin/env python3
"""Times the scans of the studies of examples/planners by the built program, and tells their boxes.

usage: planners.py PROGRAM [--runs N] [--method METHOD]

Prints a row for each study: its scans, their boxes, how many of them are undecided, and the least processor time of N runs in
milliseconds. With --method each study is scanned by that method in the place of its own.
"""
import argparse
import os
import pathlib
import re
import subprocess
import sys
import tempfile

STUDIES = pathlib.Path(__file__).resolve().parents[2] / "examples/planners"


def run(program, study):
    """The report, and the processor time of the run."""
    before = os.times()
    answer = subprocess.run([program, "scan", study], capture_output=True, text=True)
    after = os.times()
    if answer.returncode not in (0, 3, 4):
        sys.exit(f"{study}: {answer.stderr}")
    return answer.stdout, sum(after[2:4]) - sum(before[2:4])


def main():
    parser = argparse.ArgumentParser()
    parser.add_argument("program")
    parser.add_argument("--runs", type=int, default=3)
    parser.add_argument("--method")
    asked = parser.parse_args()
    print("study,scans,boxes,undecided,milliseconds")
    with tempfile.TemporaryDirectory() as folder:
        for path in sorted(STUDIES.glob("*.toml")):
            study = path
            if asked.method:
                study = pathlib.Path(folder) / path.name
                study.write_text(re.sub(r'(?m)^method = ".*"$', f'method = "{asked.method}"', path.read_text()))
            answers = [run(str(pathlib.Path(asked.program).resolve()), study) for _ in range(asked.runs)]
            summaries = [row.split(",") for row in answers[0][0].splitlines() if row.startswith("summary,")]
            boxes, undecided = (sum(int(row[field]) for row in summaries) for field in (2, 5))
            print(f"{path.stem},{len(summaries)},{boxes},{undecided},{1000 * min(time for _, time in answers):.0f}")


if __name__ == "__main__":
    main()
