#!/usr/bin/env python3
"""Times `limits` on a study with a current at every bus for every order, by the built program.

usage: limits.py PROGRAM STUDY [--runs N]

The spectrum has a row of one ampere for each bus and each order from 2 to 50, in three phases for each of them; where the zero network of
the study has a bus without a path to ground, no row of an order that is a multiple of 3. Prints the nodes of the spectrum, its orders and
rows, the status, how many verdicts are a pass, a fail and undecided, and the least processor time of N runs in milliseconds.
"""
import argparse
import os
import pathlib
import subprocess
import sys
import tempfile
import tomllib


def spectrum(study, orders):
    """A current at every bus, or at every phase of every bus."""
    phases = ["a", "b", "c"] if study["study"].get("model") == "phases" else [None]
    head = "order,bus,phase,re,im" if len(phases) == 3 else "order,bus,re,im"
    places = [(bus["name"], phase) for bus in study["bus"] for phase in phases]
    rows = [",".join([str(order), name, *([phase] if phase else []), "1", "0"]) for order in orders for name, phase in places]
    return len(places), "\n".join([head, *rows, ""])


def run(words):
    before = os.times()
    answer = subprocess.run(words, capture_output=True, text=True)
    after = os.times()
    return answer, sum(after[2:4]) - sum(before[2:4])


def main():
    words = argparse.ArgumentParser()
    words.add_argument("program")
    words.add_argument("study")
    words.add_argument("--runs", type=int, default=5)
    given = words.parse_args()
    study = tomllib.loads(pathlib.Path(given.study).read_text())
    with tempfile.TemporaryDirectory() as room:
        file = pathlib.Path(room, "spectrum.csv")
        for orders in (range(2, 51), [order for order in range(2, 51) if order % 3]):
            places, text = spectrum(study, orders)
            file.write_text(text)
            answers = [run([given.program, "limits", given.study, str(file)]) for _ in range(given.runs)]
            if "NoPath" not in answers[0][0].stderr:
                break
    answer = answers[0][0]
    if answer.returncode not in (0, 3, 4):
        sys.exit(f"{given.study}: {answer.stderr}")
    counts = next(line for line in answer.stdout.splitlines() if line.startswith("summary,limits,"))
    print(f"nodes {places}, orders {len(orders)}, rows {text.count(chr(10)) - 1}, status {answer.returncode}, {counts}, {1000 * min(time for _, time in answers):.0f} ms")


main()
