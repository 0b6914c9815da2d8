#!/usr/bin/env python3
"""Runs the built program on changed files, and judges each run by plain rules.

usage: fuzz.py PROGRAM [scan|limits|candidates|tolerance|outages|verify] [--count N] [--seed S] [--workers W] [--seconds T]

Each input is a study with one to four changes: of bytes, of lines, of numbers or of words. For `scan` the study is one of examples/; for
`candidates`, `tolerance` and `outages` one of examples/ or a random one, with such sections. For `limits` one of a study, a spectrum and
perhaps planning levels is changed so. For `verify` a scan's own report is changed so, and in its digits, fields, lines and boxes too, or its
study, or it is taken to another study.

What is asked of a run (rules.py): the status is one of README's table; at status 2 no byte of a report, and one line of a known form; at
0, 3 and 4 no line, and a report whose rows stand in their order and are those of the study, whose boxes or counts fit its bands, whose
regions, summaries and last row are those of its boxes, or whose verdicts are those of its bounds and limits; and an end within T seconds.
Of `verify`: a line that is no row is named, exactly; another fault names a line of its kind, none before the first change; a report that
is accepted covers the bands, has its own counts, and has no order cleared that the other report has as a peak. A run that breaks a rule
is told, and its files are kept in the current folder. The status is 1 where one does.
"""
import argparse
import collections
import concurrent.futures
import itertools
import pathlib
import subprocess
import sys
import tempfile

import inputs
import rules


def trial(program, command, seconds, files, right):
    """What a run of these files comes to: its status, or the rule that it breaks."""
    with tempfile.TemporaryDirectory() as folder:
        paths = [pathlib.Path(folder) / name for name, _ in zip(inputs.names_of(command), files)]
        for path, data in zip(paths, files):
            path.write_bytes(data)
        try:
            answer = subprocess.run([program, command, *paths], capture_output=True, timeout=seconds)
        except subprocess.TimeoutExpired:
            return "slow", f"no end within {seconds} s"
    try:
        rules.judge(command, files, right, answer.returncode, answer.stdout.decode(), answer.stderr.decode())
    except (rules.Fault, UnicodeDecodeError, ArithmeticError, LookupError, TypeError, ValueError) as fault:
        return "broken", f"status {answer.returncode}: {fault!r}"
    return answer.returncode, None


def main():
    parser = argparse.ArgumentParser()
    parser.add_argument("program")
    parser.add_argument("command", nargs="?", default="scan", choices=["scan", "limits", "candidates", "tolerance", "outages", "verify"])
    parser.add_argument("--count", type=int, default=2000)
    parser.add_argument("--seed", type=int, default=1)
    parser.add_argument("--workers", type=int, default=4)
    parser.add_argument("--seconds", type=float, default=60)
    asked = parser.parse_args()
    program = str(pathlib.Path(asked.program).resolve())
    found = collections.Counter()
    with concurrent.futures.ThreadPoolExecutor(asked.workers) as pool:
        rest = inputs.inputs(program, asked.command, asked.seed, asked.count)
        number = 0
        while batch := list(itertools.islice(rest, 512)):
            for (files, _), (what, rule) in zip(batch, pool.map(lambda given: trial(program, asked.command, asked.seconds, *given), batch)):
                number += 1
                found[what] += 1
                if rule is not None:
                    print(f"input {number}: {rule}", flush=True)
                    for name, data in zip(inputs.names_of(asked.command), files):
                        pathlib.Path(f"fuzz-{asked.command}-{asked.seed}-{number}-{name}").write_bytes(data)
    print(", ".join(f"{what}: {found[what]}" for what in sorted(found, key=str)))
    sys.exit(1 if found["slow"] or found["broken"] else 0)


if __name__ == "__main__":
    main()
