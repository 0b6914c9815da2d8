#!/usr/bin/env python3
"""Runs the built program on files of 4,194,304 bytes, as many as a file may have, and on files of one more.

usage: large.py PROGRAM [--seconds T]

Of each kind of file one that is accepted is filled up to the limit: a study by a comment, a spectrum and levels by empty lines, and a report of
two scans by its peaks, whose printed ohms may be fewer. With one more byte each is too large. Then come files of that size that are hard to
read: of many keys and tables, nested values, one long text, fields without end. Each run is judged as by fuzz.py, and has to end within T
seconds. Prints for each its status, its line and its processor time. The status is 1 where a run breaks a rule.
"""
import argparse
import os
import pathlib
import subprocess
import sys
import tempfile

import inputs
import rules

LIMIT = rules.LIMIT
STUDY = """study = { version = 1, mva = 100 }
bus = [{ name = "B1", kv = 10 }]
source = [{ name = "S1", bus = "B1", r = 0, x = 10 }]
"""
SCAN = 'scan = [{ name = "s1", bus = "B1", from = 1, to = 2, threshold = 1, finest = 1 }]\n'
# 65,536 peaks, and as many more as the limit leaves room for
TWO_SCANS = STUDY + """scan = [
  { name = "s1", bus = "B1", from = 1, to = "1.065536", threshold = "0.5", finest = "0.000001" },
  { name = "s2", bus = "B1", from = 1, to = "1.015545", threshold = "0.5", finest = "0.000001" },
]
"""
SPECTRUM = "order,bus,re,im\n5,B1,100,0\n"
LEVELS = "bus,order,percent\nB1,5,8.7\n"


def filled(head, unit, tail=""):
    """A text of the greatest length, of as many units as fit. They may tell their number."""
    units, room = [], LIMIT - len(head) - len(tail)
    while room >= len(text := unit.format(n=len(units))):
        units.append(text)
        room -= len(text)
    return head + "".join(units) + tail


def padded(text, byte):
    return text + byte * (LIMIT - len(text))


def judged(report):
    """The report of the two scans, its peaks cut until it has the greatest length. The highest peak of each region stays."""
    lines, over = report.split("\n"), len(report) - LIMIT
    for n, line in enumerate(lines[:60_000]):
        head, _, ohms = line.rpartition(",")
        if over > 0 and ohms.startswith("10."):
            lines[n] = f"{head},1.{ohms[3:]}"
            over -= 1
    return "\n".join(lines)


def at_limit(report):
    """The files of each run, of which the last is as large as it may be."""
    return [("scan", [padded(STUDY, "#")]), ("limits", [STUDY, padded(SPECTRUM, "\n")]), ("limits", [STUDY, SPECTRUM, padded(LEVELS, "\n")]),
            ("verify", [TWO_SCANS, judged(report)])]


def hard_studies():
    head = "study = { version = 1, mva = 100 }\n"
    nested = (LIMIT - 4) // 2
    yield from (filled(STUDY, "k{n}=1\n"), filled(head + '[[bus]]\nname = "B1"\nkv = 10\n', "k{n}=1\n"), filled(head, "[[bus]]\n"), filled(head, "[t{n}]\n"))
    yield from (filled("a = ", "["), "a = " + "[" * nested + "]" * nested, filled("a", ".a", " = 1\n"), filled("", "a.b{n}.c = 1\n"), filled("", "a = {{ "))
    yield from (filled('x = "', "y", '"\n'), filled('x = "', "y"), filled('x = "', "\\u00e9", '"\n'), filled("x = ", "1"), filled("", "\r"), filled("", " "), filled("", "[a]\n"))
    yield from (filled('study = { version = 1, mva = "', "0", '100" }\n'), filled(STUDY + SCAN + 'candidate = [{ scan = "s1", sizes = [', "1,", "] }]\n"))
    yield from (filled(STUDY + "outage = [", "{{}},", "]\n"), filled(STUDY, "#\n"), "\xff" * LIMIT, "\0" * LIMIT)


def hard():
    """Runs whose last file is hard to read."""
    yield from (("scan", [text]) for text in hard_studies())
    for text in ('"' * LIMIT, "," * LIMIT, filled(SPECTRUM, "5,B1,1,0\n"), filled("order,bus,re,im\n", '"5","B1","1","0"\n'), filled('order,bus,re,im\n"', "x")):
        yield from (("limits", [STUDY, text]), ("limits", [STUDY, SPECTRUM, text]))
    scan = "scan,s1,B1,positive,1.000000,2.000000,1.000000,elimination\n"
    summary = "summary,s1,0,0,0,0,0\n"
    for text in (filled(scan, "box,1,1.000000,2.000000,cleared,-,-\n"), filled("", scan + summary, "end,0\n"), filled("box,", "1"),
                 filled(scan, "region,1,1.000000,2.000000,1.000000,2.000000,1,1,-,-\n", summary + "end,0\n")):
        yield "verify", [STUDY + SCAN, text]


def run(program, command, files, seconds):
    """The status, both outputs and the processor time of a run."""
    with tempfile.TemporaryDirectory() as folder:
        paths = [pathlib.Path(folder) / name for name, _ in zip(inputs.names_of(command), files)]
        for path, data in zip(paths, files):
            path.write_bytes(data)
        before = os.times()
        answer = subprocess.run([program, command, *paths], capture_output=True, text=True, timeout=seconds)
        after = os.times()
        return answer.returncode, answer.stdout, answer.stderr, sum(after[2:4]) - sum(before[2:4])


def main():
    parser = argparse.ArgumentParser()
    parser.add_argument("program")
    parser.add_argument("--seconds", type=int, default=60)
    asked = parser.parse_args()
    program, broken = str(pathlib.Path(asked.program).resolve()), 0

    def tell(command, files, wanted):
        nonlocal broken
        files = [text.encode("latin-1") for text in files]
        status, out, err, used = run(program, command, files, asked.seconds)
        try:
            rules.judge(command, files, None, status, out, err)
            rules.ask(wanted(status), "a file that is filled up to the limit is accepted")
            rule = ""
        except (rules.Fault, ArithmeticError, LookupError, TypeError, ValueError) as fault:
            broken, rule = broken + 1, f" BROKEN: {fault!r}"
        told = err.strip() or out.splitlines()[-1]
        print(f"{command} {files[-1][:24]!r} .. {len(files[-1])} bytes: {status}, {told}, {1000 * used:.0f} ms{rule}", flush=True)

    report = run(program, "scan", [TWO_SCANS.encode()], asked.seconds)[1]
    for command, files in at_limit(report):
        tell(command, files, lambda status: status != 2 and len(files[-1]) == LIMIT)
        tell(command, [*files[:-1], files[-1] + "\n"], lambda status: status == 2)
    for command, files in hard():
        tell(command, files, lambda status: True)
    sys.exit(1 if broken else 0)


if __name__ == "__main__":
    main()
