#!/usr/bin/env python3
"""Compares `harmscan verify` with another reading of reports, and the reports that it accepts with the exact impedance.

usage: verify.py PROGRAM [--count N] [--changes M] [--seed S] [--phases]

Of each random study the report of `harmscan scan` is judged as it is and with M changes, one after another: of a digit, of a field, of
lines, of its end, of two boxes joined or one divided. The first fault is found by docs/report.md and docs/verify.md, with the interval
test of scan.py, which shares no code with harmscan; the line on standard error has to be the same. Where a report of the sequence model is
accepted its boxes are asked for the truth as truth.py asks. A difference is told, and its files are kept in the current folder. The status
is 1 where there is one.
"""
import argparse
import pathlib
import random
import re
import subprocess
import sys
import tempfile
import tomllib

import compare
import scan
import truth

NAME = r"[A-Za-z0-9_.-]{1,32}"
NUMBER = r"(?:0|[1-9]\d*)"
SIX = NUMBER + r"\.\d{6}"
MAYBE = rf"(?:-|{SIX})"
FORMS = {
    "scan": rf"scan,{NAME},{NAME},(?:positive|zero|a|b|c),{SIX},{SIX},(?:curve|{SIX}),(?:elimination|both|branchwise)",
    "box": rf"box,{NUMBER},{SIX},{SIX},(?:cleared|peak|undecided),{MAYBE},{MAYBE}",
    "region": rf"region,{NUMBER},{SIX},{SIX},{SIX},{SIX},{NUMBER},{NUMBER},{MAYBE},{MAYBE}",
    "summary": rf"summary,{NAME},{NUMBER},{NUMBER},{NUMBER},{NUMBER},{NUMBER}",
    "end": rf"end,{NUMBER}",
}
# the places of fields, and below what their whole numbers stay
RANGES = {
    "scan": {4: 2 ** 32, 5: 2 ** 32, 6: 10 ** 12},
    "box": {1: 2 ** 32, 2: 2 ** 32, 3: 2 ** 32, 5: 2 ** 32, 6: 2 ** 120 + 1},
    "region": {1: 2 ** 32, 2: 2 ** 32, 3: 2 ** 32, 4: 2 ** 64, 5: 2 ** 64, 6: 2 ** 32, 7: 2 ** 32, 8: 2 ** 32, 9: 2 ** 120 + 1},
    "summary": {2: 2 ** 32, 3: 2 ** 32, 4: 2 ** 32, 5: 2 ** 32, 6: 2 ** 32},
    "end": {1: 2 ** 32},
}
NEXT = {"between": ("scan", "end"), "within": ("box", "region", "summary"), "ended": ()}


def micro(text):
    return None if text == "-" else int(text.replace(".", ""))


class Refused(Exception):
    """The fault of a line: its number, name and line."""


def is_row(line, words):
    """Whether a line is the text of a row with one of these words."""
    word = line.split(",")[0]
    if word not in words or not re.fullmatch(FORMS[word], line):
        return False
    fields = line.split(",")
    whole = {place: micro(fields[place]) for place in RANGES[word] if fields[place] not in ("-", "curve")}
    return all(value < RANGES[word][place] for place, value in whole.items()) and (word != "scan" or fields[6] != "0.000000")


def rows_of(text):
    """The lines of a report."""
    lines, stage = text.split("\n"), "between"
    for number, line in enumerate(lines[:-1], 1):
        if not is_row(line, NEXT[stage]):
            raise Refused(f"1 BadRow {number}")
        stage = {"summary": "between", "end": "ended"}.get(line.split(",")[0], "within")
    if stage != "ended" or lines[-1]:
        raise Refused(f"1 BadRow {len(lines)}")
    return lines[:-1]


class Asked:
    """The interval test of a scan, each box and order once."""

    def __init__(self, study, entry):
        self.scan, self.clear, self.ohms = scan.Scan(study, entry), {}, {}

    def is_clear(self, lo, hi):
        if (lo, hi) not in self.clear:
            self.clear[lo, hi] = self.scan.is_clear(lo, hi)
        return self.clear[lo, hi]

    def micro_ohms(self, at):
        if at not in self.ohms:
            self.ohms[at] = self.scan.micro_ohms(at)
        return self.ohms[at]

    def fault(self, lo, hi, kind, at, ohms):
        """The fault of what a box says, or none."""
        if kind == "cleared":
            return None if self.is_clear(lo, hi) else "4 NotCleared"
        if kind == "peak":
            there = at is not None and ohms is not None and lo <= at <= hi
            found = self.micro_ohms(at) if there else None
            return None if found is not None and ohms <= found else "5 NotPeak"
        places = ((lo + hi) // 2, lo, hi) if hi - lo <= self.scan.locate else ()
        settled = hi - lo > self.scan.finest or self.is_clear(lo, hi) or any(self.micro_ohms(place) is not None for place in places)
        return "6 NotUndecided" if settled else None


class Reader:
    """The lines of a report beside a study."""

    def __init__(self, table):
        self.table, study = table, scan.study_of(table)
        self.hz = scan.millionths(str(table["study"].get("hz", 50)))
        self.entries = table.get("scan", [])
        self.asked = [Asked(study, entry) for entry in self.entries]
        whole = list(scan.report(table))
        self.heads = [line for line in whole if line.startswith("scan,")]

    def judge(self, text):
        """How many scans and boxes a report has, or its first fault."""
        self.rows, self.line, self.kinds, boxes = rows_of(text), 0, set(), 0
        for head, entry, asked in zip(self.heads, self.entries, self.asked):
            self.line += 1
            if self.rows[self.line - 1] != head:
                raise Refused(f"2 WrongScan {self.line}")
            boxes += self.judge_scan(entry, asked)
        self.line += 1
        last = self.rows[self.line - 1]
        if last.startswith("scan,"):
            raise Refused(f"2 WrongScan {self.line}")
        if last != f"end,{3 if 'peak' in self.kinds else 4 if 'undecided' in self.kinds else 0}":
            raise Refused(f"7 WrongCount {self.line}")
        return len(self.entries), boxes

    def ask(self, holds, fault):
        if not holds:
            raise Refused(f"{fault} {self.line}")

    def judge_scan(self, entry, asked):
        reached, counts, regions, run, after_region = asked.scan.lo, [], 0, [], False
        while True:
            self.line += 1
            line = self.rows[self.line - 1]
            word, *fields = line.split(",")
            if word == "box":
                number, lo, hi, kind, at, ohms = int(fields[0]), micro(fields[1]), micro(fields[2]), fields[3], micro(fields[4]), micro(fields[5])
                self.ask(lo == reached and lo < hi <= asked.scan.hi, "3 Gap")
                fault = asked.fault(lo, hi, kind, at, ohms)
                self.ask(fault is None, fault)
                self.ask(number == len(counts) + 1 and not (run if kind == "cleared" else after_region), "7 WrongCount")
                reached, after_region = hi, False
                counts.append(kind)
                self.kinds.add(kind)
                if kind != "cleared":
                    run.append((lo, hi, kind, at, ohms))
            elif word == "region":
                regions += 1
                self.ask(run and line == scan.region_row(regions, run, self.hz), "7 WrongCount")
                run, after_region = [], True
            else:
                self.ask(reached == asked.scan.hi, "3 Gap")
                of_kinds = ",".join(str(counts.count(kind)) for kind in ("cleared", "peak", "undecided"))
                self.ask(not run and line == f"summary,{entry['name']},{len(counts)},{of_kinds},{regions}", "7 WrongCount")
                return len(counts)


# ---- changes

def digit(rng, text):
    places = [n for n, letter in enumerate(text) if letter.isdigit()]
    at = rng.choice(places)
    return text[:at] + rng.choice("0123456789") + text[at + 1:]


def field(rng, text):
    lines = text.split("\n")
    at = rng.randrange(len(lines) - 1)
    fields = lines[at].split(",")
    place = rng.randrange(len(fields))
    word = rng.choice(["-", "0", "cleared", "peak", "undecided", "both", "zero", "1.000000", "07", "7.0", "4294967296", ""])
    lines[at] = ",".join(fields[:place] + [word] + fields[place + 1:])
    return "\n".join(lines)


def lines(rng, text):
    rows = text.split("\n")
    at, other = rng.randrange(len(rows)), rng.randrange(len(rows))
    kind = rng.randrange(4)
    if kind == 0:
        del rows[at]
    elif kind == 1:
        rows.insert(at, rows[other])
    elif kind == 2:
        rows[at], rows[other] = rows[other], rows[at]
    else:
        rows = rows[:at]
    return "\n".join(rows)


def cut(rng, text):
    return text[:rng.randrange(len(text))]


def numbered(text):
    """The same report with its boxes numbered and counted anew."""
    rows, number = [], 0
    for row in text.split("\n"):
        fields = row.split(",")
        if fields[0] == "scan":
            number, kinds = 0, []
        elif fields[0] == "box":
            number += 1
            kinds.append(fields[4])
            fields[1] = str(number)
        elif fields[0] == "summary":
            fields[2:6] = [str(number), *(str(kinds.count(kind)) for kind in ("cleared", "peak", "undecided"))]
        rows.append(",".join(fields))
    return "\n".join(rows)


def boxes_in(text):
    rows = text.split("\n")
    return rows, [n for n, row in enumerate(rows) if row.startswith("box,")]


def joined(rng, text):
    """Two boxes, one after another, as one of the first's kind."""
    rows, boxes = boxes_in(text)
    pairs = [n for n in boxes if n + 1 in boxes]
    if not pairs:
        return text
    at = rng.choice(pairs)
    first, second = rows[at].split(","), rows[at + 1].split(",")
    rows[at:at + 2] = [",".join(first[:3] + [second[3]] + first[4:])]
    return numbered("\n".join(rows))


def divided(rng, text):
    """A box as two of its kind, at any order between its ends."""
    rows, boxes = boxes_in(text)
    at = rng.choice(boxes)
    fields = rows[at].split(",")
    lo, hi = micro(fields[2]), micro(fields[3])
    if hi - lo < 2:
        return text
    middle = scan.six(rng.randrange(lo + 1, hi))
    rows[at:at + 1] = [",".join(fields[:3] + [middle] + fields[4:]), ",".join(fields[:2] + [middle] + fields[3:])]
    return numbered("\n".join(rows))


def fewer(rng, text):
    """A peak with fewer ohms, or more by a little, also in its region's row."""
    found = re.findall(r"peak,[\d.]+,([\d.]+)", text)
    if not found:
        return text
    old = rng.choice(found)
    new = scan.six(max(0, micro(old) + rng.choice([-1, 1, -10 ** 6, -rng.randrange(0, micro(old) + 1)])))
    return text.replace(old, new)


CHANGES = [digit, digit, field, lines, lines, cut, joined, divided, divided, fewer]


def verdict(reader, text):
    """The status and the bytes that are put, of a report."""
    try:
        scans, boxes = reader.judge(text)
        return 0, f"verified,{scans},{boxes}\n", ""
    except Refused as fault:
        return 2, "", f"harmscan: report refused: {fault}\n"


def untrue(table, text, rng):
    """What is false in a report that is accepted."""
    entries = {entry["name"]: entry for entry in table["scan"]}
    boxes = {}
    for word, *fields in (line.split(",") for line in text.splitlines()):
        if word == "scan":
            rows = boxes[fields[0]] = []
        elif word == "box":
            rows.append(fields)
    for name, rows in boxes.items():
        yield from (f"{name}, {fault}" for fault in truth.Judge(table, entries[name], rng).boxes(rows))


def main():
    parser = argparse.ArgumentParser()
    parser.add_argument("program")
    parser.add_argument("--count", type=int, default=50)
    parser.add_argument("--changes", type=int, default=20)
    parser.add_argument("--seed", type=int, default=1)
    parser.add_argument("--phases", action="store_true")
    words = parser.parse_args()
    found, wrong = {}, 0
    with tempfile.TemporaryDirectory() as folder:
        study, report = pathlib.Path(folder) / "study.toml", pathlib.Path(folder) / "report.csv"
        for seed in range(words.seed, words.seed + words.count):
            rng = random.Random(seed)
            text = compare.study(rng, None, words.phases)
            study.write_text(text)
            run = subprocess.run([words.program, "scan", study], capture_output=True, text=True, timeout=600)
            if run.returncode == 2:
                continue
            table = tomllib.loads(text)
            reader = Reader(table)
            for number in range(words.changes + 1):
                change = rng.choice(CHANGES) if number else None
                changed = change(rng, run.stdout) if change else run.stdout
                report.write_bytes(changed.encode())
                answer = subprocess.run([words.program, "verify", study, report], capture_output=True, text=True, timeout=600)
                want = verdict(reader, changed)
                faults = [] if (answer.returncode, answer.stdout, answer.stderr) == want else [f"{answer.returncode} {answer.stdout}{answer.stderr} and not {want}"]
                if answer.returncode == 0 and not words.phases:
                    faults += untrue(table, changed, rng)
                key = "whole" if not change else "accepted" if want[0] == 0 else want[2].split()[4]
                found[key] = found.get(key, 0) + 1
                for fault in faults:
                    wrong += 1
                    print(f"seed {seed}, change {number}: {fault}")
                    pathlib.Path(f"differs-{seed}-{number}.csv").write_text(changed)
    print(", ".join(f"{key}: {found[key]}" for key in sorted(found)), f"; {wrong} wrong")
    sys.exit(1 if wrong or not found else 0)


if __name__ == "__main__":
    main()
