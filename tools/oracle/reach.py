#!/usr/bin/env python3
"""Compares the reports of `harmscan candidates`, `tolerance` and `outages` with those of another program, and asks them for the truth.

usage: reach.py PROGRAM [--phases] [--count N] [--seed S]

Random studies of compare.py get candidates, tolerances and outages of their own. The reports are made by docs/candidates.md, tolerance.md
and outages.md with the boxes of scan.py, which shares no code with harmscan, and compared byte for byte. In the sequence model what they
claim is then asked of exact fractions, as truth.py asks: of the network with a bank of each size that is named safe, of networks between
those that the tolerances give, and of the network without each element. A difference or a false claim is told, and the study kept in the
current folder. The status is 1 where there is one.
"""
import argparse
import pathlib
import random
import subprocess
import sys
import tempfile
import tomllib
from fractions import Fraction

import compare
import scan
import truth

THOUSAND = 1000


def counts(boxes):
    """How many boxes are cleared, peaks and undecided."""
    kinds = [box[2] for box in boxes]
    return [kinds.count(kind) for kind in ("cleared", "peak", "undecided")]


def text_of(*fields):
    return ",".join(str(field) for field in fields)


# ---- candidates

def candidates(table):
    study, entries = scan.study_of(table), {entry["name"]: entry for entry in table["scan"]}
    statuses = [0]
    for candidate in table.get("candidate", []):
        entry = entries[candidate["scan"]]
        threshold = scan.six(scan.millionths(str(entry["threshold"]))) if "threshold" in entry else "curve"
        low, high = (scan.six(scan.millionths(str(entry[key]))) for key in ("from", "to"))
        yield text_of("candidate", entry["name"], entry["bus"], low, high, threshold)
        sizes = [scan.decimal(size) for size in candidate["sizes"]]
        found = [counts(scan.Scan(study, entry, extra=size / study.mva).boxes()) for size in sizes]
        for number, (size, kinds) in enumerate(zip(sizes, found), 1):
            yield text_of("size", number, scan.six(scan.millionths(size)), *kinds)
        first = next((size for size, kinds in zip(sizes, found) if kinds[1:] == [0, 0]), None)
        yield text_of("first", entry["name"], "-" if first is None else scan.six(scan.millionths(first)))
        if first is None:
            statuses.append(3 if all(kinds[1] for kinds in found) else 4)
    yield text_of("end", 3 if 3 in statuses else max(statuses))


# ---- tolerances

def owner_of(study, name):
    return [entry["name"] for _, entry in study.elements()].index(name) + 1


def widened(study, entry, factor):
    """The network of a scan, the values of each element with a tolerance times this factor of its tolerance."""
    net, _ = study.seen(entry)
    for tolerance in study.table.get("tolerance", []):
        net = net.widened(owner_of(study, tolerance["element"]), factor(tolerance["permille"]))
    return net


def lower(permille):
    return Fraction(THOUSAND - permille, THOUSAND)


def upper(permille):
    return Fraction(THOUSAND + permille, THOUSAND)


def tolerance(table):
    yield text_of("tolerance", len(table.get("tolerance", [])))
    yield from scan.report(table, lambda study, entry: scan.Scan(study, entry, pair=(widened(study, entry, lower), widened(study, entry, upper))))


# ---- outages

def floats(study, owner):
    """Whether an element's outage leaves a bus without a path to ground."""
    positive, zero = (study.network(of_zero).without(owner).live() for of_zero in (False, True))
    buses = set(study.bus.values())
    of_zero = buses if isinstance(study, scan.Phases) else {study.bus[entry["bus"]] for entry in study.table.get("scan", []) if entry.get("network") == "zero"}
    return not (buses <= positive and of_zero <= zero)


def outages(table):
    study = scan.study_of(table)
    cases = {entry["name"]: [] for entry in table.get("scan", [])}
    floating = False
    for number, outage in enumerate(table.get("outage", []), 1):
        owner = owner_of(study, outage["element"])
        gone = floats(study, owner)
        floating |= gone
        yield text_of("outage", number, outage["element"], "floating" if gone else "fed")
        for entry in [] if gone else table.get("scan", []):
            net = study.seen(entry)[0].without(owner)
            boxes = list(scan.Scan(study, entry, pair=(net, net)).boxes())
            peaks = [box for box in boxes if box[2] == "peak"]
            best = max(peaks, key=lambda box: box[4]) if peaks else (None,) * 5
            kinds = counts(boxes)
            cases[entry["name"]].append("peak" if kinds[1] else "undecided" if kinds[2] else "cleared")
            yield text_of("case", number, entry["name"], len(boxes), *kinds, scan.dash(best[3]), scan.dash(best[4]))
    for name, kinds in cases.items():
        yield text_of("envelope", name, len(kinds), *(kinds.count(kind) for kind in ("cleared", "peak", "undecided")))
    every = [kind for kinds in cases.values() for kind in kinds]
    yield text_of("end", 3 if floating or "peak" in every else 4 if "undecided" in every else 0)


# ---- the truth

def judged(table, entry, rng, net):
    """A judge of what a scan's report says of another network."""
    judge = truth.Judge(table, entry, rng)
    judge.exact = truth.Exact(net, judge.bus, judge.exact.base)
    return judge


def band(entry):
    return Fraction(str(entry["from"])), Fraction(str(entry["to"]))


def untrue_candidates(study, rows, rng):
    entries = {entry["name"]: entry for entry in study.table["scan"]}
    for word, *fields in rows:
        if word == "candidate":
            entry = entries[fields[0]]
        elif word == "size" and fields[3:] == ["0", "0"]:
            net, bus = study.seen(entry)
            net.shunt(scan.ground(bus), Fraction(fields[1]) / study.mva)
            yield from judged(study.table, entry, rng, net).cleared(*band(entry))


def untrue_tolerance(study, rows, rng):
    boxes = {}
    for word, *fields in rows:
        if word == "scan":
            found = boxes[fields[0]] = []
        elif word == "box":
            found.append(fields)
    for entry in study.table["scan"]:
        corners = [lower, upper, *[lambda permille: 1 + Fraction(rng.randrange(-permille, permille + 1), THOUSAND)] * 2]
        for factor in corners:
            yield from judged(study.table, entry, rng, widened(study, entry, factor)).boxes(boxes[entry["name"]], most=4)


def untrue_outages(study, rows, rng):
    entries = {entry["name"]: entry for entry in study.table["scan"]}
    for word, *fields in rows:
        if word == "outage":
            owner = owner_of(study, fields[1])
        elif word == "case":
            entry = entries[fields[1]]
            judge = judged(study.table, entry, rng, study.seen(entry)[0].without(owner))
            if fields[2] == fields[3]:
                yield from judge.cleared(*band(entry))
            elif fields[6] != "-":
                yield from judge.peak(*band(entry), Fraction(fields[6]), Fraction(fields[7]))


COMMANDS = {"candidates": (candidates, untrue_candidates), "tolerance": (tolerance, untrue_tolerance), "outages": (outages, untrue_outages)}


# ---- random sections

def drawn(rng, text, phases):
    """Candidates, tolerances and outages for a study."""
    table = tomllib.loads(text)
    elements = [entry["name"] for _, entry in scan.study_of(table).elements()]
    positive = [entry["name"] for entry in table["scan"] if not phases and entry.get("network") != "zero"]
    for name in positive[:rng.randrange(0, 3)]:
        sizes = ", ".join(compare.number(rng, 0.1, 20) for _ in range(rng.randrange(1, 4)))
        text += compare.table("candidate", scan=f'"{name}"', sizes=f"[{sizes}]")
    if not phases:
        for name in rng.sample(elements, rng.randrange(0, len(elements) + 1)):
            text += compare.table("tolerance", element=f'"{name}"', permille=rng.choice([1, 10, 50, rng.randrange(1, 501)]))
    for name in rng.sample(elements, rng.randrange(0, min(len(elements), 3) + 1)):
        text += compare.table("outage", element=f'"{name}"')
    return text


def main():
    parser = argparse.ArgumentParser()
    parser.add_argument("program")
    parser.add_argument("--phases", action="store_true")
    parser.add_argument("--count", type=int, default=100)
    parser.add_argument("--seed", type=int, default=1)
    words = parser.parse_args()
    equal = dict.fromkeys(COMMANDS, 0)
    refused = wrong = 0
    with tempfile.TemporaryDirectory() as folder:
        path = pathlib.Path(folder) / "study.toml"
        for seed in range(words.seed, words.seed + words.count):
            rng = random.Random(seed)
            text = drawn(rng, compare.study(rng, None, words.phases), words.phases)
            path.write_text(text)
            table = tomllib.loads(text)
            for command, (report, untrue) in COMMANDS.items():
                run = subprocess.run([words.program, command, path], capture_output=True, text=True, timeout=600)
                if run.returncode == 2:
                    refused += 1
                    continue
                want = "".join(row + "\n" for row in report(table))
                faults = [] if run.stdout == want and run.returncode == int(want.rsplit(",", 1)[1]) else ["the reports differ"]
                if not words.phases:
                    faults += untrue(scan.study_of(table), [line.split(",") for line in run.stdout.splitlines()], rng)
                equal[command] += not faults
                for fault in faults:
                    wrong += 1
                    print(f"seed {seed}, {command}: {fault}")
                    pathlib.Path(f"differs-{seed}.toml").write_text(text)
    print(", ".join(f"{command}: {count} equal" for command, count in equal.items()), f"; {refused} refused, {wrong} wrong")
    sys.exit(1 if wrong or not all(equal.values()) else 0)


if __name__ == "__main__":
    main()
