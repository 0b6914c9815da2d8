#!/usr/bin/env python3
"""Prints a study of a chain of 30 buses in three phases, or of 90 buses in the positive sequence whose matrix has entries at the same places.

usage: phases.py phases|sequence [METHOD]

In three phases each bus is tied to the next by a line of coupled phases. In the sequence model three buses stand for each bus of that chain:
the three are tied to each other, and each of them to each of the next three. The threshold of the scan is so small that no test passes: both
studies test the same boxes, 8,191 that are halved, and 8,192 with the middle and both ends of each.
"""
import sys

BUSES = 30


def bus(name):
    return f'[[bus]]\nname = "{name}"\nkv = 11\n'


def tie(number, start, end):
    """A line, or from the 201st on a transformer, since a study has at most 200 lines."""
    ends = f'from = "{start}"\nto = "{end}"\n'
    if number <= 200:
        return f'[[line]]\nname = "L{number}"\n{ends}r = "0.{number % 7 + 1}"\nx = "0.{number % 5 + 3}"\nb = 20\n'
    return f'[[transformer]]\nname = "T{number}"\n{ends}mva = 10\nr = 1\nx = {number % 5 + 4}\n'


def scan(bus_name, phase):
    return f'[[scan]]\nname = "s1"\nbus = "{bus_name}"\n{phase}from = 1\nto = 50\nthreshold = "0.000001"\nfinest = "0.006"\nlocate = "0.006"\n'


def in_phases(method):
    text = f'study = {{ version = 1, mva = 10, model = "phases", method = "{method}" }}\n' + "".join(bus(f"B{i}") for i in range(BUSES))
    text += '[[source]]\nname = "S1"\nbus = "B0"\nr = "0.1"\nx = 1\nr0 = "0.2"\nx0 = 2\n'
    for i in range(BUSES - 1):
        text += f'[[line]]\nname = "L{i}"\nfrom = "B{i}"\nto = "B{i + 1}"\nr = "0.{i % 7 + 1}"\nx = "0.{i % 5 + 3}"\nb = 20\nr0 = "0.9"\nx0 = "1.{i % 5}"\n'
    return text + scan(f"B{BUSES - 1}", 'phase = "a"\n')


def in_sequence(method):
    text = f'study = {{ version = 1, mva = 10, method = "{method}" }}\n' + "".join(bus(f"B{i}{p}") for i in range(BUSES) for p in "abc")
    text += "".join(f'[[source]]\nname = "S{p}"\nbus = "B0{p}"\nr = "0.1"\nx = 1\n' for p in "abc")
    ties = [(f"B{i}{p}", f"B{i}{q}") for i in range(BUSES) for p, q in ("ab", "bc", "ac")]
    ties += [(f"B{i}{p}", f"B{i + 1}{q}") for i in range(BUSES - 1) for p in "abc" for q in "abc"]
    text += "".join(tie(number, *ends) for number, ends in enumerate(sorted(ties), 1) if number <= 200)
    text += "".join(tie(number, *ends) for number, ends in enumerate(sorted(ties), 1) if number > 200)
    return text + scan(f"B{BUSES - 1}a", "")


def main(words):
    method = words[1] if len(words) > 1 else "elimination"
    print({"phases": in_phases, "sequence": in_sequence}[words[0]](method), end="")


main(sys.argv[1:])
