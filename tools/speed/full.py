#!/usr/bin/env python3
"""Prints a study at the limits of a network, for measuring how long the slowest accepted studies take.

usage: full.py METHOD WIDTHS [SCANS] [candidate|tolerance|outage ..]

The network has 400 nodes and 2,400 branches: 200 buses, between drawn pairs of which stand 200 lines of two sections and 200 transformers, and at
each a source, a load of the CIGRE model, a bank and a filter. Its matrix fills while it is reduced. Each scan, of which there is one unless
SCANS says more, has a band of WIDTHS finest widths from order 5 on, each as wide as those of the widest band that is accepted, and a threshold
below the impedance: so 2·WIDTHS - 1 boxes are tested, and of each of the WIDTHS finest its middle, which is a peak, or where that isn't shown
both ends too. The words after them add as many entries of a section as there may be: 16 candidates of 64 sizes each, 200 tolerances, 32
outages.
"""
import random
import sys

BUSES = 200
WIDTH = 1525
NAMES = {"candidate": 16, "tolerance": 200, "outage": 32}


def table(section, **keys):
    print(f"[[{section}]]\n" + "\n".join(f"{key.rstrip('_')} = {value}" for key, value in keys.items()))


def pair(rng):
    a, b = rng.sample(range(BUSES), 2)
    return {"from": f'"B{a}"', "to": f'"B{b}"'}


def network(rng):
    for n in range(BUSES):
        table("bus", name=f'"B{n}"', kv=33)
    for n in range(BUSES):
        table("source", name=f'"S{n}"', bus=f'"B{n}"', r=f'"{rng.uniform(1, 9):.3f}"', x=f'"{rng.uniform(10, 90):.3f}"', skin_k='"0.1"', skin_m=90)
        table("line", name=f'"L{n}"', **pair(rng), r=f'"{rng.uniform(0.1, 1):.3f}"', x=f'"{rng.uniform(1, 5):.3f}"', b=rng.randrange(20, 90), sections=2, skin_k='"0.1"', skin_m=90)
        table("transformer", name=f'"T{n}"', **pair(rng), mva=20, r=1, x=f'"{rng.uniform(6, 12):.3f}"', ratio='"1.01"')
        table("load", name=f'"D{n}"', bus=f'"B{n}"', model='"cigre"', p=f'"{rng.uniform(1, 3):.3f}"', q='"0.9"')
        table("bank", name=f'"K{n}"', bus=f'"B{n}"', q=f'"{rng.uniform(0.1, 1):.3f}"')
        table("filter", name=f'"F{n}"', bus=f'"B{n}"', kind='"single"', q='"0.5"', order=f'"{rng.uniform(4.5, 13):.3f}"', quality=40)


def main(words):
    method, widths, *more = words
    scans = int(more.pop(0)) if more and more[0].isdigit() else 1
    print(f'study = {{ version = 1, mva = 100, method = "{method}" }}')
    network(random.Random(400))
    end = 5_000_000 + WIDTH * int(widths)
    for n in range(scans):
        table("scan", name=f'"s{n}"', bus=f'"B{n}"', from_=5, to=f'"{end // 10**6}.{end % 10**6:06d}"', threshold='"0.01"', finest=f'"0.{WIDTH:06d}"')
    for section in more:
        for n in range(NAMES[section]):
            if section == "candidate":
                table(section, scan=f'"s{n % scans}"', sizes=[size + 1 for size in range(64)])
            elif section == "tolerance":
                table(section, element=f'"T{n}"', permille=500)
            else:
                table(section, element=f'"L{n}"')


if __name__ == "__main__":
    main(sys.argv[1:])
