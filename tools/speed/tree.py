#!/usr/bin/env python3
"""Prints a study whose network is a binary tree or a chain, for measuring how long the test of a box takes.

usage: tree.py BUSES SECTIONS WIDTHS [chain]

Bus n hangs on the bus (n - 1)/2, rounded down, or in a chain on the bus n - 1, by a line of SECTIONS pi sections, and has a load to
ground; the first bus has a source. So the network has BUSES + (BUSES - 1)·(SECTIONS - 1) nodes. All values differ a little from bus to
bus. The one scan, at the last bus, has a band of WIDTHS finest widths, no box of which is cleared: the threshold is below the impedance.
With `locate` at the finest width each box of that width is a peak at its middle, so WIDTHS finest boxes take 2·WIDTHS - 1 tests of boxes
and WIDTHS of single orders.
"""
import sys


def main():
    chain = sys.argv[4:] == ["chain"]
    if len(sys.argv) != 4 and not chain:
        sys.exit(__doc__.split("\n\n")[1])
    buses, sections, widths = map(int, sys.argv[1:4])
    print('study = { version = 1, mva = "100" }')
    print('source = [{ name = "S", bus = "B0", r = "0.01", x = "0.1" }]')
    for n in range(buses):
        print(f'[[bus]]\nname = "B{n}"\nkv = "10"')
    for n in range(1, buses):
        print(
            f'[[line]]\nname = "L{n}"\nfrom = "B{n - 1 if chain else (n - 1) // 2}"\nto = "B{n}"\nr = "0.0{10 + n}"\nx = "0.1{10 + n}"\nb = "{10 + n}"\nsections = {sections}'
        )
    for n in range(buses):
        print(f'[[load]]\nname = "D{n}"\nbus = "B{n}"\nmodel = "parallel"\np = "1.{10 + n}"\nq = "0.{10 + n}"')
    end = 2_000_000 + widths
    print(
        f'[[scan]]\nname = "s"\nbus = "B{buses - 1}"\nfrom = "2"\nto = "{end // 1_000_000}.{end % 1_000_000:06}"\nthreshold = "0.001"\nfinest = "0.000001"'
    )


if __name__ == "__main__":
    main()
