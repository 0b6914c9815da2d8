#!/usr/bin/env python3
"""Prints the study of a drill: 60 buses of 33 kV whose lines and loads are drawn from a number.

usage: drill.py NUMBER [FROM TO FINEST LOCATE [METHOD]]

Each bus but the last has a line of two sections to a later one, and the last has the source and is scanned. The network has 120
nodes; its numbers are drawn by a stated rule, so that each number names one study.
"""
import sys


def main(words):
    state = int(words[0])
    band = words[1:5] if len(words) > 4 else ["2", "12", "0.05", "0.1"]
    method = words[5] if len(words) > 5 else "elimination"

    def draw(k):
        nonlocal state
        state = (1103515245 * state + 12345) % 2**31
        return state // 65536 % k

    print(f'study = {{ version = 1, mva = 100, method = "{method}" }}')
    for i in range(1, 61):
        print(f'[[bus]]\nname = "B{i}"\nkv = 33')
    print('[[source]]\nname = "S1"\nbus = "B60"\nr = "0.05"\nx = "0.5"')
    for i in range(1, 60):
        to, r, x, b = i + 1 + draw(60 - i), 10 + draw(50), 100 + draw(400), 20 + draw(200)
        print(f'[[line]]\nname = "L{i}"\nfrom = "B{i}"\nto = "B{to}"')
        print(f'r = "{r / 1000:.3f}"\nx = "{x / 1000:.3f}"\nb = {b}\nsections = 2')
    for i in range(1, 60):
        if draw(3) == 0:
            print(f'[[load]]\nname = "D{i}"\nbus = "B{i}"\nmodel = "cigre"\np = {1 + draw(4)}\nq = 1')
    print(f'[[bank]]\nname = "K1"\nbus = "B1"\nq = {1 + draw(6)}')
    print('[[filter]]\nname = "H1"\nbus = "B30"\nkind = "highpass"\nq = 2\norder = 11\nquality = 3')
    print('[[scan]]\nname = "s1"\nbus = "B60"')
    print('from = "{}"\nto = "{}"\nthreshold = 20\nfinest = "{}"\nlocate = "{}"'.format(*band))


main(sys.argv[1:])
