#!/usr/bin/env python3
"""Runs a command, as `rt ci --anew`, and tells what processor time its processes took, crate by crate.

usage: cost.py COMMAND ..

Twice a second it reads the time and the command line of each process below the command from /proc. The line of the prover names
the crate, and says whether it is at its tests or, by its folder, at an edit; a compiler or a test counts for the prover or the
command above it. What a process does after it was last read is missed, so the sums are a little low. Prints a table in minutes, and the
command's own output before it; the status is the command's.
"""
import collections
import os
import subprocess
import sys
import time

TICK = os.sysconf("SC_CLK_TCK")
KINDS = ("proof and build", "tests", "edits")


def processes():
    """Each process: its parent, its own processor time in seconds, and when it began."""
    found = {}
    for name in os.listdir("/proc"):
        if name.isdigit():
            try:
                with open(f"/proc/{name}/stat") as file:
                    fields = file.read().rsplit(") ", 1)[1].split()
            except OSError:
                continue
            found[int(name)] = (int(fields[1]), (int(fields[11]) + int(fields[12])) / TICK, int(fields[19]))
    return found


def share_of(pid):
    """The crate and the kind of work that a process tells of itself, if it does: one that has ended tells nothing more."""
    try:
        with open(f"/proc/{pid}/cmdline", "rb") as file:
            words = [word.decode(errors="replace") for word in file.read().split(b"\0")]
        folder = os.readlink(f"/proc/{pid}/cwd")
    except OSError:
        return None
    if "--crate-name" in words and words[-1:] != ["--crate-name"]:
        kind = 2 if "/rt-edit" in folder else 1 if "--test" in words else 0
        return (words[words.index("--crate-name") + 1], kind)
    if os.path.basename(words[0]).endswith("_tests"):
        return (os.path.basename(words[0])[: -len("_tests")], 1)
    return None


def main():
    began = time.time()
    run = subprocess.Popen(sys.argv[1:])
    used, shares = {}, {}
    while run.poll() is None:
        found = processes()
        below = collections.defaultdict(list)
        for pid, (parent, _, _) in found.items():
            below[parent].append(pid)
        todo = [(run.pid, ("(rt itself)", 0))]
        while todo:
            pid, above = todo.pop()
            if pid not in found:
                continue
            # a number may be used again by a later process
            _, seconds, began_at = found[pid]
            process = (pid, began_at)
            share = share_of(pid) or shares.get(process, above)
            used[process], shares[process] = seconds, share
            todo += [(child, share) for child in below[pid]]
        time.sleep(0.5)
    table = collections.defaultdict(lambda: [0.0, 0.0, 0.0])
    for key, seconds in used.items():
        crate, kind = shares[key]
        table[crate][kind] += seconds
    print("| Crate | Proof and build | Tests | Edits |\n|---|---|---|---|")
    for crate, row in sorted(table.items()):
        print(f"| `{crate}` | " + " | ".join(f"{s / 60:.1f}" if s >= 3 else "-" for s in row) + " |")
    total = [sum(row[kind] for row in table.values()) / 60 for kind in range(3)]
    print("| together | " + " | ".join(f"{minutes:.1f}" for minutes in total) + " |")
    print(f"{sum(total):.1f} minutes of a processor, {(time.time() - began) / 60:.1f} by the clock")
    sys.exit(run.returncode)


main()
