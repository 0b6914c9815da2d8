#!/usr/bin/env python3
"""One table of many reports of `harmscan scan`: usage: summary.py REPORT.. > table.csv. Nothing here is proved."""
import pathlib
import sys

print("report,scan,boxes,cleared,peaks,undecided,regions,status")
for path in sys.argv[1:]:
    rows = [line.split(",") for line in pathlib.Path(path).read_text().splitlines()]
    # a report whose last row is no end row is not whole: the run was refused or stopped, and its line stands on standard error
    status = rows[-1][1] if rows and rows[-1][0] == "end" else "-"
    scans = [row[1:] for row in rows if row[0] == "summary"] or [["-"] * 6]
    print("\n".join(",".join([pathlib.Path(path).name, *scan, status]) for scan in scans))
