#!/usr/bin/env python3
"""Compares reports of the built program with those of scan.py, or of limits.py, on random studies.

usage: compare.py PROGRAM [--limits] [--phases] [--count N] [--seed S]

Each study has one to four buses and elements of every kind, in both networks, at either scale, by each method and of either version;
a study that the program refuses counts as refused, and its scan is not compared. With --limits a spectrum, and for half of the
studies planning levels, are drawn too; with --phases the studies are of the three phases. Prints a line for each study that differs and keeps it in the current folder; the
status is 1 where one does.
"""
import argparse
import pathlib
import random
import subprocess
import sys
import tempfile
import tomllib

sys.path.insert(0, str(pathlib.Path(__file__).resolve().parent))
import limits  # noqa: E402
import scan  # noqa: E402


def number(rng, low, high, places=3):
    return f'"{rng.uniform(low, high):.{places}f}"'


def table(section, **keys):
    return f"[[{section}]]\n" + "".join(f"{key} = {value}\n" for key, value in keys.items() if value is not None)


def skin(rng):
    return dict(skin_k=number(rng, 0, 2), skin_m=number(rng, 0.1, 90)) if rng.random() < 0.4 else {}


def shunt_kind(rng, phases):
    if phases and rng.random() < 0.3:
        return dict(phase=rng.choice(['"a"', '"b"', '"c"']))
    return dict(grounded=rng.choice(["true", "false", None]))


def source(rng, name, bus, phases=False):
    zero = dict(r0=number(rng, 0, 2), x0=number(rng, 0.1, 9)) if rng.random() < (0.9 if phases else 0.6) else {}
    return table("source", name=name, bus=bus, r=number(rng, 0, 1), x=number(rng, 0.1, 5), **zero, **skin(rng))


def line(rng, name, start, end, phases=False):
    b = rng.randrange(0, 900)
    zero = dict(r0=number(rng, 0, 2), x0=number(rng, 0.1, 9), b0=rng.randrange(0, b + 1)) if phases or rng.random() < 0.6 else {}
    if phases and rng.random() < 0.4:
        zero |= {key: number(rng, 0, 0.9) for key in ("xab", "xbc", "xca")}
    return table("line", name=name, **{"from": start, "to": end}, r=number(rng, 0, 2), x=number(rng, 0.1, 5),
                 b=rng.choice([b, b, None]) if not zero else b, sections=rng.choice([None, 1, 2, 3]), **zero, **skin(rng))


def transformer(rng, name, start, end):
    ways = [rng.choice(["grounded", "star", "delta", None]) for _ in "12"]
    neutral = {}
    for side, way in zip(("from", "to"), ways):
        if way == "grounded" and rng.random() < 0.5:
            neutral |= {f"{side}_rn": number(rng, 0, 9), f"{side}_xn": number(rng, 0, 9)}
    quoted = [way and f'"{way}"' for way in ways]
    return table("transformer", name=name, **{"from": start, "to": end}, mva=number(rng, 1, 90), r=number(rng, 0, 2), x=number(rng, 1, 20),
                 ratio=rng.choice([None, number(rng, 0.9, 1.1)]), from_conn=quoted[0], to_conn=quoted[1], **neutral, **skin(rng))


def load(rng, name, bus, phases=False):
    model = rng.choice(["cigre", "parallel", "series"])
    if model == "series":
        keys = dict(r=number(rng, 0.1, 99), x=number(rng, 0, 99))
    else:
        keys = dict(p=number(rng, 0.1, 9), q=rng.choice(["0", number(rng, 0, 9)]))
    return table("load", name=name, bus=bus, model=f'"{model}"', **keys, **shunt_kind(rng, phases))


def bank(rng, name, bus, phases=False):
    return table("bank", name=name, bus=bus, q=number(rng, 0.1, 20), **shunt_kind(rng, phases))


def tuned(rng, name, bus, phases=False):
    kind = rng.choice(["single", "highpass", "ctype"])
    return table("filter", name=name, bus=bus, kind=f'"{kind}"', q=number(rng, 0.1, 9), order=number(rng, 2, 13), quality=number(rng, 1, 90), **shunt_kind(rng, phases))


def ohms(rng):
    return f'"{10 ** rng.uniform(-0.3, 3.3):.3f}"'


def threshold(rng, low, high):
    points = sorted({f"{at:.3f}" for at in [low - rng.uniform(0, 0.3), high + rng.uniform(0, 3)] + [rng.uniform(low, high) for _ in range(rng.randrange(0, 4))]}, key=float)
    return dict(curve_at=str([at for at in points]).replace("'", '"'), curve_ohms="[" + ", ".join(ohms(rng) for _ in points) + "]")


def seen(rng, phases):
    """What a scan looks at."""
    return dict(phase=rng.choice(['"a"', '"b"', '"c"'])) if phases else dict(network=rng.choice([None, '"positive"', '"zero"']))


def study(rng, method=None, phases=False):
    """A study, of this method if one is given."""
    count = rng.randrange(1, 4 if phases else 5)
    buses = [f'"B{n}"' for n in range(count)]
    kv = rng.choice([10, 33, 110])
    version = rng.choice([1, 2])
    text = f"[study]\nversion = {version}\nmva = {rng.choice([10, 100])}\nhz = {rng.choice([50, 60])}\nscale = {rng.choice([40, 48])}\n"
    drawn = rng.choice(["elimination", "both", "branchwise"])
    text += f'method = "{method or drawn}"\n'
    if phases:
        text += 'model = "phases"\n' + rng.choice(["", 'root3 = "1.73"\n'])
    text += "".join(table("bus", name=bus, kv=kv) for bus in buses)
    text += source(rng, '"S"', buses[0], phases)
    # every bus hangs on one before it, by a line or a transformer
    ties = [(rng.choice(buses[:n]), buses[n], rng.random() < 0.3) for n in range(1, count)]
    text += "".join(line(rng, f'"L{n}"', a, b, phases) for n, (a, b, wound) in enumerate(ties) if not wound)
    text += "".join(transformer(rng, f'"T{n}"', a, b) for n, (a, b, wound) in enumerate(ties) if wound)
    for make, letter in ((load, "D"), (bank, "K"), (tuned, "F")):
        text += "".join(make(rng, f'"{letter}{n}"', rng.choice(buses), phases) for n in range(rng.randrange(0, 3)))
    for n in range(rng.randrange(1, 3)):
        low = rng.uniform(0.5, 12)
        high = low + rng.uniform(0.1, 3)
        text += table("scan", name=f'"s{n}"', bus=rng.choice(buses), **seen(rng, phases),
                      **{"from": f'"{low:.3f}"', "to": f'"{high:.3f}"'},
                      **(threshold(rng, low, high) if version == 2 else dict(threshold=ohms(rng))), finest='"0.02"', locate=rng.choice([None, '"0.1"', '"0.5"']))
    return text


def point(rng, name, table):
    """A point of common coupling at an end of an element."""
    element = rng.choice([entry for kind in limits.KINDS for entry in table.get(kind, [])])
    bus = element["bus"] if "bus" in element else rng.choice([element["from"], element["to"]])
    il = rng.uniform(1, 900)
    keys = dict(name=f'"{name}"', bus=f'"{bus}"', element=f'"{element["name"]}"', isc=f'"{il * 10 ** rng.uniform(0, 3.3):.2f}"', il=f'"{il:.2f}"')
    return "[[pcc]]\n" + "".join(f"{key} = {value}\n" for key, value in keys.items())


def spectrum(rng, buses, phases):
    """Injected currents at some orders and buses, or phases of buses, each once."""
    places = [f"{bus},{phase}" for bus in buses for phase in "abc"] if phases else buses
    pairs = {(rng.choice([rng.randrange(2, 51), rng.choice([3, 5, 7, 11, 13])]), rng.choice(places)) for _ in range(rng.randrange(0, 9))}
    rows = [f"{order},{place},{rng.uniform(-90, 90):.3f},{rng.choice([0, round(rng.uniform(-90, 90), 6)])}\n" for order, place in sorted(pairs)]
    rng.shuffle(rows)
    return ("order,bus,phase,re,im\n" if phases else "order,bus,re,im\n") + "".join(rows)


def levels(rng, buses):
    pairs = {(rng.choice(["thd", 5, 7, rng.randrange(2, 51)]), rng.choice(buses)) for _ in range(rng.randrange(0, 6))}
    return "bus,order,percent\n" + "".join(f"{bus},{order},{10 ** rng.uniform(-3, 2):.4f}\n" for order, bus in sorted(pairs, key=str))


def files(rng, limited, phases=False):
    """The texts of a study, and of a spectrum and perhaps of levels where they are asked for, by the names of their files."""
    text = study(rng, None, phases)
    if not limited:
        return {"study.toml": text}
    table = tomllib.loads(text)
    buses = [bus["name"] for bus in table["bus"]]
    text += "".join(point(rng, f"P{n}", table) for n in range(rng.randrange(0, 3)))
    more = {"levels.csv": levels(rng, buses)} if rng.random() < 0.5 else {}
    return {"study.toml": text, "spectrum.csv": spectrum(rng, buses, phases), **more}


def wanted(texts):
    """The report that the other program gives."""
    table, *more = texts.values()
    rows = limits.report(tomllib.loads(table), *more) if more else scan.report(tomllib.loads(table))
    return "".join(row + "\n" for row in rows)


def main():
    parser = argparse.ArgumentParser()
    parser.add_argument("program")
    parser.add_argument("--limits", action="store_true")
    parser.add_argument("--phases", action="store_true")
    parser.add_argument("--count", type=int, default=200)
    parser.add_argument("--seed", type=int, default=1)
    asked = parser.parse_args()
    equal = refused = differing = 0
    command = "limits" if asked.limits else "scan"
    with tempfile.TemporaryDirectory() as folder:
        folder = pathlib.Path(folder)
        for seed in range(asked.seed, asked.seed + asked.count):
            texts = files(random.Random(seed), asked.limits, asked.phases)
            for name, text in texts.items():
                (folder / name).write_text(text)
            run = subprocess.run([asked.program, command, *(str(folder / name) for name in texts)], capture_output=True, text=True, timeout=120)
            if run.returncode == 2:
                refused += 1
                continue
            want = wanted(texts)
            if run.stdout == want and run.returncode == int(want.rsplit(",", 1)[1]):
                equal += 1
            else:
                differing += 1
                for name, text in texts.items():
                    pathlib.Path(f"differs-{seed}-{name}").write_text(text)
                print(f"seed {seed}: the reports differ")
    print(f"{equal} equal, {differing} differ, {refused} refused")
    sys.exit(1 if differing or not equal else 0)


if __name__ == "__main__":
    main()
