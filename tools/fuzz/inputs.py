"""The files that fuzz.py changes."""
import pathlib
import random
import subprocess
import sys
import tempfile

import changes

TOP = pathlib.Path(__file__).resolve().parents[2]
sys.path.insert(0, str(TOP / "tools/oracle"))
import compare  # noqa: E402
import reach  # noqa: E402
import verify as reading  # noqa: E402

# for distortion: a study with a point of common coupling, its spectrum and its planning levels
STUDY = b"""study = { version = 1, mva = "100" }
bus = [{ name = "B1", kv = "10" }, { name = "B2", kv = "10" }]
source = [{ name = "S1", bus = "B1", r = "0.1", x = "1", r0 = "0.2", x0 = "2" }]
line = [{ name = "L1", from = "B1", to = "B2", r = "0.1", x = "0.4", b = "90", r0 = "0.4", x0 = "1" }]
bank = [{ name = "K1", bus = "B2", q = "2" }]
pcc = [{ name = "P1", bus = "B1", element = "L1", isc = "9000", il = "300" }, { name = "P2", bus = "B2", element = "K1", isc = "900", il = "30" }]
"""
SPECTRUM = b"order,bus,re,im\n5,B2,10,-3.5\n7,B2,4,0\n3,B1,1.5,0.25\n11,B2,0.5,0\n11,B1,-0.5,0\n"
LEVELS = b"bus,order,percent\nB2,5,2.5\nB2,thd,4\nB1,11,0.5\n"

FILES = {"limits": ("study.toml", "spectrum.csv", "levels.csv"), "verify": ("study.toml", "report.csv")}

# studies that are drawn, beside those of examples/
DRAWN = 200


def names_of(command):
    return FILES.get(command, ("study.toml",))


def examples():
    return [path.read_bytes() for path in sorted((TOP / "examples").glob("*.toml"))]


def small_examples():
    """Those that a command takes little time for, with candidates, tolerances and outages of their own or drawn ones."""
    for path in sorted((TOP / "examples").glob("*.toml")):
        text = path.read_text()
        if path.stem not in ("feeder", "plant"):
            own = any(section in text for section in ("candidate", "tolerance", "outage"))
            yield text if own else reach.drawn(random.Random(path.stem), text, False)


def drawn(seed):
    """Random studies with candidates, tolerances and outages."""
    for n in range(DRAWN):
        rng = random.Random(f"{seed} {n}")
        phases = n % 4 == 0
        yield reach.drawn(rng, compare.study(rng, None, phases), phases)


def scanned(program, seed):
    """The studies that the program accepts, each with its report."""
    with tempfile.TemporaryDirectory() as folder:
        path = pathlib.Path(folder) / "study.toml"
        for study in [*small_examples(), *drawn(seed)]:
            path.write_text(study)
            run = subprocess.run([program, "scan", path], capture_output=True, text=True)
            if run.returncode in (0, 3, 4):
                yield study.encode(), run.stdout


def is_report(text):
    try:
        return reading.rows_of(text) != []
    except reading.Refused:
        return False


def changed_report(rng, report):
    """A report with one to three changes: of any bytes, lines, numbers and words, or, while it still is one, of its boxes and fields."""
    for _ in range(rng.choice([1, 1, 1, 2, 3])):
        if rng.random() < 0.3 or not is_report(report):
            report = changes.changed(rng, report.encode("latin-1")).decode("latin-1")
        elif "box," in report:
            report = rng.choice(reading.CHANGES)(rng, report)
    return report


def of_verify(rng, pairs):
    """A study, a report, and the report before its change where the study is not changed."""
    study, report = rng.choice(pairs)
    kind = rng.random()
    if kind < 0.05:
        return [study, report.encode()], report
    if kind < 0.15:
        return [changes.changed(rng, study), report.encode()], None
    if kind < 0.2:
        return [study, rng.choice(pairs)[1].encode()], report
    return [study, changed_report(rng, report).encode("latin-1")], report


def of_limits(rng):
    files = [STUDY, SPECTRUM, LEVELS][:rng.choice([2, 3])]
    at = rng.choice([0, 1, len(files) - 1])
    files[at] = changes.changed(rng, files[at])
    return files


def inputs(program, command, seed, count):
    """Files of the command one after another, each with the report that was changed in them."""
    rng = random.Random(seed)
    pairs = list(scanned(program, seed)) if command not in ("scan", "limits") else []
    studies = [study for study, _ in pairs] or examples()
    for _ in range(count):
        if command == "verify":
            yield of_verify(rng, pairs)
        elif command == "limits":
            yield of_limits(rng), None
        else:
            yield [changes.changed(rng, rng.choice(studies))], None
