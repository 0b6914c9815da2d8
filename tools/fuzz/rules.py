"""The plain rules by which fuzz.py judges a run. They know nothing of networks: a report is judged by itself, by what the study says of
bands, names and sizes, and, where `verify` judges a changed report, by the one that was changed."""
import collections
import pathlib
import re
import sys
import tomllib
from decimal import Decimal, InvalidOperation

sys.path.insert(0, str(pathlib.Path(__file__).resolve().parents[1] / "oracle"))
import verify as reading  # noqa: E402

SECTION = "study|bus|source|line|transformer|load|bank|filter|scan|pcc|candidate|tolerance|outage|top|network"
OF_STUDY = ("3 MissingKey|4 UnknownKey|5 WrongKind|6 BareDecimal|7 BadDecimal|8 OutOfRange|9 BadName|10 DuplicateName|11 UnknownBus|12 TooMany|13 BadBand"
            "|14 TooFine|15 Floating|16 PhaseFloating|18 UnknownElement|19 UnknownScan")
OF_SPECTRUM = "2 BadRow|3 BadOrder|4 UnknownBus|5 BadDecimal|6 Repeated|7 BadPhase|8 NoPath"
OF_LEVELS = "2 BadRow|3 BadOrder|4 UnknownBus|5 BadPercent|6 Repeated"
OF_REPORT = "1 BadRow|2 WrongScan|3 Gap|4 NotCleared|5 NotPeak|6 NotUndecided|7 WrongCount"

STUDY = rf"study (?:too large|refused: (?:1 NotToml|2 VersionUnknown|(?:{OF_STUDY}) (?:{SECTION}) \d+ (?:-|[a-z0-9_]+)))"
SPECTRUM = rf"spectrum (?:too large|refused: (?:1 BadHeader|(?:{OF_SPECTRUM}) [1-9]\d*))"
LEVELS = rf"levels (?:too large|refused: (?:1 BadHeader|(?:{OF_LEVELS}) [1-9]\d*))"
REPORT = rf"report (?:too large|refused: (?:{OF_REPORT}) [1-9]\d*)"
# the lines that a command may end with at status 2
LINES = {command: STUDY for command in ("scan", "candidates", "tolerance", "outages")} | {"limits": f"(?:{STUDY}|{SPECTRUM}|{LEVELS})", "verify": f"(?:{STUDY}|{REPORT})"}

# the bytes that a file has at most
LIMIT = 4_194_304

# the words of the lines that a fault of a report may name
NAMED = {"WrongScan": ("scan", "end"), "Gap": ("box", "summary"), "NotCleared": ("box",), "NotPeak": ("box",), "NotUndecided": ("box",),
         "WrongCount": ("box", "region", "summary", "end")}
KINDS = {"NotCleared": "cleared", "NotPeak": "peak", "NotUndecided": "undecided"}


class Fault(Exception):
    """A rule that a run breaks."""


def ask(holds, rule):
    if not holds:
        raise Fault(rule)


def micro(text):
    return int(text.replace(".", ""))


# ---- what a study says of its reports

class Study:
    """An accepted study's names, bands and sizes."""

    def __init__(self, table):
        self.table = table
        self.phases = table["study"].get("model") == "phases"
        self.buses = [bus["name"] for bus in table["bus"]]
        self.scans = {scan["name"]: scan for scan in table.get("scan", [])}

    def six(self, value):
        return f"{Decimal(str(value)):.6f}"

    def band(self, scan):
        return [self.six(scan["from"]), self.six(scan["to"])]

    def threshold(self, scan):
        return self.six(scan["threshold"]) if "threshold" in scan else "curve"

    def head(self, scan):
        seen = scan["phase"] if self.phases else scan.get("network", "positive")
        method = self.table["study"].get("method", "elimination")
        return ["scan", scan["name"], scan["bus"], seen, *self.band(scan), self.threshold(scan), method]

    def finest(self, scan):
        return micro(self.six(scan["finest"]))

    def locate(self, scan):
        return micro(self.six(scan.get("locate", scan["finest"])))

    def most(self, scan):
        """As many boxes as a band may have."""
        low, high = map(micro, self.band(scan))
        width, count = high - low, 1
        while width > self.finest(scan):
            width, count = (width + 1) // 2, 2 * count
        return count


def study_of(data):
    """The study of these bytes, where tomllib reads them too: it knows a younger TOML less."""
    try:
        return Study(tomllib.loads(data.decode()))
    except (UnicodeDecodeError, tomllib.TOMLDecodeError, InvalidOperation):
        return None


# ---- reports of scans

def is_row(fields, *words):
    return reading.is_row(",".join(fields), words)


def regions_of(boxes):
    """The runs of boxes that aren't cleared."""
    runs, run = [], []
    for box in boxes + [None]:
        if box is not None and box[3] != "cleared":
            run.append(box)
        elif run:
            runs.append(run)
            run = []
    return runs


def is_bisected(low, high, ends):
    """Whether the boxes that end there come of halving the band."""
    if not ends:
        return False
    if ends == [high]:
        return True
    middle = (low + high) // 2
    return middle in ends and is_bisected(low, middle, ends[:ends.index(middle) + 1]) and is_bisected(middle, high, ends[ends.index(middle) + 1:])


def judge_own_boxes(head, boxes, study):
    """What a scan's own boxes have beyond those of a report that is judged."""
    low, high = micro(head[4]), micro(head[5])
    ask(is_bisected(low, high, [micro(box[2]) for box in boxes]), "boxes come of halving the band")
    ask(all((box[3] == "peak") == (box[4] != "-") == (box[5] != "-") for box in boxes), "a peak alone names an order")
    for ends, at in (([micro(text) for text in box[1:3]], box[4]) for box in boxes if box[3] == "peak"):
        ask(micro(at) in (sum(ends) // 2, *ends), "a peak's order is the middle of its box or an end")
    if study is None:
        return
    scan = study.scans[head[1]]
    for box in boxes:
        width = micro(box[2]) - micro(box[1])
        ask(box[3] != "peak" or width <= study.locate(scan), "a peak is no wider than `locate`")
        ask(box[3] != "undecided" or width <= study.finest(scan), "an undecided box is no wider than `finest`")


def boxes_of(body):
    boxes = [row[1:] for row in body if row[0] == "box"]
    ask(boxes, "a band has a box")
    ask(all(box[0] == str(n) for n, box in enumerate(boxes, 1)), "boxes are numbered")
    ask(all(a[2] == b[1] for a, b in zip(boxes, boxes[1:])), "boxes have no gap")
    ask(all(micro(box[1]) < micro(box[2]) for box in boxes), "boxes go up")
    for box in boxes:
        ask(box[3] in ("cleared", "peak", "undecided"), "a box has a kind")
        ask(box[3] != "peak" or "-" not in box[4:6] and micro(box[1]) <= micro(box[4]) <= micro(box[2]), "a peak's order is in its box")
    return boxes


def judge_regions(body, boxes):
    regions = [row for row in body if row[0] == "region"]
    runs = regions_of(boxes)
    ask(len(runs) == len(regions), "each run of boxes that aren't cleared has a region")
    for n, (run, row) in enumerate(zip(runs, regions), 1):
        peaks = [box for box in run if box[3] == "peak"]
        top = max(peaks, key=lambda box: micro(box[5]), default=None)
        ask(row[1:4] == [str(n), run[0][1], run[-1][2]], "a region has its run's ends")
        ask(row[6:8] == [str(len(peaks)), str(len(run) - len(peaks))], "a region counts its boxes")
        ask(row[8:10] == (top[4:6] if top else ["-", "-"]), "a region names its highest peak")
        ask(body[body.index(row) - 1][1:] == run[-1], "a region stands behind its last box")
    return len(regions)


def judge_scan(rows, study, own):
    """A scan's rows: the first, boxes and regions, the summary. Answers its boxes."""
    head, body, summary = rows[0], rows[1:-1], rows[-1]
    ask(is_row(head, "scan") and is_row(summary, "summary") and summary[1] == head[1], "a scan begins with its row and ends with its summary")
    ask(all(is_row(row, "box", "region") for row in body), "a scan has boxes and regions")
    ask(study is None or head == study.head(study.scans[head[1]]), "a scan row says what the study does")
    boxes = boxes_of(body)
    ask(boxes[0][1] == head[4] and boxes[-1][2] == head[5], "boxes begin and end with the band")
    if own:
        judge_own_boxes(head, boxes, study)
    kinds = collections.Counter(box[3] for box in boxes)
    counts = [len(boxes), kinds["cleared"], kinds["peak"], kinds["undecided"], judge_regions(body, boxes)]
    ask(summary[2:] == [str(count) for count in counts], "a summary counts its boxes")
    return boxes


def judge_scans(rows, status, study, own=True):
    """A report of scans without its last row. Answers the boxes of each."""
    found, scan = {}, []
    for row in rows:
        scan.append(row)
        if row[0] == "summary":
            found[scan[0][1]] = judge_scan(scan, study, own)
            scan = []
    ask(not scan, "each scan ends with its summary")
    ask(study is None or list(found) == list(study.scans), "each scan of the study is there, in order")
    kinds = {box[3] for boxes in found.values() for box in boxes}
    ask(status == (3 if "peak" in kinds else 4 if "undecided" in kinds else 0), "the status is that of the boxes")
    return found


# ---- reports on tolerances, candidates and outages

def judge_tolerance(rows, status, study):
    ask(rows[0][0] == "tolerance" and len(rows[0]) == 2, "the first row counts the tolerances")
    ask(study is None or rows[0][1] == str(len(study.table.get("tolerance", []))), "each tolerance is counted")
    judge_scans(rows[1:], status, study)


def counted(kinds, scan, study):
    """The counts of a row as numbers: as many boxes as fit the band."""
    cleared, peaks, undecided = map(int, kinds)
    boxes = cleared + peaks + undecided
    ask(boxes >= 1 and (study is None or boxes <= study.most(study.scans[scan])), "the boxes fit the band")
    return cleared, peaks, undecided


def groups_of(rows, word):
    """The rows from each one with this word to the next."""
    groups = []
    for row in rows:
        if row[0] == word:
            groups.append([row])
        else:
            ask(groups, f"a row `{word}` stands before its rows")
            groups[-1].append(row)
    return groups


def judge_candidate(rows, study, entry):
    """The rows of a candidate. Answers the status that they ask for."""
    head, sizes, first = rows[0], rows[1:-1], rows[-1]
    ask(len(head) == 6 and first[0] == "first" and len(first) == 3 and first[1] == head[1], "a candidate ends with its first size")
    ask(sizes and all(row[0] == "size" and len(row) == 6 and row[1] == str(n) for n, row in enumerate(sizes, 1)), "sizes are numbered")
    if entry is not None:
        scan = study.scans[entry["scan"]]
        ask(head[1:] == [scan["name"], scan["bus"], *study.band(scan), study.threshold(scan)], "a candidate says what its scan does")
        ask([row[2] for row in sizes] == [study.six(size) for size in entry["sizes"]], "each size is there, in order")
    kinds = [counted(row[3:], head[1], study) for row in sizes]
    safe = [row[2] for row, (_, peaks, undecided) in zip(sizes, kinds) if peaks == undecided == 0]
    ask(first[2] == (safe[0] if safe else "-"), "the first size is the first that is cleared")
    return 0 if safe else 3 if all(peaks for _, peaks, _ in kinds) else 4


def judge_candidates(rows, status, study):
    groups = groups_of(rows, "candidate")
    entries = [None] * len(groups) if study is None else study.table.get("candidate", [])
    ask(len(groups) == len(entries), "each candidate is there")
    found = [judge_candidate(rows, study, entry) for rows, entry in zip(groups, entries)]
    ask(status == (3 if 3 in found else max(found, default=0)), "the status is that of the candidates")


def judge_case(row, number, study):
    """A case of an outage: its scan, and what it is."""
    ask(row[0] == "case" and len(row) == 9 and row[1] == number, "a case has its outage's number")
    cleared, peaks, undecided = counted(row[4:7], row[2], study)
    ask(row[3] == str(cleared + peaks + undecided), "a case counts its boxes")
    ask((peaks > 0) == (row[7] != "-") == (row[8] != "-"), "a case with a peak names one")
    if peaks and study is not None:
        low, high = map(micro, study.band(study.scans[row[2]]))
        ask(low <= micro(row[7]) <= high, "a peak is in the band")
    return row[2], "peak" if peaks else "undecided" if undecided else "cleared"


def judge_outages(rows, status, study):
    envelopes = [row for row in rows if row[0] == "envelope"]
    groups = groups_of(rows[:len(rows) - len(envelopes)], "outage")
    names = [row[1] for row in envelopes]
    cases, floating = {name: [] for name in names}, False
    for number, (head, *found) in enumerate(groups, 1):
        ask(len(head) == 4 and head[1] == str(number) and head[3] in ("fed", "floating"), "outages are numbered")
        floating |= head[3] == "floating"
        kinds = [judge_case(row, head[1], study) for row in found]
        ask([name for name, _ in kinds] == ([] if head[3] == "floating" else names), "an outage that is fed has a case of each scan")
        for name, kind in kinds:
            cases[name].append(kind)
    for row in envelopes:
        kinds = cases[row[1]]
        ask(row[2:] == [str(len(kinds)), *(str(kinds.count(kind)) for kind in ("cleared", "peak", "undecided"))], "an envelope counts its cases")
    if study is not None:
        ask(names == list(study.scans), "each scan has an envelope")
        ask([head[2] for head, *_ in groups] == [entry["element"] for entry in study.table.get("outage", [])], "each outage is there, in order")
    every = [kind for kinds in cases.values() for kind in kinds]
    ask(status == (3 if floating or "peak" in every else 4 if "undecided" in every else 0), "the status is that of the outages and cases")


# ---- reports on distortion

def verdict_of(low, high, limit):
    if low == "-" or high == "-":
        ask(low == high, "both bounds are absent, or none")
        return "undecided"
    low, high, limit = (int(text.replace(".", "")) for text in (low, high, limit))
    ask(low <= high, "bounds are in order")
    return "pass" if high <= limit else "fail" if low > limit else "undecided"


def judge_order(body, study):
    """The rows of distortion stand in their order: voltages by order, bus and phase, totals by bus and phase, then each point's rows."""
    phases = "abc" if study.phases else "s"
    points = [point["name"] for point in study.table.get("pcc", [])]
    rank = {"voltage": 0, "thd": 1, "current": 2, "tdd": 2}

    def place(row):
        owner = (points if rank[row[0]] == 2 else study.buses).index(row[1])
        if row[0] == "voltage":
            return 0, int(row[3]), owner, phases.index(row[2])
        if row[0] == "thd":
            return 1, owner, phases.index(row[2])
        return 2, owner, ("current", "tdd").index(row[0]), int(row[3]) if row[0] == "current" else 0, phases.index(row[2])

    places = [place(row) for row in body]
    ask(all(a < b for a, b in zip(places, places[1:])), "rows stand in their order")
    ask([row[1:3] for row in body if row[0] == "thd"] == [[bus, phase] for bus in study.buses for phase in phases], "each bus has its totals")
    ask([row[1:3] for row in body if row[0] == "tdd"] == [[point, phase] for point in points for phase in phases], "each point has its totals")


def judge_limits(rows, status, study):
    summary, body = rows[-1], rows[:-1]
    words = collections.Counter()
    for row in body:
        ask(row[0] in ("voltage", "thd", "current", "tdd"), "a row is of one of four kinds")
        ask(len(row) == (8 if row[0] in ("voltage", "current") else 7), "a row has its fields")
        ask(row[-1] == verdict_of(*row[-4:-1]), "a verdict is that of its bounds and limit")
        words[row[-1]] += 1
    if study is not None:
        judge_order(body, study)
    ask(summary == ["summary", "limits", *(str(words[word]) for word in ("pass", "fail", "undecided"))], "the summary counts the verdicts")
    ask(status == (3 if words["fail"] else 4 if words["undecided"] else 0), "the status is that of the verdicts")


# ---- reports that are judged

def first_changed(right, text):
    """The number of the first line in which two texts differ."""
    old, new = right.split("\n"), text.split("\n")
    return next((n for n, (a, b) in enumerate(zip(old, new), 1) if a != b), min(len(old), len(new)))


def judge_refused(rows, fault, right, text):
    """A report of rows that is refused."""
    _, name, line = fault.split(" ")
    row = rows[int(line) - 1].split(",")
    ask(row[0] in NAMED[name], "a fault names a line of its kind")
    ask(name not in KINDS or row[4] == KINDS[name], "a fault names a box of its kind")
    ask(right is None or int(line) >= first_changed(right, text), "no line before the first change is refused")


def judge_verdict(rows, right, study):
    """A report that is accepted has all that plain counting asks, and does not deny the one that was changed."""
    fields = [row.split(",") for row in rows]
    found = judge_scans(fields[:-1], int(fields[-1][1]), study, own=False)
    if right is None:
        return
    own = judge_scans([row.split(",") for row in right.splitlines()[:-1]], int(right.rstrip().rsplit(",", 1)[1]), study)
    for name, boxes in found.items():
        for here, there in ((boxes, own[name]), (own[name], boxes)):
            cleared = [(micro(box[1]), micro(box[2])) for box in here if box[3] == "cleared"]
            peaks = [micro(box[4]) for box in there if box[3] == "peak"]
            ask(not any(low <= at <= high for low, high in cleared for at in peaks), "no order is cleared and a peak")


def judge_verify(status, out, err, report, right, study):
    text = report.decode("latin-1")
    try:
        rows = reading.rows_of(text)
    except reading.Refused as fault:
        ask(err == f"harmscan: report refused: {fault}\n", f"the answer is {fault}")
        return
    ask(text != right or status == 0, "a scan's own report is right")
    if status == 2:
        judge_refused(rows, err.removeprefix("harmscan: report refused: ").rstrip("\n"), right, text)
        return
    scans, boxes = (sum(row.startswith(word) for row in rows) for word in ("scan,", "box,"))
    ask(out == f"verified,{scans},{boxes}\n" and status == 0, "the row counts the report's scans and boxes")
    judge_verdict(rows, right, study)


# ---- a run

REPORTS = {"scan": judge_scans, "tolerance": judge_tolerance, "candidates": judge_candidates, "outages": judge_outages, "limits": judge_limits}


def judge_report(command, out, status, study):
    ask(out.endswith("\n"), "a report ends with a line")
    rows = [line.split(",") for line in out[:-1].split("\n")]
    ask(rows[-1] == ["end", str(status)], "the last row has the status")
    REPORTS[command](rows[:-1], status, study)


def judge(command, files, right, status, out, err):
    """A run of the command on these files. `right` is the scan's own report of this very study, where `verify` judges one."""
    ask(status in ((0, 2) if command == "verify" else (0, 2, 3, 4)), f"no status {status} for a file that can be read")
    if status == 2:
        ask(not out, "nothing is put for a file that is refused")
        ask(re.fullmatch(f"harmscan: {LINES[command]}\n", err), "a refusal has a line of a known form")
    else:
        ask(not err, "no line where a report was written")
    too_large = [data for data in files if len(data) > LIMIT]
    ask(not too_large if "too large" not in err else too_large, "a file is too large above its limit alone")
    if err.startswith("harmscan: study"):
        ask(right is None, "a study that was scanned is not refused")
    if err.startswith("harmscan: study") or too_large:
        return
    study = None if status == 2 else study_of(files[0])
    if command == "verify":
        judge_verify(status, out, err, files[1], right, study)
    elif status != 2:
        judge_report(command, out, status, study)
