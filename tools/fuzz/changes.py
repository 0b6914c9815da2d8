"""Changes of files, of bytes, of lines, of numbers and of words, for fuzz.py."""
import re

NUMBERS = ["0", "-0", "-1", "1", "0.000001", "0.0000001", "999999.999999", "1000000", "1e3", "2147483648", "9223372036854775807",
           "9223372036854775808", "1.", ".5", "", "nan", "inf", "0x10", "1_000", "00007", "5000", "10000", "0.1", "100", "65537", "500", "501"]
WORDS = ["positive", "zero", "grounded", "star", "delta", "cigre", "parallel", "series", "single", "highpass", "ctype", "both", "branchwise",
         "elimination", "phases", "sequence", "a", "b", "c", "limits", "true", "false", "GRID", "S", "s0", "x" * 32, "x" * 33, "ü", "a b", "a,b", '\\"']
LINES = ["[[bus]]", "[[scan]]", "[[source]]", "[[line]]", "[[transformer]]", "[[load]]", "[[bank]]", "[[filter]]", "[[pcc]]", "[[candidate]]", "[[tolerance]]", "[[outage]]", "[study]",
         "[extra]", "key = 1", 'phase = "a"', 'xab = "1"', "grounded = true", "scale = 48", 'method = "both"', 'method = "branchwise"',
         "version = 2", "sections = 64", "sections = 65", 'curve_at = ["1", "50"]', 'curve_ohms = ["5", "7"]', "threshold = 1", 'model = "phases"',
         'root3 = "1.7"', "hz = 60", 'skin_k = "1"', "locate = 1", 'finest = "0.01"', "# a comment", "", "\ufeff", "]", "[[", "= =", "5,B1,1,0", "order,bus,re,im", "bus,order,percent", "50,B1,0.000001,-3", "3,B1,1,1",
         'scan = "s1"', 'sizes = ["1", "2"]', "permille = 500", "permille = 501", 'element = "GRID"', "B1,thd,100", "B1,5,0.0001", "thd,B1,2", "51,B1,1,0", "05,B1,1,0", '"5",B1,1,0', "5,B1,1", "5,B1,a,1,0"]


def changed_bytes(rng, data):
    at = rng.randrange(0, len(data) + 1)
    kind = rng.randrange(5)
    if kind == 0:
        return data[:at]
    if kind == 1:
        return data[:at] + bytes([rng.randrange(256)]) + data[at:]
    if kind == 2:
        return data[:at] + data[at + rng.randrange(1, 9):]
    if kind == 3:
        return data[:at] + bytes([rng.randrange(256)]) + data[at + 1:]
    other = rng.randrange(0, len(data) + 1)
    return data[:at] + data[min(at, other):max(at, other)][:200] + data[at:]


def changed_lines(rng, data):
    lines = data.split(b"\n")
    at = rng.randrange(len(lines))
    kind = rng.randrange(5)
    if kind == 0:
        del lines[at]
    elif kind == 1:
        lines.insert(at, rng.choice(LINES).encode())
    elif kind == 2:
        lines.insert(at, rng.choice(lines))
    elif kind == 3:
        other = rng.randrange(len(lines))
        lines[at], lines[other] = lines[other], lines[at]
    else:
        end = at + rng.randrange(1, 9)
        lines[at:at] = lines[at:end]
    return b"\n".join(lines)


def replaced(rng, data, pattern, choice):
    """A place of this pattern with what is chosen for it."""
    found = list(re.finditer(pattern, data))
    if not found:
        return data
    match = rng.choice(found)
    return data[:match.start()] + choice(match.group()).encode() + data[match.end():]


def other_number(rng, old):
    """One of the numbers above, or one near the old one or of another size."""
    if rng.random() < 0.5:
        return rng.choice(NUMBERS)
    return f"{float(old) * rng.choice([0.5, 0.999, 1.001, 2, 3, 10, 0.1, 1000]):.{rng.choice([0, 0, 3, 6])}f}"


def other_word(rng, data):
    """One of the words above, or one of the file's."""
    own = re.findall(rb'(?<=")[A-Za-z][A-Za-z0-9_.-]*(?=")', data)
    return rng.choice(own).decode() if own and rng.random() < 0.5 else rng.choice(WORDS)


def some_sizes(rng):
    """Sizes of a bank, also as many as there may be, and one more."""
    sizes = ", ".join(rng.choice(["1", '"0.000001"', "4", '"12.5"', "999999"]) for _ in range(rng.choice([0, 1, 2, 5, 64, 65])))
    return f"[{sizes}]"


def changed(rng, data):
    """A file with one to four changes."""
    for _ in range(rng.choice([1, 1, 1, 1, 2, 2, 3, 4])):
        kind = rng.randrange(20)
        if kind < 2:
            data = changed_bytes(rng, data)
        elif kind < 6:
            data = changed_lines(rng, data)
        elif kind < 14:
            data = replaced(rng, data, rb"-?\d+(\.\d+)?", lambda old: other_number(rng, old))
        elif kind < 15:
            data = replaced(rng, data, rb"(?<=sizes = )\[[^\]]*\]", lambda _: some_sizes(rng))
        else:
            word = other_word(rng, data)
            data = replaced(rng, data, rb'(?<=")[A-Za-z][A-Za-z0-9_.-]*(?=")', lambda _: word)
    return data
