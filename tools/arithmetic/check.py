#!/usr/bin/env python3
"""Compares the arithmetic of a built `interval_trials` with exact fractions, on random operations with corners.

  tools/arithmetic/check.py PROGRAM [--count N] [--seed N]

N operations of each kind (10,000), at both scales. The expected values are those of docs/arithmetic.md, by Python's fractions;
beside them, each interval is asked whether it holds the exact result of numbers that its operands held. Prints, of each kind,
how many operations had a value, and at the end the time of a million complex quotients; the status is 1 where one differs.
"""
import argparse
import math
import random
import resource
import subprocess
import sys
from fractions import Fraction

END = 2**62
PARTS = 2**120
CORNERS = [0, 1, 2, 2**18, 2**40, 2**48, 2**51, 2**51 + 1, 2**61, 2**62 - 1, 2**62]


# ---- the expected values

def in_range(low, high):
    low, high = math.floor(low), math.ceil(high)
    return (low, high) if max(abs(low), abs(high)) <= END else None


def add(s, a, b):
    return in_range(a[0] + b[0], a[1] + b[1])


def sub(s, a, b):
    return in_range(a[0] - b[1], a[1] - b[0])


def mul(s, a, b):
    products = [Fraction(x * y, 2**s) for x in a for y in b]
    return in_range(min(products), max(products))


def div(s, a, b):
    if b[0] <= 0 <= b[1]:
        return None
    quotients = [Fraction(x * 2**s, y) for x in a for y in b]
    return in_range(min(quotients), max(quotients))


def square(s, a):
    squares = [Fraction(x * x, 2**s) for x in a]
    return in_range(0 if a[0] <= 0 <= a[1] else min(squares), max(squares))


def upper(s, a):
    return (max(a[0], 0), a[1]) if a[1] >= 0 else None


def lower(s, a):
    return (a[0], min(a[1], 0)) if a[0] <= 0 else None


def mig(s, a):
    return 0 if a[0] <= 0 <= a[1] else min(map(abs, a))


def mag(s, a):
    return max(map(abs, a))


def width(s, a):
    return a[1] - a[0]


class Absent(Exception):
    pass


def some(operation, *operands):
    result = operation(*operands)
    if result is None:
        raise Absent
    return result


def both(f):
    def operation(s, *operands):
        try:
            return f(s, *operands)
        except Absent:
            return None
    return operation


@both
def complex_add(s, z, w):
    return some(add, s, z[0], w[0]) + some(add, s, z[1], w[1])


@both
def complex_sub(s, z, w):
    return some(sub, s, z[0], w[0]) + some(sub, s, z[1], w[1])


@both
def complex_mul(s, z, w):
    (a, b), (c, d) = z, w
    re = some(sub, s, some(mul, s, a, c), some(mul, s, b, d))
    return re + some(add, s, some(mul, s, a, d), some(mul, s, b, c))


@both
def complex_scale(s, z, factor):
    return some(mul, s, z[0], factor) + some(mul, s, z[1], factor)


@both
def complex_div(s, z, w):
    (a, b), (c, d) = z, w
    if mig(s, c) == 0 and mig(s, d) == 0:
        return None
    along = mig(s, c) >= mig(s, d)
    near, far = (d, c) if along else (c, d)
    rho = some(div, s, near, far)
    part = upper if far[0] > 0 else lower
    e = some(add, s, far, some(part, s, some(mul, s, near, rho)))
    if along:
        re = some(div, s, some(add, s, a, some(mul, s, b, rho)), e)
        im = some(div, s, some(sub, s, b, some(mul, s, a, rho)), e)
    else:
        re = some(div, s, some(add, s, some(mul, s, a, rho), b), e)
        im = some(div, s, some(sub, s, some(mul, s, b, rho), a), e)
    return re + im


def norm1_hi(s, z):
    return mag(s, z[0]) + mag(s, z[1])


def low_square(s, z):
    return mig(s, z[0]) ** 2 + mig(s, z[1]) ** 2


def high_square(s, z):
    return mag(s, z[0]) ** 2 + mag(s, z[1]) ** 2


def from_ends(s, a):
    return in_range(*a) if a[0] <= a[1] else None


def from_fraction(s, x):
    return in_range(x * 2**s, x * 2**s)


def from_range(s, x, y):
    return in_range(x * 2**s, y * 2**s)


def new(_, num, den):
    return (num, den) if abs(num) < PARTS and 1 <= den < PARTS else None


def product(_, *factors):
    return new(0, math.prod(factors[:3]), math.prod(factors[3:]))


def end(z):
    return z if abs(z) <= END else None


def floor_scaled(_, x, s):
    return end(math.floor(x * 2**s))


def ceil_scaled(_, x, s):
    return end(math.ceil(x * 2**s))


def floor_times(_, x, k, s):
    return math.floor(k * x / 2**s) if k * x < PARTS else None


def ceil_times(_, x, k, s):
    return math.ceil(k * x / 2**s) if k * x < PARTS else None


def root_floor(_, n):
    return math.isqrt(n)


def root_ceil(_, n):
    return math.isqrt(n - 1) + 1 if n else 0


# ---- the exact results, of complex numbers as pairs; a real number has the imaginary part 0

def plus(z, w):
    return (z[0] + w[0], z[1] + w[1])


def minus(z, w):
    return (z[0] - w[0], z[1] - w[1])


def times(z, w):
    return (z[0] * w[0] - z[1] * w[1], z[0] * w[1] + z[1] * w[0])


def over(z, w):
    size = w[0] ** 2 + w[1] ** 2
    return times(z, (w[0] / size, -w[1] / size))


EXACT = {
    'add': plus, 'sub': minus, 'mul': times, 'div': over, 'square': lambda z: times(z, z),
    'complex_add': plus, 'complex_sub': minus, 'complex_mul': times, 'complex_div': over, 'complex_scale': times,
}


def held(s, random, operand):
    """a number that an interval or a rectangle holds: an end, or one between"""
    if not isinstance(operand[0], tuple):
        operand = (operand, (0, 0))
    shares = [random.choice((Fraction(0), Fraction(1), Fraction(random.randint(0, 1000), 1000))) for _ in operand]
    return tuple((low + share * (high - low)) / 2**s for share, (low, high) in zip(shares, operand))


def holds(s, result, z):
    return all(low <= part * 2**s <= high for low, high, part in zip(result[::2], result[1::2], z))


# ---- random operands

class Operands:
    def __init__(self, seed):
        self.random = random.Random(seed)

    def size(self, bits):
        return self.random.getrandbits(self.random.randint(0, bits))

    def signed(self, number):
        return self.random.choice((number, -number))

    def end(self):
        kind = self.random.randrange(4)
        if kind == 0:
            return self.signed(self.random.choice(CORNERS))
        if kind == 1:
            return self.signed(2**self.random.randint(34, 50) + self.size(20))
        return self.signed(self.size(62))

    def interval(self):
        kind = self.random.randrange(4)
        low = self.end()
        if kind == 0:
            return (low, low)
        if kind == 1:
            return (low, min(low + self.size(12), END))
        return tuple(sorted((low, self.end())))

    def usual(self):
        """around 2^-6 to 2^6 at scale 40, and narrow: most quotients have a value"""
        low = self.signed(2**self.random.randint(34, 46) + self.size(34))
        return (low, low + self.size(24))

    def rectangle(self):
        choose = self.usual if self.random.randrange(2) else self.interval
        return (choose(), choose())

    def ends(self):
        return tuple(self.signed(self.random.choice((self.size(63), 2**62 + self.size(2)))) if self.random.randrange(3) else self.end() for _ in range(2))

    def num(self):
        return self.signed(self.random.choice((self.random.choice(CORNERS), self.size(120), PARTS - 1)))

    def den(self):
        return max(self.random.choice((1, 3, 2**40, self.size(60), self.size(120), PARTS - 1)), 1)

    def fraction(self):
        """half of them near an end of an interval at a scale"""
        if self.random.randrange(2):
            den = max(self.size(57), 1)
            return Fraction(self.end() * den + self.signed(self.size(1)), den * 2**self.random.choice((0, 40, 48)))
        return Fraction(self.num(), self.den())


def bounded(x):
    return abs(x.numerator) < PARTS and x.denominator < PARTS


def fraction(r):
    while True:
        x = r.fraction()
        if bounded(x):
            return x


def ordered(r):
    return tuple(sorted((fraction(r), fraction(r))))


SCALED = {
    'from_ends': (from_ends, lambda r: (r.ends(),)),
    'from_fraction': (from_fraction, lambda r: (fraction(r),)),
    'from_range': (from_range, ordered),
    'add': (add, lambda r: (r.interval(), r.interval())),
    'sub': (sub, lambda r: (r.interval(), r.interval())),
    'mul': (mul, lambda r: (r.interval(), r.interval())),
    'div': (div, lambda r: (r.interval(), r.interval())),
    'square': (square, lambda r: (r.interval(),)),
    'not_below_zero': (upper, lambda r: (r.interval(),)),
    'not_above_zero': (lower, lambda r: (r.interval(),)),
    'mig': (mig, lambda r: (r.interval(),)),
    'mag': (mag, lambda r: (r.interval(),)),
    'width': (width, lambda r: (r.interval(),)),
    'complex_add': (complex_add, lambda r: (r.rectangle(), r.rectangle())),
    'complex_sub': (complex_sub, lambda r: (r.rectangle(), r.rectangle())),
    'complex_mul': (complex_mul, lambda r: (r.rectangle(), r.rectangle())),
    'complex_div': (complex_div, lambda r: (r.rectangle(), r.rectangle())),
    'complex_scale': (complex_scale, lambda r: (r.rectangle(), r.interval())),
    'norm1_hi': (norm1_hi, lambda r: (r.rectangle(),)),
    'low_square': (low_square, lambda r: (r.rectangle(),)),
    'high_square': (high_square, lambda r: (r.rectangle(),)),
}

PLAIN = {
    'new': (new, lambda r: (r.num() + r.signed(r.size(1)), r.signed(r.den()) + r.size(1))),
    'product': (product, lambda r: tuple(r.signed(r.size(r.random.choice((30, 41, 63)))) for _ in range(5))),
    'floor_scaled': (floor_scaled, lambda r: (fraction(r), r.random.choice((0, 40, 48, r.random.randint(0, 48))))),
    'ceil_scaled': (ceil_scaled, lambda r: (fraction(r), r.random.choice((0, 40, 48, r.random.randint(0, 48))))),
    'floor_times': (floor_times, lambda r: (abs(fraction(r)), r.size(64), r.random.randint(0, 48))),
    'ceil_times': (ceil_times, lambda r: (abs(fraction(r)), r.size(64), r.random.randint(0, 48))),
    'root_floor': (root_floor, lambda r: (r.random.choice((r.size(127), min(r.size(63) ** 2 + r.random.randint(0, 2), 2**127 - 1))),)),
    'root_ceil': (root_ceil, lambda r: (r.random.choice((r.size(127), min(r.size(63) ** 2 + r.random.randint(0, 2), 2**127 - 1))),)),
    'at_most': (lambda _, x, y: x <= y, lambda r: neighbours(r)),
}


def neighbours(r):
    x = fraction(r)
    y = Fraction(x.numerator + r.signed(r.size(1)), x.denominator + r.size(1))
    return (x, r.random.choice((y if bounded(y) else x, fraction(r))))


# ---- the program

def words(operand):
    if isinstance(operand, Fraction):
        return f'{operand.numerator} {operand.denominator}'
    if isinstance(operand, tuple):
        return ' '.join(map(words, operand))
    return str(operand)


def text(result):
    if result is None:
        return 'none'
    if isinstance(result, bool):
        return str(result).lower()
    return words(result)


def run(program, lines):
    given = ''.join(line + '\n' for line in lines)
    return subprocess.run([program], input=given, capture_output=True, text=True, check=True).stdout.splitlines()


def compare(program, random, name, scale, operation, operands):
    lines = [f'{name} {scale} {words(each)}' for each in operands]
    results = [operation(scale, *each) for each in operands]
    wanted = list(map(text, results))
    given = run(program, lines)
    different = [t for t in zip(lines, wanted, given) if t[1] != t[2]]
    for line, want, got in different[:3]:
        print(f'    {line}\n    wanted {want}\n    got    {got}')
    wrong = len(different) + abs(len(given) - len(wanted))
    values = sum(each != 'none' for each in wanted)
    if name in EXACT:
        for line, each, result in zip(lines, operands, results):
            if result is not None and not holds(scale, result, EXACT[name](*(held(scale, random, x) for x in each))):
                print(f'    {line}\n    does not hold an exact result')
                wrong += 1
    print(f'{name} {scale}: {len(wanted)} operations, {values} with a value, {wrong} different')
    return wrong


def measure(program, count):
    """the processor time of `count` complex quotients by each branch, less that of none"""
    first = '1099511627776 1099511628776 -549755813888 -549755812888'
    for branch, second in (('real', '2199023255552 2199023256552 1099511627776 1099511628776'), ('imaginary', '1099511627776 1099511628776 2199023255552 2199023256552')):
        spent = []
        for number in (0, count):
            began = resource.getrusage(resource.RUSAGE_CHILDREN).ru_utime
            found = run(program, [f'repeat_div 40 {first} {second} {number}'])
            spent.append(resource.getrusage(resource.RUSAGE_CHILDREN).ru_utime - began)
            if found != [str(number)]:
                sys.exit(f'of {number} quotients {found} had a value')
        print(f'{count} complex quotients by the {branch} part: {spent[1] - spent[0]:.3f} s of processor time')


def main():
    options = argparse.ArgumentParser()
    options.add_argument('program')
    options.add_argument('--count', type=int, default=10_000)
    options.add_argument('--seed', type=int, default=1)
    options.add_argument('--quotients', type=int, default=1_000_000)
    given = options.parse_args()
    r = Operands(given.seed)
    different = 0
    for name, (operation, choose) in SCALED.items():
        for scale in (40, 48):
            different += compare(given.program, r.random, name, scale, operation, [choose(r) for _ in range(given.count)])
    for name, (operation, choose) in PLAIN.items():
        different += compare(given.program, r.random, name, 0, operation, [choose(r) for _ in range(given.count)])
    measure(given.program, given.quotients)
    print(f'{different} different')
    sys.exit(1 if different else 0)


main()
