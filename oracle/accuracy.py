#!/usr/bin/env python3
# How near the answers are to the exact (1+x)^y. Draws pairs over named ranges, asks our library for
# the answers, works out the exact value with mpmath, rounds it to the nearest f32, and prints how
# many answers are another f32 and how far off the worst one is: see README.md.
#
# A pattern is the 32 bits of an f32, as a whole number. An exact value is a whole number m and an
# exponent e, which stand for m * 2^e. Digits are binary.

import math
import struct
import subprocess
import sys
from decimal import Decimal
from fractions import Fraction
from pathlib import Path

from mpmath import mp, mpf
from mpmath.libmp import from_man_exp, mpf_exp, mpf_log, mpf_mul

sys.dont_write_bytecode = True  # so that what is built stays under target/
import picture

ORACLE = Path(__file__).resolve().parent.parent / "target/oracle/oracle"
ROUTES = ["rule", "whole", "edge", "fast", "slow"]

# Where the random numbers begin, how many pairs a range has, and how many are asked at a time.
SEED = 0x0FADE000C0DE2019
COUNT = 20_000
BATCH = 50_000

# The digits of the exact value at first.
BITS = 200

ONE = 0x3F800000
INFINITY = 0x7F800000
SIGN = 1 << 31


# ---- f32


# The pattern of the f32 nearest to a float.
def pattern(v):
    return struct.unpack("<I", struct.pack("<f", v))[0]


# The float that a pattern stands for.
def number(p):
    return struct.unpack("<f", struct.pack("<I", p))[0]


# A finite f32 exactly.
def parts(p):
    field, fraction = p >> 23 & 255, p & 0x7FFFFF
    m = fraction | 1 << 23 if field else fraction
    return (-m if p >> 31 else m), max(field, 1) - 150


# The exponent of the last place of an f32 in the binade of m * 2^e. The last place of the smallest
# ones is 2^-149.
def last_place(m, e):
    return max(m.bit_length() + e - 24, -149)


# The f32 nearest to m * 2^e, ties to even, where m may be off by up to slack: None if that leaves
# it open. From 2^128 - 2^103 up it is infinity: there the pattern comes to that by itself.
def nearest(m, e, slack=0):
    place = last_place(m, e)
    if place > 104:
        return INFINITY
    shift = place - e
    if shift <= 0:
        return (place + 149 << 23) + (m << -shift)
    n = m >> shift
    past = m - (n << shift) - (1 << shift - 1)
    if past == 0 == slack:
        n += n & 1
    elif abs(past) <= slack:
        return None
    elif past > 0:
        n += 1
    return (place + 149 << 23) + n


# Whether m * 2^e is exactly in the middle of two f32s.
def is_tie(m, e):
    shift = last_place(m, e) - e
    return shift > 0 and m & (1 << shift) - 1 == 1 << shift - 1


# How far the finite f32 r is from m * 2^e, in last places of the latter.
def ulps(r, m, e):
    a, f = parts(r)
    low = min(e, f)
    off = abs((a << f - low) - (m << e - low))
    return off / (1 << last_place(m, e) - low)


# ---- the exact value


# m * 2^e with an odd m.
def odd(m, e):
    zeros = (m & -m).bit_length() - 1
    return m >> zeros, e + zeros


# 1 + x exactly, and y; both with odd m.
def operands(x, y):
    m, e = parts(x)
    base = (1 + (m << e), 0) if e >= 0 else ((1 << -e) + m, e)
    return *odd(*base), *odd(*parts(y))


# Whether demand 3 bounds the answer: y whole, 1 <= |y| <= 16, x nonzero, -1 < x < 2^64.
def is_whole(x, y):
    base, n = number(x), number(y)
    return n.is_integer() and 1 <= abs(n) <= 16 and base != 0 and -1 < base < 2.0**64


# A fraction times 2^e, cut after some 200 digits; the last digit is 1 where something was cut, so
# that the rounding to f32 stays right.
def cut(num, den, e):
    shift = max(BITS + den.bit_length() - num.bit_length(), 0)
    m, rest = divmod(num << shift, den)
    return m << 1 | (rest > 0), e - shift - 1


# For such y: (1+x)^y as a fraction times a power of two.
def ratio(x, y):
    b, e, _, _ = operands(x, y)
    n = int(number(y))
    return (b**n, 1, e * n) if n > 0 else (1, b**-n, e * n)


# (1+x)^y if it is m * 2^e with some 64 digits at most, else None: no other can be a tie. With
# 1+x = b * 2^e and b odd, a square root is such a number only if b is a square and e even, and a
# negative power only if b is 1; a whole power has about y times as many digits as b.
def short(x, y):
    b, e, n, f = operands(x, y)
    for _ in range(-f):
        root = math.isqrt(b)
        if root * root != b or e % 2:
            return None
        b, e = root, e // 2
    n <<= max(f, 0)
    if b > 1 and (n < 0 or n * (b.bit_length() - 1) > 64):
        return None
    return b ** max(n, 0), e * n


# (1+x)^y by its logarithm, to the given number of digits, and how far m may be off. The logarithm
# has a relative error of 2^-bits, and |y log(1+x)| is below 2^9, so the power has one of about
# 2^(9-bits); three digits more are left for mpmath's last place.
def power(x, y, bits):
    b, e, n, f = operands(x, y)
    log = mpf_log(from_man_exp(b, e), bits)
    _, m, e, _ = mpf_exp(mpf_mul(log, from_man_exp(n, f)), bits)
    m = int(m)
    longer = max(bits - m.bit_length(), 0)
    m <<= longer
    return m, e - longer, m >> bits - 12


# y * log2(1+x), roughly.
def exponent(x, y):
    return number(y) * math.log1p(number(x)) / math.log(2)


# The f32 nearest to (1+x)^y, and that power to some 200 digits. Past 2^130 the power is None, and
# below 2^-400 it is taken for that.
def exact(x, y):
    if is_whole(x, y):
        value = cut(*ratio(x, y))
        return nearest(*value), value
    t = exponent(x, y)
    if t > 130:
        return INFINITY, None
    if t < -400:
        return 0, (1, -400)
    bits = BITS
    while True:
        *value, slack = power(x, y, bits)
        right = nearest(*value, slack)
        if right is not None:
            return right, value
        tie = short(x, y)
        if tie:
            return nearest(*tie), tie
        bits *= 2


# The least and the greatest answer that demand 3 allows for such y.
def bounds(x, y):
    num, den, e = ratio(x, y)
    return [nearest(*cut(num * (2**47 + d), den, e - 47)) for d in (-1, 1)]


# ---- what is drawn


# Splitmix64, as src/random.rs has it. Each range has a stream of its own.
class Random:
    def __init__(self, stream):
        self.state = SEED ^ stream << 32

    # The next 64 bits.
    def bits(self):
        mask = (1 << 64) - 1
        self.state = z = self.state + 0x9E3779B97F4A7C15 & mask
        z = (z ^ z >> 30) * 0xBF58476D1CE4E5B9 & mask
        z = (z ^ z >> 27) * 0x94D049BB133111EB & mask
        return z ^ z >> 31

    # A whole number from low to high, both included.
    def within(self, low, high):
        return low + self.bits() % (high - low + 1)

    # A number from low up to, but without, high.
    def real(self, low, high):
        return low + (high - low) * (self.bits() >> 11) / (1 << 53)

    # A positive f32 from low to high, all patterns equally likely: every binade has its share, and
    # so the sizes are as good as even in the logarithm.
    def size(self, low, high):
        return self.within(pattern(low), pattern(high))

    # Either sign.
    def sign(self):
        return self.bits() >> 63 << 31

    # x, or if it is below 1 either x or -x.
    def above_minus_one(self, x):
        return x | self.sign() if x < ONE else x


# The y that brings the answer to 2^t.
def y_for(x, t):
    return pattern(t * math.log(2) / math.log1p(number(x)))


# What a cell loses in a cycle.
def loss(r):
    return SIGN | r.size(1e-6, 1e-2)


# |x| from 2^low to 2^high, x above -1.
def wide(r, low, high):
    return r.above_minus_one(r.size(2.0**low, 2.0**high))


# x so near -1 that 1+x is from 2^-24 to 1/2.
def near_minus_one(r):
    return pattern(number(r.size(2.0**-24, 0.5)) - 1)


# A y for which the answer is an f32: neither 0 nor infinity.
def y_in_reach(r, x):
    return y_for(x, r.real(-149, 128))


# A y above 0 for which the answer is from 1/2 to 1, or from 1 to 2 where x is above 0.
def y_to_half(r, x):
    return y_for(x, math.log2(r.real(0.5, 1))) & ~SIGN


# A y for which the answer is off 1 by 2^-30 to 2^-10.
def y_near_one(r, x):
    off = number(r.size(2.0**-30, 2.0**-10) | r.sign())
    return y_for(x, math.log1p(off) / math.log(2))


# A whole y from low to high, even in the logarithm.
def cycles(r, low, high):
    return pattern(round(number(r.size(low, high))))


# x up to 2^64 with a whole y. Of four x's one is of any size, one of 2^-29 or more, one near -1,
# and one has so few digits that ties occur. Drawn anew if the answer is 0 or infinity.
def whole(r):
    while True:
        kind = r.within(0, 3)
        if kind == 0:
            x = r.above_minus_one(r.within(1, 0x5F7FFFFF))
        elif kind == 1:
            x = r.above_minus_one(r.within(0x31000000, 0x5F7FFFFF))
        elif kind == 2:
            x = near_minus_one(r)
        else:
            x = pattern(r.within(1, 1 << 13) * 2.0 ** -r.within(0, 13))
        y = pattern(r.within(1, 16)) | r.sign()
        if -150 < exponent(x, y) < 128:
            return x, y


# y an odd multiple of 1/2 up to 31/2, of either sign. Of two x's one is any, and one is such that
# 1+x is a square, of s with at most 9 digits, so that ties occur. Drawn anew if the answer is 0 or
# infinity.
def halves(r):
    while True:
        x = wide(r, -20, 20)
        if r.within(0, 1):
            s = (2 * r.within(0, 255) + 1) * 2.0 ** r.within(-12, 2)
            x = pattern(s * s - 1)
            if x == 0 or number(x) != s * s - 1:
                continue
        y = pattern((r.within(0, 15) >> r.within(0, 3)) + 0.5) | r.sign()
        if -150 < exponent(x, y) < 128:
            return x, y


# A draw of x, and then of y for it.
def both(draw_x, draw_y):
    def draw(r):
        x = draw_x(r)
        return x, draw_y(r, x)

    return draw


REACH = "y so that the answer is from 2^-149 to 2^128, evenly in its exponent"
HALF = "y so that from 1/2 to 1 is left, evenly"
TWICE = "y so that it grows to between 1 and 2 times"

# The name of a range, what it holds, and a draw from it. Unless it says otherwise, sizes are even
# in the logarithm.
RANGES = [
    ("fade", "x from -1e-2 to -1e-6, y from 1 to 1e5", both(loss, lambda r, x: r.size(1, 1e5))),
    (
        "fade whole",
        "x from -1e-2 to -1e-6, y whole from 1 to 16, evenly",
        both(loss, lambda r, x: pattern(r.within(1, 16))),
    ),
    (
        "fade long",
        "x from -1e-2 to -1e-6, y whole from 17 to 100000",
        both(loss, lambda r, x: cycles(r, 17, 100_000)),
    ),
    ("fade to half", f"x from -1e-2 to -1e-6, {HALF}", both(loss, y_to_half)),
    (
        "growth",
        "x from 1e-6 to 1e-2, y from 1 to 1e5",
        both(lambda r: r.size(1e-6, 1e-2), lambda r, x: r.size(1, 1e5)),
    ),
    (
        "wide",
        f"|x| from 2^-20 to 2^20, x above -1, {REACH}",
        both(lambda r: wide(r, -20, 20), y_in_reach),
    ),
    ("nearly all lost", f"1+x from 2^-24 to 1/2, {REACH}", both(near_minus_one, y_in_reach)),
    ("huge x", f"x from 2^20 to 2^127, {REACH}", both(lambda r: wide(r, 20, 127), y_in_reach)),
    (
        "subnormal answers",
        "|x| from 2^-20 to 2^20, x above -1, y so that the answer is from 2^-149.5 to 2^-126",
        both(lambda r: wide(r, -20, 20), lambda r, x: y_for(x, r.real(-149.5, -126))),
    ),
    (
        "near one",
        "|x| from 2^-20 to 2^20, x above -1, y so that the answer is off 1 by 2^-30 to 2^-10",
        both(lambda r: wide(r, -20, 20), y_near_one),
    ),
    (
        "whole",
        "x from -1 to 2^64 of any size, y whole from -16 to 16, evenly, answers in reach",
        whole,
    ),
    (
        "halves",
        "|x| from 2^-20 to 2^20, x above -1, or 1+x a short square; y an odd multiple of 1/2 "
        "up to 31/2 of either sign, answers in reach",
        halves,
    ),
    (
        "small loss",
        f"x from -2^-20 to -2^-30, {REACH}",
        both(lambda r: SIGN | r.size(2.0**-30, 2.0**-20), y_in_reach),
    ),
    ("tiny x", f"|x| from 2^-52 to 2^-30, {REACH}", both(lambda r: wide(r, -52, -30), y_in_reach)),
    (
        "x that 1+x loses",
        f"|x| from 2^-120 to 2^-53, {REACH}",
        both(lambda r: wide(r, -120, -53), y_in_reach),
    ),
    (
        "better cells",
        "x from -1e-6 to -1e-16, y from 1 to 1e5",
        both(lambda r: SIGN | r.size(1e-16, 1e-6), lambda r, x: r.size(1, 1e5)),
    ),
    (
        "small growth",
        f"x from 2^-29 to 2^-20, {REACH}",
        both(lambda r: r.size(2.0**-29, 2.0**-20), y_in_reach),
    ),
    (
        "growth by 2^-30",
        f"x from 2^-30 up to 2^-29, {REACH}",
        both(lambda r: r.size(2.0**-30, (1 - 2.0**-24) * 2.0**-29), y_in_reach),
    ),
    (
        "faint growth",
        "x from 1e-16 to 1e-6, y from 1 to 1e5",
        both(lambda r: r.size(1e-16, 1e-6), lambda r, x: r.size(1, 1e5)),
    ),
]


# A range of x in one binade, with a loss of up to a half or a growth of up to twice.
def one_binade(sign, k):
    def x(r):
        return (SIGN if sign == "-" else 0) | pattern(2.0**k) + r.within(0, (1 << 23) - 1)

    how = HALF if sign == "-" else TWICE
    return f"{sign}2^{k}", f"|x| from 2^{k} up to 2^{k + 1}, {how}", both(x, y_to_half)


# x by its size, every binade of it: how the answers get worse as it shrinks.
SIZES = [one_binade(sign, k) for sign in "-+" for k in range(-2, -53, -1)]


# ---- what is counted


# The pairs of one route, and the worst of their answers; of two that are as far off, one that is
# misrounded, as a tie may be.
class Tally:
    def __init__(self):
        self.pairs = self.ties = self.by_one = self.by_more = self.infinite = 0
        self.wrong = []
        self.worst, self.at = (-1.0, False), "none is finite"

    # Counts an answer. Where only one of it and the right one is infinite, it has no distance.
    def note(self, x, y, r, right, value):
        self.pairs += 1
        if r != right:
            self.by_one += abs(r - right) == 1
            self.by_more += abs(r - right) > 1
            self.widen(abs(number(x)))
        if INFINITY in (r, right):
            self.infinite += r != right
            return
        self.ties += is_tie(*value)
        error = ulps(r, *value), r != right
        if error > self.worst:
            self.worst = error
            self.at = f"{x:08x} {y:08x}: {r:08x}" + (f", right {right:08x}" if r != right else "")

    # The least and the greatest |x| of the misrounded answers, with one more.
    def widen(self, *sizes):
        sizes = [*self.wrong, *sizes]
        self.wrong = [min(sizes), max(sizes)] if sizes else []

    # Both together.
    def plus(self, other):
        self.pairs += other.pairs
        self.ties += other.ties
        self.by_one += other.by_one
        self.by_more += other.by_more
        self.infinite += other.infinite
        self.widen(*other.wrong)
        if other.worst > self.worst:
            self.worst, self.at = other.worst, other.at

    # The cells of a row.
    def cells(self):
        counts = [self.pairs, self.ties, self.by_one + self.by_more]
        counts += [self.by_one, self.by_more, self.infinite]
        sizes = " to ".join(f"{size:.2e}" for size in self.wrong)
        return [*(f"{n:,}" for n in counts), sizes, self.worst_error(), self.at]

    # The worst error, if one is known.
    def worst_error(self):
        error = self.worst[0]
        return "" if error < 0 else f"{error:.6f}" if error < 100 else f"{error:.3g}"


COLUMNS = ["Pairs", "Ties", "Misrounded", "by one f32", "by more", "infinity wrong"]
COLUMNS += ["sizes of their x", "Worst error, ulps", "at x y: answer"]


# Prints a row of a table.
def row(cells):
    print("| " + " | ".join(cells) + " |")


# Prints the head of a table.
def head(*first):
    print()
    row([*first, *COLUMNS])
    print("|" + "---|" * (len(first) + len(COLUMNS)))


# Our library's answers: x, y, r as patterns and the route's word.
def ask(pairs):
    text = "".join(f"{x:08x} {y:08x}\n" for x, y in pairs)
    try:
        done = subprocess.run([ORACLE, "answers"], input=text, text=True, capture_output=True)
    except OSError as problem:
        done = None
        print(f"accuracy: {problem}", file=sys.stderr)
    lines = done.stdout.splitlines() if done and done.returncode == 0 else []
    if len(lines) != len(pairs):
        print("accuracy: the library could not be asked", file=sys.stderr)
        sys.exit(2)
    for line in lines:
        x, y, r, via = line.split(" ")
        yield int(x, 16), int(y, 16), int(r, 16), via


# What a run counts: of the bound for whole exponents, and for each range and route.
class Run:
    def __init__(self, count, slow):
        self.count, self.slow = count, slow
        self.bounded, self.broken = 0, []

    # Measures one range, on the random numbers of the given stream.
    def measure(self, draw, stream):
        random = Random(stream)
        tallies = {via: Tally() for via in ROUTES}
        for start in range(0, self.count, BATCH):
            pairs = [draw(random) for _ in range(min(BATCH, self.count - start))]
            for answer in ask(pairs):
                if not self.slow or answer[3] == "slow":
                    self.compare(tallies[answer[3]], *answer)
        return {via: tally for via, tally in tallies.items() if tally.pairs}

    # Compares one answer with the exact value, and with the bound if it has one.
    def compare(self, tally, x, y, r, via):
        right, value = exact(x, y)
        tally.note(x, y, r, right, value)
        if is_whole(x, y):
            self.bounded += 1
            low, high = bounds(x, y)
            if not low <= r <= high:
                self.broken.append(f"{x:08x} {y:08x}: {r:08x} {via}, not {low:08x} to {high:08x}")

    # Says what became of the bound; whether it held.
    def report_bound(self):
        print(f"bound of whole exponents: {self.bounded:,} answers, {len(self.broken):,} beyond it")
        for line in self.broken[:5]:
            print(f"  {line}")
        if self.broken:
            print("accuracy: THE BOUND IS BROKEN")
        return not self.broken


# ---- the self-test

# The table "Pairs at the edges" of document 01: x, y, answer, route, and the right f32, which a
# rule does not have.
DOCUMENT = """
00000000 7f800000 3f800000 rule
00000000 7fc00000 7fc00000 rule
bf800000 80000000 3f800000 rule
bf800000 3f800000 00000000 rule
bf800000 bf800000 7f800000 rule
bf800001 00000000 7fc00000 rule
3f000000 40000000 40100000 whole 40100000
3f800000 41800000 47800000 whole 47800000
3f800000 c1800000 37800000 whole 37800000
31000000 41800000 3f800000 whole 3f800000
5f7fffff 3f800000 5f7fffff whole 5f7fffff
5f800000 3f800000 5f800000 fast 5f800000
3f800000 3f000000 3fb504f3 fast 3fb504f3
3f800000 43000000 7f800000 edge 7f800000
3f800000 c3160000 00000000 edge 00000000
3f800000 c3150000 00000001 slow 00000001
21800000 5d800000 3f800000 edge 402df854
"""

# The answers that docs/ERROR-BUDGET.md knows to be wrong.
WRONG = """
bc1ce397 450333d5 30e83f03 slow 30e83f02
bbcbfbd1 c63439f7 73712bd1 slow 73712bd2
3cc12000 3fc00000 3f848d8d slow 3f848d8e
5d810080 3fc00000 6c818180 slow 6c818181
25000001 5c576e1e 664fefcb fast 52e6b88d
a5d0a416 dc60b2da 7c3d46e3 fast 7f800000
21800000 5d800000 3f800000 edge 402df854
b7d63033 41700000 3f7fe6e7 whole 3f7fe6e8
b965f476 41200000 3f7f706c whole 3f7f706b
b6d5b8f2 c1700000 3f800322 whole 3f800321
b8d3e7d3 c1300000 3f802472 whole 3f802471
b8ccc852 c0000000 3f800666 whole 3f800667
babb71de c0000000 3f805dec whole 3f805ded
bba56ffe c0a00000 3f8347de whole 3f8347dd
3c10f54f c1500000 3f644d12 whole 3f644d11
3c55563d 41000000 3f8df512 whole 3f8df511
"""

# Ties that are answered well: one between subnormal f32s, and one of a whole exponent.
TIES = """
bf7fff70 40f00000 006d7936 slow 006d7936
45801000 40000000 4b803004 whole 4b803004
"""

# Values at which the rounding turns, as m and e, and the f32 for each.
TURNS = [
    ((2**25 - 1, 103), INFINITY),  # 2^128 - 2^103
    ((2**50 - 2**25 - 1, 78), 0x7F7FFFFF),  # just below it
    ((1, 128), INFINITY),
    ((1, -150), 0),  # a tie between 0 and the least f32
    ((2**50 + 1, -200), 1),  # just above it
    ((3, -150), 2),
    ((2**24 - 1, -150), 0x00800000),  # a tie below the least normal f32
    ((2**24 + 1, -24), ONE),  # ties next to 1
    ((2**24 + 3, -24), ONE + 2),
    ((2**25 - 1, -25), ONE),
    ((2**25 - 3, -25), ONE - 2),
]


# Ends the run if something does not hold.
def require(holds, what):
    if not holds:
        sys.exit(f"accuracy: the self-test failed: {what}")


# The answers and the right values of a list.
def test_pairs(text):
    rows = [line.split() for line in text.split("\n") if line]
    answers = ask([(int(x, 16), int(y, 16)) for x, y, *_ in rows])
    for (*_, r, via), listed in zip(answers, rows):
        line = " ".join(listed)
        require([f"{r:08x}", via] == listed[2:4], f"{line}, but the answer is {r:08x} {via}")
        if len(listed) > 4:
            right, _ = exact(int(listed[0], 16), int(listed[1], 16))
            require(f"{right:08x}" == listed[4], f"{line}, but right is {right:08x}")


# The rounding: where it turns, and beside the machine's own rounding of an f64 to f32, on ties and
# next to them, about half of them subnormal.
def test_rounding(random):
    for value, right in TURNS:
        require(nearest(*value) == right, f"the rounding of {value}")
    for r, value in (ONE, (2**24 + 1, -24)), (ONE, (2**25 - 1, -25)), (1, (1, -150)):
        require(ulps(r, *value) == 0.5 and is_tie(*value), f"the tie {value} by {r:08x}")
    for _ in range(20_000):
        m, e = random.within(2**24, 2**25), random.within(-150, 102)
        if random.within(0, 1):
            m, e = m >> random.within(0, 24), -150
        value = (m << 27) + random.within(-2, 2), e - 27
        require(nearest(*value) == pattern(math.ldexp(*value)), f"the rounding of {value}")


# The two ways to the exact value, by the logarithm and by whole numbers; and that the bound lets an
# answer pass and no f32 beside it, where the exact value is an f32.
def test_exact(random):
    for _ in range(500):
        x, y = whole(random)
        *value, slack = power(x, y, 2 * BITS)
        right = nearest(*value, slack)
        require(right in (None, nearest(*cut(*ratio(x, y)))), f"the exact value of {x:08x} {y:08x}")
    require(bounds(0x3F000000, 0x40000000) == [0x40100000] * 2, "the bound of 1.5^2")


# All of it.
def self_test():
    random = Random(0)
    test_rounding(random)
    test_exact(random)
    test_pairs(DOCUMENT)
    test_pairs(WRONG)
    test_pairs(TIES)
    print("self-test: passed")


# ---- the program


# The ranges by table: its name and that of its first column, and the stream of its first range; the
# next range has the next stream.
TABLES = [("ranges", "Range", 1, RANGES), ("sizes", "Size of x", 101, SIZES)]


# Measures the given ranges, prints a table of them and one with their routes, and returns the totals.
def report(run, first, ranges):
    measured, totals = [], []
    for stream, (name, words, draw) in ranges:
        print(f"{name}: {words}", flush=True)
        measured.append((name, run.measure(draw, stream)))
    head(first)
    for name, tallies in measured:
        total = Tally()
        for tally in tallies.values():
            total.plus(tally)
        row([name, *total.cells()])
        totals.append((name, total))
    head(first, "Via")
    for name, tallies in measured:
        for via, tally in tallies.items():
            row([name, via, *tally.cells()])
    print()
    return totals


# What stands above the figures.
FIGURES = """\
# The worst error by the size of x, {count:,} pairs a line. `oracle/run accuracy picture` writes this file, and
# `oracle/picture.py` draws docs/error.svg from it. A line -2^-31 has the x of that sign with a size from 2^-31 up to,
# but without, 2^-30; y is such that from 1/2 to 1 is left, or that 1 grows to at most 2.
#
# x, misrounded answers, those by more than one f32, worst error in ulps, at x y: answer
"""


# Measures x by its size, writes the figures to docs/error.txt and draws them as docs/error.svg.
def draw_picture(run):
    _, first, stream, ranges = TABLES[1]
    lines = FIGURES.format(count=run.count).splitlines()
    for name, total in report(run, first, list(enumerate(ranges, stream))):
        counts = f"{total.by_one + total.by_more:6} {total.by_more:6}"
        lines.append(f"{name:7} {counts} {total.worst[0]:14.6f} {total.at}")
    picture.TABLE.write_text("".join(f"{line}\n" for line in lines))
    picture.main([])


# Every x of fade's range with every whole y, 1 to 16 in size and of either sign: the pairs that the
# oracle program finds near a midpoint are evaluated, and no other can be misrounded.
def every(run):
    found = subprocess.run([ORACLE, "midpoints"], capture_output=True, text=True, check=True)
    pairs = [tuple(int(p, 16) for p in line.split()) for line in found.stdout.splitlines()]
    print(f"every x from -1e-2 to -1e-6, y whole, 1 to 16 in size: {len(pairs):,} by a midpoint")
    total = Tally()
    for x, y, r, via in ask(pairs):
        run.compare(total, x, y, r, via)
        right, value = exact(x, y)
        if r != right:
            print(f"{x:08x} {y:08x} {r:08x} {via}, right {right:08x}: {ulps(r, *value):.10f} ulps")
    head("Range")
    row(["every", *total.cells()])
    print()


# The budget of one answer, from the decimals of a data sheet to the factor: each part is a difference of two values,
# and together they are what the answer is off by. X and Y are the decimals, x and y the f32s that stand for them.
# Returns false where there is none: x has to be above -1, and the answer normal.
def budget(given_x, given_y):
    mp.prec = 2 * BITS
    x, y = pattern(float(given_x)), pattern(float(given_y))
    if not (-1 < number(x) < math.inf and -126 < exponent(x, y) < 127):
        print("accuracy: a budget takes an x above -1 and an answer from 2^-126 to 2^127", file=sys.stderr)
        return False
    X, Y = (mpf(n.numerator) / n.denominator for n in (Fraction(given_x), Fraction(given_y)))
    (_, _, r, via), = ask([(x, y)])
    right, value = exact(x, y)
    ulp = mpf(2) ** last_place(*value)
    given, with_x, with_both = (1 + X) ** Y, (1 + mpf(number(x))) ** Y, (1 + mpf(number(x))) ** mpf(number(y))
    nearest_f32, answer = mpf(number(right)), mpf(number(r))
    # At most, to first order: half a last place of x or y, times how fast the power moves with it. A y that is an f32
    # is not rounded.
    half_x, half_y = (mpf(2) ** last_place(*parts(p & ~SIGN)) / 2 for p in (x, y))
    most_x = half_x * abs(Y) * given / (1 + X)
    most_y = half_y * abs(mp.log(1 + X)) * given if mpf(number(y)) != Y else 0
    print(f"X = {given_x}, Y = {given_y}: x={x:08x} y={y:08x} r={r:08x} via={via}, r is {number(r):.9g}")
    print(f"exact (1 + X)^Y: {mp.nstr(given, 12)}; one ulp is 2^{last_place(*value)}, {float(ulp):.3g} of the capacity")
    print()
    row(["Part", "Formula", "Ulps", "Of the capacity", "At most, ulps"])
    print("|" + "---|" * 5)
    for name, formula, off, most in [
        ("x rounded to f32", "(1+x)^Y - (1+X)^Y", with_x - given, most_x),
        ("y rounded to f32", "(1+x)^y - (1+x)^Y", with_both - with_x, most_y),
        ("the function", "r - nearest f32", answer - nearest_f32, None),
        ("the answer's rounding", "nearest f32 - (1+x)^y", nearest_f32 - with_both, ulp / 2),
        ("the sum", "r - (1+X)^Y", answer - given, most_x + most_y + ulp / 2),
    ]:
        cells = [f"{float(off / ulp):+.4f}", f"{float(off):+.2e}"] if off else ["0", "0"]
        row([name, formula, *cells, "" if most is None else f"{float(most / ulp):.4f}" if most else "0"])
    half = mpf(10) ** Decimal(given_x).as_tuple().exponent / 2
    low, high = ((1 + X + d) ** Y for d in (-half, half))
    print()
    print(f"X is known to {float(half):g}: from {float(low):.4f} to {float(high):.4f} is left")
    return True


# Does what the arguments say: every, picture, budget X Y, or [slow] [count] [range]...
def main(words):
    if words[:1] == ["budget"] and len(words) == 3:
        return 0 if budget(*words[1:]) else 2
    if words == ["every"]:
        self_test()
        run = Run(0, False)
        every(run)
        return 0 if run.report_bound() else 1
    if words == ["picture"]:
        self_test()
        run = Run(COUNT, False)
        draw_picture(run)
        return 0 if run.report_bound() else 1
    slow = words[:1] == ["slow"]
    words = words[slow:]
    count = int(words.pop(0)) if words and words[0].isdigit() else COUNT
    known = [name for table, _, _, ranges in TABLES for name in (table, *(r[0] for r in ranges))]
    if not set(words) <= set(known):
        usage = "every, picture, budget X Y, or [slow] [count] [range]...; the ranges are"
        print(f"accuracy: the arguments are {usage}", file=sys.stderr)
        print("  " + ", ".join(known), file=sys.stderr)
        return 2
    print(f"seed: {SEED:016x}, {count:,} pairs a range{', only slow ones count' if slow else ''}")
    self_test()
    run = Run(count, slow)
    for table, first, stream, ranges in TABLES:
        wanted = set(words or ["ranges"])
        chosen = [r for r in enumerate(ranges, stream) if {table, r[1][0]} & wanted]
        if chosen:
            report(run, first, chosen)
    return 0 if run.report_bound() else 1


if __name__ == "__main__":
    sys.exit(main(sys.argv[1:]))
