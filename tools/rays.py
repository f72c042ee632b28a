#!/usr/bin/env python3
"""Ray hits, Fresnel values, roots, a pane's factors and transmissivity: an implementation of its own of document 01's section "Rays and
reflection" and of requests L6, L8 and L12.

    tools/rays.py cases       a list of cases, one to a line (crates/rays/stdin)
    tools/rays.py answers     the answers to standard input's cases (crates/rays/stdout)
    tools/rays.py summary     how many cases there are of each kind, and how many of them have each answer

A case is a kind and the bits of its doubles in hex: `sphere o d c r`, `ring o d c n inner outer`, `polygon o d` and its corners,
`fresnel cos1 n1 n2`, `root x`, `factors FTE FTM Ct`, `transmissivity Tn`, where o, d, c and n are three doubles each. Rays of these
kinds have the least distance 0; those of `sphere_above`, `ring_above` and `polygon_above` have it as their last double, and
`sphere_default` and so on have the default.

A step is one operation of Python's floats, which are IEEE doubles rounded once; the root is taken of whole numbers, exactly; the
steps of a polygon and of a pane are exact fractions, rounded once."""
import collections
import itertools
import math
import random
import re
import struct
import sys
from fractions import Fraction
from math import inf, nextafter

SIZES = {"sphere": [10], "ring": [14], "polygon": range(6, 128), "fresnel": [3], "root": [1], "factors": [3], "transmissivity": [1]}
SHAPES_ABOVE = {"sphere_above": [11], "ring_above": [15], "polygon_above": range(7, 128)}
SIZES |= SHAPES_ABOVE | {shape + "_default": SIZES[shape] for shape in ("sphere", "ring", "polygon")}
DEFAULT = 0.001
LONGEST = 2304  # bytes of a line, its end not counted


def value(bits):
    return struct.unpack(">d", bits.to_bytes(8, "big"))[0]


def pattern(x):
    return struct.pack(">d", x).hex()


class Refused(Exception):
    pass


def step(x):
    if not math.isfinite(x):
        raise Refused(20)
    return x


def divide(x, y):
    return step(x / y if y != 0 else inf)  # by 0 it is infinite or NaN: the same refusal


def dot(v, w):
    x, y, z = (step(a * b) for a, b in zip(v, w))
    return step(step(x + y) + z)


def in_range(test):
    if not test:
        raise Refused(21)


def root(x):
    """The largest double whose exact square is at most x. It is never subnormal, so it has the first 53 binary digits."""
    if x == 0:
        return 0.0
    whole = math.isqrt(int(Fraction(x) * 4**1130))
    cut = whole.bit_length() - 53
    r = math.ldexp(whole >> cut, cut - 1130)
    assert Fraction(r) ** 2 <= Fraction(x) < Fraction(nextafter(r, inf)) ** 2
    return r


def sphere(least, *inputs):
    o, d, c, r = inputs[0:3], inputs[3:6], inputs[6:9], inputs[9]
    in_range(r > 0 and least >= 0)
    p = [step(x - y) for x, y in zip(o, c)]
    a = dot(d, d)
    in_range(a != 0)
    b = dot(p, d)
    q = step(dot(p, p) - step(r * r))
    discriminant = step(step(b * b) - step(a * q))
    if discriminant < 0:
        return "miss"
    e = root(discriminant)
    near, far = divide(step(-b - e), a), divide(step(-b + e), a)
    return next(("at " + pattern(t) for t in (near, far) if t > least), "miss")


def plane(o, d, c, n, least=0.0):
    """The t and the s of a ring's plane; nothing for a miss."""
    m = dot(d, n)
    if m == 0:
        return None
    t = divide(dot([step(x - y) for x, y in zip(c, o)], n), m)
    if not t > least:
        return None
    w = [step(step(x + step(t * y)) - z) for x, y, z in zip(o, d, c)]
    return t, dot(w, w)


def ring(least, *inputs):
    inner, outer = inputs[12:14]
    in_range(inner >= 0 and outer > inner and least >= 0)
    met = plane(inputs[0:3], inputs[3:6], inputs[6:9], inputs[9:12], least)
    if met is None:
        return "miss"
    t, s = met
    low, high = step(inner * inner), step(outer * outer)
    return "at " + pattern(t) if low <= s <= high else "miss"


def rounded(x):
    """The double nearest to a fraction, as a fraction again: all that a polygon's steps need of signs of zero is that +0 is -0."""
    try:
        return Fraction(x.numerator / x.denominator)  # Python rounds this once
    except OverflowError:
        raise Refused(20) from None


def exact_dot(v, w):
    x, y, z = (rounded(a * b) for a, b in zip(v, w))
    return rounded(rounded(x + y) + z)


def cross(v, w):
    """Each part is u*v-w*z, of the next two axes."""
    return [rounded(rounded(v[i - 2] * w[i - 1]) - rounded(v[i - 1] * w[i - 2])) for i in range(3)]


def is_crossed(g, h, p, a, b):
    """Whether a line from p along the axis g crosses the edge from a to b, which counts by its heights along h."""
    low, high = sorted((a, b), key=lambda end: end[h])
    if not low[h] <= p[h] < high[h]:
        return False
    part = rounded(rounded(rounded(p[h] - low[h]) * rounded(high[g] - low[g])) / rounded(high[h] - low[h]))
    return rounded(low[g] + part) > p[g]


def polygon(least, *inputs):
    in_range(len(inputs) >= 6 + 9 and len(inputs) % 3 == 0 and least >= 0)
    o, d, *corners = ([Fraction(x) for x in inputs[i : i + 3]] for i in range(0, len(inputs), 3))
    edges = list(zip(corners, corners[1:] + corners[:1]))
    n = None
    for a, b in edges:
        product = cross(a, b)
        n = product if n is None else [rounded(x + y) for x, y in zip(n, product)]
    in_range(any(n))
    m = exact_dot(d, n)
    if m == 0:
        return "miss"
    t = rounded(exact_dot([rounded(x - y) for x, y in zip(corners[0], o)], n) / m)
    if t <= Fraction(least):
        return "miss"
    p = [rounded(x + rounded(t * y)) for x, y in zip(o, d)]
    dropped = max(range(3), key=lambda axis: (abs(n[axis]), -axis))
    g, h = (axis for axis in range(3) if axis != dropped)
    crossings = sum(is_crossed(g, h, p, a, b) for a, b in edges)
    return "at " + pattern(float(t)) if crossings % 2 == 1 else "miss"


def fresnel(cos1, n1, n2):
    in_range(0 <= cos1 <= 1 and n1 > 0 and n2 > 0)
    k = divide(n1, n2)
    t = step(step(k * k) * step(1 - step(cos1 * cos1)))
    u = step(1 - t)
    if u < 0:
        return "total"
    cos2 = root(u)
    squares = []
    for x, y in (step(n1 * cos1), step(n2 * cos2)), (step(n1 * cos2), step(n2 * cos1)):
        quotient = divide(step(x - y), step(x + y))
        squares.append(step(quotient * quotient))
    values = squares + [step(step(0.5 * squares[0]) + step(0.5 * squares[1]))]
    assert all(0 <= v <= 1 for v in values)
    return "coefficients " + " ".join(map(pattern, values))


def is_negative(x):
    return math.copysign(1, x) < 0


def signed(x, negative):
    """The double nearest to a fraction, with the sign that it has where it is 0 too."""
    return math.copysign(float(rounded(abs(x))), -1 if negative else 1)


def plus(x, y):
    total = Fraction(x) + Fraction(y)
    return signed(total, total < 0 or is_negative(x) and is_negative(y))


def product(x, y):
    return signed(Fraction(x) * Fraction(y), is_negative(x) != is_negative(y))


def quotient(x, y):
    if y == 0:
        raise Refused(20)
    return signed(Fraction(x) / Fraction(y), is_negative(x) != is_negative(y))


def polarised(f, c):
    """What light of one polarisation adds to both factors: f is its coefficient, c the square of Ct."""
    rest = plus(1.0, -product(product(f, f), c))
    passed = plus(1.0, -f)
    bracket = plus(1.0, product(plus(1.0, -product(2.0, f)), c))
    through = quotient(product(0.5, product(passed, passed)), rest)
    return through, quotient(product(product(0.5, f), bracket), rest)


def factors(te, tm, ct):
    in_range(all(0 <= x <= 1 for x in (te, tm, ct)))
    c = product(ct, ct)
    return "factors " + " ".join(pattern(plus(*parts)) for parts in zip(polarised(te, c), polarised(tm, c)))


OFFSET, SLOPE, ORIGIN, SCALE = (
    float(rounded(Fraction(numeral))) for numeral in (".8402528435", ".0072522239", ".9166530661", ".0036261119")
)


def transmissivity(tn):
    in_range(0 < tn <= 1)
    s = root(plus(OFFSET, product(product(SLOPE, tn), tn)))
    return "transmissivity " + pattern(quotient(quotient(plus(s, -ORIGIN), SCALE), tn))


VALUES = {"fresnel": fresnel, "factors": factors, "transmissivity": transmissivity}


def answer(line):
    kind, *words = line.split() or [""]
    if len(line) > LONGEST or len(words) not in SIZES.get(kind, []) or not all(re.fullmatch("[0-9a-f]{16}", word) for word in words):
        return "bad"
    inputs = [value(int(word, 16)) for word in words]
    if kind == "root":
        return "root " + (pattern(root(inputs[0])) if 0 <= inputs[0] < inf else "nan")
    shape, _, form = kind.partition("_")
    least = inputs.pop() if form == "above" else DEFAULT if form == "default" else 0.0
    try:
        if kind in VALUES:
            return VALUES[kind](*map(step, inputs))
        return {"sphere": sphere, "ring": ring, "polygon": polygon}[shape](*map(step, [least, *inputs]))
    except Refused as refused:
        return "refused %d" % refused.args[0]


LEAST, LARGEST, ULP = 2.0**-1074, nextafter(inf, 0), 2.0**-52
NOT_FINITE = [inf, -inf] + [value(bits) for bits in (0x7FF8 << 48, 0xFFF8 << 48, (0x7FF << 52) + 1, 2**64 - 1)]
EDGES = [0.0, -0.0, LEAST, -LEAST, 2.0**-1022, 2.0**-1022 - LEAST, 2.0**-537, 2.0**-538, 1e-160, 1e-8, 0.5, 1 - ULP / 2, 1.0, -1.0]
EDGES += [1 + ULP, 2.0, -3.0, 1e8, 2.0**53, 1e150, -1e154, 2.0**511, 2.0**512, 1e160, -1e300, LARGEST, -LARGEST]
AXES = [(1.0, 0.0, 0.0), (0.0, 1.0, 0.0), (0.0, 0.0, 1.0)]
draw = random.Random(20261202)


def beside(x, places=1):
    """x, and so many doubles below and above it."""
    made = [x]
    for _ in range(places):
        made = [nextafter(made[0], -inf)] + made + [nextafter(made[-1], inf)]
    return made


def spread():
    return [draw.uniform(-10, 10) for _ in range(3)]


def times(factor, v, w=(0, 0, 0)):
    """w, further by so many times v."""
    return [factor * x + y for x, y in zip(v, w)]


def across(v):
    """A vector of any direction at a right angle to v, of length 1, up to rounding."""
    u = spread()
    w = [v[1] * u[2] - v[2] * u[1], v[2] * u[0] - v[0] * u[2], v[0] * u[1] - v[1] * u[0]]
    return times(1 / math.sqrt(dot(w, w)), w)


def powers(count):
    """Powers of two as factors: all near 1, or near the ends of what has a square, or anywhere."""
    most = draw.choice((4, 500, 540, 1015))
    return [2.0 ** draw.randint(-most, most) for _ in range(count)]


def common(good, out_of_range):
    """For any kind: NaN or infinity in each position, also where another is out of range, then edges and bare patterns."""
    for i in range(len(good)):
        yield from (good[:i] + [x] + good[i + 1 :] for x in NOT_FINITE)
        yield out_of_range[:i] + [draw.choice(NOT_FINITE)] + out_of_range[i + 1 :]
    for k in range(180):
        yield [draw.choice(EDGES) if draw.random() < (0.2, 0.4, 0.9)[k % 3] else x for x in good]
    yield from ([value(draw.getrandbits(64)) for _ in good] for _ in range(40))


def spheres():
    yield from ([*o, 0, 0, 1, 0, 0, 0, 1] for o in ((0, 0, -5), (0, 0, 0), (2, 0, -5), (1, 0, -5)))
    for k in range(240):  # past or at the sphere, from inside, away from it; the last ones at all sizes
        c, r = spread(), draw.uniform(0.1, 8)
        o = times(r / 20, spread(), c) if k % 3 == 1 else times(2, spread())
        d = times(draw.choice((-0.3, 1, 1.7)), times(r / 12, spread(), times(-1, o, c)))
        i, j = powers(2) if k >= 120 else (1, 1)
        yield [*times(i, o), *times(j, d), *times(i, c), i * r]
    for r in (1.0, 0.1, 3.0, 7e-6):  # the line passes the centre at the radius or a few places beside it
        for x in beside(r, 3):
            yield from ([x, 0, -z, 0, 0, 1, 0, 0, 0, r] for z in (0.0, 0.3, 5.0, 1e4))
    for k in range(1, 31):  # D is 0 and the direction no axis; D is near 0 by rounding
        c, d, t, r, i = spread(), spread(), draw.randint(-50, 50), draw.uniform(0.1, 8), 2.0 ** draw.randint(-20, 20)
        yield [i * (3 * t - 4 * k), i * (4 * t + 3 * k), 2, 3, 4, 0, 0, 0, 2, i * 5 * k]
        yield from ([*times(-t / 20, d, times(r, across(d), c)), *d, *c, r] for _ in range(2))
    yield from ([0, 0, -1.5 * 2.0**k, 0, 0, 2.0**-535, 0, 0, 0, 2.0**k] for k in range(486, 491))  # far alone is infinite, or both
    for axis in AXES:  # from the surface: outwards, inwards, along it
        for r in (1.0, 0.7, 2.0**-540, 2.0**500, 1e-300):
            yield from ([*times(r, axis), *d, 0, 0, 0, r] for d in (axis, times(-1, axis), axis[1:] + axis[:1], spread()))
    for r in (0.0, -0.0, -1.0, -LEAST, LEAST, 1.0):
        for d in (0.0, -0.0, 1.0, 1e-170, 1e-162, 1e160):  # a is 0, or infinite; with 1e308 p is infinite
            yield from ([x, 0, 0, d, 0, 0, -x, 0, 0, r] for x in (-2.5, 1e308))
    yield from common([1, 2, -5, 0, 0, 1, 1.5, 2, 3, 2], [1, 2, -5, 0, 0, 1, 1.5, 2, 3, -1])


def rings():
    for k in range(40):  # s is beside a radius squared by rounding
        o, c, n = spread(), spread(), spread()
        d = times(draw.uniform(0, 0.1), across(n), times(-1, o, c))
        r = root(plane(o, d, c, n)[1])
        yield from ([*o, *d, *c, *n, *radii] for x in beside(r) for radii in ((x, 2 * x), (0, x)))
    for k in range(180):  # through a point of the plane, on the ring or off it; the last ones at all sizes
        o, c, n, inner = spread(), spread(), spread(), draw.choice((0.0, draw.uniform(0, 4)))
        outer = inner + draw.uniform(0.1, 4)
        d = times(draw.uniform(0.8 * inner, 1.2 * outer), across(n), times(-1, o, c))
        i, j, m = powers(3) if k >= 80 else (1, draw.choice((-0.3, 1, 1.7)), 1)
        yield [*times(i, o), *times(j, d), *times(i, c), *times(m, n), i * inner, i * outer]
    for x, y, s in ((3, 4, 5), (-5, 12, 13), (0.1, 0, 0.1), (0, -0.3, 0.3)):  # s is at a radius squared or beside it
        for i in (1, 2.0**-30, 2.0**-540, 2.0**500):
            for r in beside(float(i * s), 2):
                yield from ([i * x, i * y, -2, 0, 0, 0.5, 0, 0, 1, 0, 0, -1, *radii] for radii in ((r, 2 * r), (0, r)))
    for axis in AXES[1:]:  # m is 0, also by underflow; from the plane and in it; away from it; c-o infinite
        for x in (0.0, -0.0, -3.0, 3.0, -1e308, -LEAST):
            for d in (axis, axis[1:] + axis[:1], times(1e-200, axis), times(LEAST, axis)):
                yield from ([*times(x, axis), *d, *times(-x, axis), *n, 0, 8] for n in (axis, times(-1e-200, axis), (0, 0, 0)))
    yield [0, 0, -5, *3 * [1e-200], 0, 0, 0, *3 * [-1e-200], 0, 8]  # m is -0
    for radii in (0, 1), (-0.0, 1), (-1, 1), (-LEAST, 1), (LEAST, 1), (1, 1), (2, 1), (0, 0), (0, -0.0), (0, LEAST), (1, LARGEST):
        yield from ([x, 0, -5, y, 0, 1 - y, 0, 0, 0, 0, 0, 1, *radii] for x in (0, 0.5) for y in (0, 1))
    yield from common([1, 2, -5, 0, 0, 1, 1.5, 2, 3, 0, 0, 2, 0.25, 2], [1, 2, -5, 0, 0, 1, 1.5, 2, 3, 0, 0, 2, 2, 1])


def fresnels():
    yield from ([1, 1, 3], [0.5, 2, 1], [1, 1, 1], [0, 1, 1.5])
    indices = (1.0, 1.000293, 1.333, 1.5, 1.52, 1.7, 2.417, 4.0)
    for k in range(240):
        i, j = powers(2) if k >= 160 else (1, 1)
        yield [draw.random() * draw.choice((1, draw.random())), i * draw.choice(indices), j * draw.choice((*indices, draw.uniform(0.5, 3)))]
    for n1, n2 in (5.0, 4), (5.0, 3), (13.0, 12), (2.0, 1), (1.5, 1), (1 + ULP, 1):  # u is 0 or beside it
        yield from ([x, n, n2] for x in beside(math.sqrt((n1 - n2) * (n1 + n2)) / n1, 4) for n in beside(n1))
    pairs = (1, 1), (1, 1.5), (1.5, 1), (1.5, 1.5), (LEAST, LEAST), (0, 1), (1, -0.0), (-1, 1), (1, -LEAST)
    for cos1 in (0.0, -0.0, LEAST, 1e-300, 2.0**-538, 1e-9, 1 - ULP / 2, 1.0, 1 + ULP, 2.0, -LEAST, -1.0):
        yield from ([cos1, *pair] for pair in pairs)
    for cos1 in (0.0, -0.0, LEAST, 2.0**-1022, 1e-200, 1e-17, 1e-8, 1e-4, 0.01, 0.02):  # grazing light
        yield from ([cos1, n1, n2] for n1 in (1.0, 1.000293, 1.5) for n2 in indices)
    extremes = (LEAST, 2.0**-1022, 1e-200, 1e-154, 1.0, 1e154, 1e200, LARGEST)
    yield from ([cos1, n1, n2] for n1 in extremes for n2 in extremes for cos1 in (1, 0.5, 1 - ULP / 2))
    yield from common([0.75, 1, 1.5], [0.75, -1, 0])


def roots():
    xs = NOT_FINITE + EDGES + times(-1, EDGES, [-0.0] * len(EDGES)) + [LEAST * k for k in range(1, 65)]
    xs += beside(1.0, 3) + beside(2.0**-1022, 3) + beside(LARGEST)[:2]
    for square in [k * k for k in range(1, 41)] + [draw.getrandbits(26) ** 2 for _ in range(80)]:
        xs += beside(square * 4.0 ** draw.choice((0, 0, draw.randint(-536, 480))))
    for power in range(-1074, 1024, 5):
        xs += beside(2.0**power)
    for y in [2.0 ** draw.randint(-537, 510) * draw.uniform(1, 2) for _ in range(120)]:
        xs += beside(y * y)
    xs += [value(draw.getrandbits(63)) for _ in range(600)] + [value(draw.getrandbits(64)) for _ in range(40)]
    return [[x] for x in xs]


L_SHAPE = [(0, 0), (4, 0), (4, 1), (1, 1), (1, 3), (0, 3)]
COMB = [(0, 0), (6, 0), (6, 3), (5, 3), (5, 1), (4, 1), (4, 3), (3, 3), (3, 1), (2, 1), (2, 3), (0, 3)]
ARROW = [(0, 0), (3, 2), (0, 4), (1, 2)]
HOLE = [(1, 1), (1, 2), (3, 2), (3, 1)]
SEAM = [(0, 0), (4, 0), (4, 3), (0, 3), (0, 0), *HOLE, HOLE[0]]  # out to the hole and back over coincident edges
TWO_HOLES = [(0, 0), (6, 0), (6, 4), (0, 4), (0, 0), *HOLE, HOLE[0], (4, 1), (4, 3), (5, 3), (4, 1), (1, 1)]
SQUARE = [(0, 0), (4, 0), (4, 3), (0, 3)]
SHAPES = [[(0, 0), (4, 0), (0, 3)], SQUARE, L_SHAPE, ARROW, COMB, SEAM, TWO_HOLES]
NO_AREA = [[(0, 0), (1, 1), (2, 2)], [(0, 0), (2, 2), (2, 0), (0, 2)], [(0, 0), (3, 1), (0, 0), (3, 1)], [(1, 2)] * 3]
# planes whose normal has one part, or two or three of the same size
FRAMES = [(AXES[i], AXES[j]) for i in range(3) for j in range(3) if i != j]
FRAMES += [((1, -1, 0), (0, 0, 1)), ((1, 0, -1), (0, 1, 0)), ((0, 1, -1), (1, 0, 0)), ((1, -1, 0), (0, 1, -1)), ((1, 1, 0), (0, 1, 1))]


def placed(shape, u, v, base=(0, 0, 0)):
    """The corners of a flat shape, in a plane."""
    return [x for s, t in shape for x in times(s, u, times(t, v, base))]


def lattice():
    """All points of a lattice, so on corners and edges too, and halfway between; all steps are exact."""
    for shape in SHAPES:
        for u, v in FRAMES[::2]:
            normal = cross(*([Fraction(x) for x in w] for w in (u, v)))
            away = draw.choice([axis for axis, part in zip(AXES, normal) if part != 0])
            for _ in range(16):
                point = times(draw.randint(-1, 13) / 2, u, times(draw.randint(-1, 9) / 2, v, (1, 2, -1)))
                yield [*times(-draw.randint(1, 4), away, point), *away, *placed(shape, u, v, (1, 2, -1))]


def scattered():
    """Any plane and any direction: ahead, behind, with the corners turned about; the last ones at all sizes."""
    for k in range(400):
        shape, u, v, base, o = draw.choice(SHAPES), spread(), spread(), spread(), times(2, spread())
        turn = draw.randrange(len(shape))
        shape = (shape[turn:] + shape[:turn])[:: draw.choice((1, -1))]
        point = times(draw.uniform(-0.5, 6), u, times(draw.uniform(-0.5, 4), v, base))
        d = times(draw.choice((-0.3, 1, 1.7)), times(-1, o, point))
        i, j = powers(2) if k >= 240 else (1, 1)
        yield [*times(i, o), *times(j, d), *(i * x for x in placed(shape, u, v, base))]


def convex():
    """Of many corners, some on one line or given twice; through the middle, and about the rim."""
    for _ in range(160):
        u, v, base, o, count = spread(), spread(), spread(), times(2, spread()), draw.randint(3, 40)
        shape = [(math.cos(a), math.sin(a)) for a in sorted(draw.uniform(0, 2 * math.pi) for _ in range(count))]
        for k in range(0, count - 3, 5):
            (a, b), (c, d) = shape[k], shape[k + 2]
            shape[k + 1] = draw.choice(((a, b), ((a + c) / 2, (b + d) / 2)))
        (a, b), part = draw.choice(shape), draw.choice((0, 0.5, 1))
        yield [*o, *times(-1, o, times(part * a, u, times(part * b, v, base))), *placed(shape, u, v, base)]


def beside_edges():
    """Beside an edge, a corner and, by rounding, a slanted edge."""
    for x in beside(0.0) + beside(4.0):
        for y in beside(0.0) + beside(3.0) + [1.5]:
            yield [x, y, -2, 0, 0, 1, *placed(SQUARE, (1, 0, 0), (0, 1, 0))]
            yield [y, x, -2, 0, 0, 1, *placed(SQUARE, (0, 1, 0), (1, 0, 0))]
    for y in [0.7 * k / 24 for k in range(1, 25)]:
        yield from ([x, y, 1, 0, 0, -3, 0, 0, 0, 0.3, 0.7, 0, -0.4, 0.9, 0] for x in beside(0.3 * y / 0.7, 2))


def degenerate():
    """Too few reals, or no multiple of 3, also with a NaN; corners without an area; rays in the plane, along it and from it."""
    square = placed(SQUARE, (1, 0, 0), (0, 1, 0))
    for count in [*range(9), 10, 11, 13, 14, 16]:
        yield from ([0, 0, -1, 0, 0, 1, *(square + square)[:count], *more] for more in ([], [NOT_FINITE[2]]))
    for shape in NO_AREA:
        yield from ([0.5, 0.25, 2, 0, 0, -1, *placed(shape, u, v)] for u, v in FRAMES)
        for base in (spread(), (0, 0, LEAST)):
            yield from ([0.5, 0.25, -2, 0, 0, z, *placed(shape, (1, 0, 0), (0, 1, 0), base)] for z in (0, 1))
    for axis in AXES:
        frame = [a for a in AXES if a != axis]
        for d in (axis, axis[1:] + axis[:1], times(1e-200, axis), times(LEAST, axis), (0, 0, 0), times(-1, axis)):
            for x in (-0.5, -2.0, 1e308):
                yield from ([*times(x, axis, (0.5, 0.5, 0.5)), *d, *placed(SQUARE, *frame, times(y, axis))] for y in (0, -1e308))


def sized():
    """Huge corners, with which a product, a sum, a width or a point is infinite; tiny ones, whose products vanish or are subnormal."""
    for far in (1e154, 1e155, 1e160, 1e300, LARGEST):
        bands = [[(-far, 0), (far, 0), (far, 1), (-far, 1)], [(-1, -1), (1, -1), (far, 4), (-far, 4)], [(0, 0), (far, 1), (-far, 2)]]
        for shape in [[(0, 0), (far, 0), (0, 1)], [(0, 0), (1, 0), (0, far)], *bands]:
            for y in (0.5, -0.5, 2.0, 3.5):
                yield [0, y, -1, 0, 0, 1, *placed(shape, (1, 0, 0), (0, 1, 0))]
                yield [0, 0, y, 0.5, 0, 0.25, *placed(shape, (0, 0.25, 0), (0, 0, 0.5), (2, 0, 0))]
    for size in (LEAST, 3 * LEAST, 2.0**-1022, 2.0**-540, 1e-160, 1e-100):
        for x, y, z, w in ((1, 1, 1, size), (0.5, 0.5, 1, 1.0), (1, 0.25, 0.5, 1.0), (2, 2, 1, 2.0**500)):
            yield from ([size * x, size * y, -2, 0, 0, z, *placed(shape, (size, 0, 0), (0, w, 0))] for shape in SHAPES[:5])


def polygons():
    for made in lattice, scattered, convex, beside_edges, degenerate, sized:
        yield from made()
    good = [0.5, 1.5, -5, 0.25, 0, 1, *placed(SQUARE, (1, 0, 0), (0, 1, 0))]
    for i in range(len(good)):
        yield from (good[:i] + [x] + good[i + 1 :] for x in NOT_FINITE)
    for k in range(240):
        yield [draw.choice(EDGES) if draw.random() < (0.1, 0.3, 0.9)[k % 3] else x for x in good]
    yield from ([value(draw.getrandbits(64)) for _ in good] for _ in range(40))


def distance(hit):
    """The distance of an answer, or nothing."""
    return value(int(hit[3:], 16)) if hit.startswith("at ") else None


def above(shape, made):
    """Some cases of a shape with the default, and with least distances at each of their distances, beside and between them."""
    for k, inputs in enumerate(made):
        case = [shape + "_above", *map(pattern, inputs)]
        near = distance(answer(" ".join(case + [pattern(0.0)])))
        if near is None and k % 8:
            continue
        yield " ".join([shape + "_default", *case[1:]])
        leasts = [0.0, -0.0, LEAST, DEFAULT, LARGEST, -LEAST, -1.0, draw.choice(NOT_FINITE)]
        if near is not None:
            far = distance(answer(" ".join(case + [pattern(near)])))
            leasts = beside(near) + (beside(far) + [near + (far - near) / 2] if far else [2 * near]) + [draw.choice(leasts)]
        yield from (" ".join(case + [pattern(least)]) for least in leasts)


def near_default():
    """The distance is the default or beside it, or that many lengths of a direction that is no unit."""
    square = placed(SQUARE, (1, 0, 0), (0, 1, 0))
    for t in beside(DEFAULT, 3) + [0.0005, 0.002]:
        for length in (1.0, 2.0, 0.5):
            ray = [1, 1, -t * length, 0, 0, length]
            yield from (("sphere", [*ray, 1, 1, 1, 1]), ("sphere", [*ray, 1, 1, -1, 1]))
            yield from (("ring", [*ray, 1, 1, 0, 0, 0, 1, 0, 5]), ("polygon", [*ray, *square]))


def panes():
    inside = [0.0, -0.0, LEAST, 2.0**-1022, 2.0**-538, 1e-160, 1e-17, 2.0**-53, 1e-8, 0.25, 0.5, 0.75, 1 - ULP, 1 - ULP / 2, 1.0]
    outside = [-LEAST, -0.25, 1 + ULP, 2.0, LARGEST]
    for te in inside:
        for tm in inside:
            yield from ([te, tm, ct] for ct in (draw.choice(inside), draw.choice((0.0, 0.75, 1 - ULP / 2, 1.0))))
    for x in outside:
        yield from ([x if i == k else draw.choice(inside + outside) for k in range(3)] for i in range(3) for _ in range(4))
    for te in beside(1.0, 3)[:4]:  # the rest is 0 or a few places above it
        yield from ([te, tm, ct] for tm in beside(1.0, 3)[:4] for ct in beside(1.0, 3)[:4])
    for _ in range(160):
        near, small = 1 - 2.0 ** -draw.uniform(1, 53), 2.0 ** -draw.uniform(1, 1074)
        yield draw.choices((near, small, draw.random(), 1.0), k=3)
    yield from ([draw.random() for _ in range(3)] for _ in range(240))
    for k in range(81):  # what Fresnel says of glass, from grazing light on
        _, te, tm, _ = answer(" ".join(["fresnel", *map(pattern, (k / 80, 1.0, 1.52))])).split()
        yield [value(int(te, 16)), value(int(tm, 16)), draw.random()]
    yield from common([0.25, 0.5, 0.75], [0.25, -1, 2])


def least_where(holds, low, high):
    """The least double from low to high for which it holds, and not for those below; it holds for high."""
    while nextafter(low, inf) < high:
        middle = max(low + (high - low) / 2, nextafter(low, inf))
        low, high = (low, middle) if holds(middle) else (middle, high)
    return high


def transmittances():
    def said(tn):
        return answer("transmissivity " + pattern(tn))

    def order_matters(tn):  # the square is not to be taken first
        return root(OFFSET + SLOPE * tn * tn) != root(OFFSET + SLOPE * (tn * tn))

    xs = NOT_FINITE + EDGES + beside(1.0, 3) + [-x for x in (0.25, 2.0**-1022, LARGEST)]
    xs += beside(least_where(lambda tn: said(tn) != "refused 20", LEAST, 1.0), 8)  # below it the last quotient is infinite
    xs += beside(least_where(lambda tn: not is_negative(value(int(said(tn)[-16:], 16))), 1e-5, 1.0), 8)
    xs += [LEAST * k for k in range(1, 20)] + [LEAST * draw.getrandbits(draw.randint(5, 26)) for _ in range(40)]
    for power in range(-1074, 1, 4):
        xs += [2.0**power, 2.0**power * draw.uniform(1, 2)]
    for power in range(-40, 0):
        xs += beside(2.0**power)
    xs += [k / 100 for k in range(1, 101)] + [draw.random() for _ in range(240)]
    xs += [10 ** -draw.uniform(0, 8) for _ in range(120)] + [value(draw.getrandbits(62)) for _ in range(80)]
    xs += [value(draw.getrandbits(64)) for _ in range(40)]
    xs += itertools.islice(filter(order_matters, iter(draw.random, None)), 60)
    return [[x] for x in xs]


def cases():
    for kind, made in ("sphere", spheres()), ("ring", rings()), ("fresnel", fresnels()), ("root", roots()), ("polygon", polygons()):
        yield from (" ".join([kind, *map(pattern, inputs)]) for inputs in made)
    for shape, inputs in near_default():
        yield from (" ".join([shape + form, *map(pattern, inputs)]) for form in ("", "_default"))
    for shape, made in ("sphere", list(spheres())[::3]), ("ring", list(rings())[::6]), ("polygon", list(polygons())[::11]):
        yield from above(shape, made)
    one = pattern(1.0)  # the rest are no cases, but for four with other blanks
    words = ("", one[1:], one + "0", one[1:] + "g", one.upper(), "0x" + one[2:], one + " " + one, "\t" + one + " ")
    sizes = {"ring": 15, "sphere_above": 10, "sphere_below": 11, "ring_default": 15, "polygon": 5, "polygon_above": 6}
    sizes |= {"polygon_default": 128}
    yield from ("", " ", "cone " + one, *(kind + n * (" " + one) for kind, n in sizes.items()))
    yield from ("root " + word for word in words)
    yield from (blanks * " " + "root " + one for blanks in (LONGEST - 22, LONGEST - 21, LONGEST - 20, 4000, 0))
    for kind, made in ("factors", panes()), ("transmissivity", transmittances()):
        yield from (" ".join([kind, *map(pattern, inputs)]) for inputs in made)
    sizes = {"factors": 2, "factors_above": 4, "transmissivity": 2, "transmissivity_default": 1, "factor": 3}  # no cases
    yield from (kind + n * (" " + one) for kind, n in sizes.items())


if __name__ == "__main__":
    if sys.argv[1:] == ["cases"]:
        print("\n".join(cases()))
    elif sys.argv[1:] == ["answers"]:
        for case in sys.stdin.read().splitlines():
            print(answer(case))
    elif sys.argv[1:] == ["summary"]:
        counts = collections.Counter()
        for case in cases():
            found = answer(case).split()
            kind = case.split()[0] if found != ["bad"] else "no case"
            counts.update([kind, kind + ": " + " ".join(word for word in found if len(word) < 16)])
        print("\n".join("%6d %s" % (counts[name], name) for name in sorted(counts)))
    else:
        sys.exit(__doc__)
