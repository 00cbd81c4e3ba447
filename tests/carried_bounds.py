"""Floats with a bound beside each of how far it lies from the exact number, and the rules in that arithmetic: docs/RULES.md, chapter Bounds.
Bounds are doubles here, each rounded up."""

import math

SHARE, TINY = 2.0 ** -53, 5e-324
PART = SHARE * (1 + 2.0 ** -50)


def up(bound):
    """A bound of at most ten operations on doubles of nought or more, no smaller than without rounding."""
    return bound * (1 + 2.0 ** -48) + 16 * TINY


class Bounded:
    """A float, and how far it lies off at most; None where nothing is known."""

    __slots__ = ("float", "off")

    def __init__(self, number, off=0.0):
        self.float, self.off = number, off if math.isfinite(number) else None

    def known(self, other):
        return self.off is not None and other.off is not None

    def __add__(self, other):
        r = self.float + other.float
        return Bounded(r, up(self.off + other.off + PART * abs(r)) if self.known(other) else None)

    def __sub__(self, other):
        r = self.float - other.float
        return Bounded(r, up(self.off + other.off + PART * abs(r)) if self.known(other) else None)

    def __mul__(self, other):
        r, x, y = self.float * other.float, abs(self.float), abs(other.float)
        if not self.known(other):
            return Bounded(r, None)
        return Bounded(r, up(self.off * y + x * other.off + self.off * other.off + SHARE * x * y + TINY))

    def __truediv__(self, other):
        r, x, y = self.float / other.float if other.float else math.nan, abs(self.float), abs(other.float)
        if not self.known(other) or not y * (1 - 2.0 ** -50) > other.off:
            return Bounded(r, None)
        return Bounded(r, up((SHARE * x + TINY * y + abs(r) * other.off + self.off) / (y - other.off)))

    def __neg__(self):
        return Bounded(-self.float, self.off)


NOUGHT, ONE, TWO, THREE, SIX = (Bounded(float(k)) for k in (0, 1, 2, 3, 6))
NOT_A_KNOT, FIRST, SECOND, PERIODIC = range(4)


def solved(sub, diag, sup, rhs):
    """`thomas`"""
    w, c, d = [diag[0]], [], [rhs[0] / diag[0]]
    for k in range(len(diag) - 1):
        c.append(sup[k] / w[k])
        w.append(diag[k + 1] - sub[k] * c[k])
        d.append((rhs[k + 1] - sub[k] * d[k]) / w[k + 1])
    found = [d[-1]]
    for k in reversed(range(len(diag) - 1)):
        found.append(d[k] - c[k] * found[-1])
    return found[::-1]


def solved_cyclic(sub, diag, sup, rhs, corner):
    """`cyclic_thomas`"""
    gamma = -diag[0]
    inner = [diag[0] - gamma, *diag[1:-1], diag[-1] - corner * corner / gamma]
    y = solved(sub, inner, sup, rhs)
    z = solved(sub, inner, sup, [gamma, *[NOUGHT] * (len(diag) - 2), corner])
    factor = (y[0] + corner / gamma * y[-1]) / (ONE + (z[0] + corner / gamma * z[-1]))
    return [a - factor * b for a, b in zip(y, z)]


def moments(h, s, kind, number):
    """The moments of a lane of three intervals or more, its ends of one kind with one number."""
    n = len(h)
    u = [SIX * (s[k + 1] - s[k]) for k in range(n - 1)]
    middle = [TWO * (h[k] + h[k + 1]) for k in range(n - 1)]
    if kind == PERIODIC:
        found = solved_cyclic(h[:-1], [TWO * (h[-1] + h[0]), *middle], h[:-1], [SIX * (s[0] - s[-1]), *u], h[-1])
        return [*found, found[0]]
    if kind == FIRST:
        return solved(h, [TWO * h[0], *middle, TWO * h[-1]], h, [SIX * (s[0] - number), *u, SIX * (number - s[-1])])
    if kind == SECOND:
        return solved([*h[:-1], NOUGHT], [ONE, *middle, ONE], [NOUGHT, *h[1:]], [number, *u, number])
    first = (h[0] + h[1]) * (h[0] + TWO * h[1])
    last = (h[-2] + h[-1]) * (TWO * h[-2] + h[-1])
    found = solved(
        [*h[1:-2], h[-2] * h[-2] - h[-1] * h[-1]], [first, *middle[1:-1], last], [h[1] * h[1] - h[0] * h[0], *h[2:-1]],
        [h[1] * u[0], *u[1:-1], h[-2] * u[-1]])
    before = ((h[0] + h[1]) * found[0] - h[0] * found[1]) / h[1]
    after = ((h[-2] + h[-1]) * found[-1] - h[-1] * found[-2]) / h[-2]
    return [before, *found, after]


def slopes(x, y, kind, number):
    """The knot slopes of a lane."""
    h = [b - a for a, b in zip(x, x[1:])]
    s = [(b - a) / step for a, b, step in zip(y, y[1:], h)]
    m = moments(h, s, kind, number)
    lower = [s[i] - h[i] * (TWO * m[i] + m[i + 1]) / SIX for i in range(len(h))]
    return [*lower, s[-1] + h[-1] * (m[-2] + TWO * m[-1]) / SIX]


def tensor(axes, samples, kind, number):
    """The numbers by mask and place, one axis after the other."""
    points, found = [len(axis) for axis in axes], {0: [Bounded(y) for y in samples]}
    for i, axis in enumerate(axes):
        x, stride = [Bounded(k) for k in axis], math.prod(points[i + 1:])
        for mask in range(1 << i):
            numbers, made = found[mask], [None] * len(samples)
            for start in (p for p in range(len(samples)) if p // stride % points[i] == 0):
                places = range(start, start + stride * points[i], stride)
                lane = slopes(x, [numbers[p] for p in places], kind, Bounded(number) if mask == 0 else NOUGHT)
                for p, slope in zip(places, lane):
                    made[p] = slope
            found[mask | 1 << i] = made
    return found


def hermite(p0, m0, p1, m1, width, t):
    t2 = t * t
    t3 = t2 * t
    h00 = TWO * t3 - THREE * t2 + ONE
    h10 = t3 - TWO * t2 + t
    h01 = -TWO * t3 + THREE * t2
    h11 = t3 - t2
    return h00 * p0 + h10 * width * m0 + h01 * p1 + h11 * width * m1


def value(axes, numbers, point):
    """The value at a point inside that is on no knot."""
    d, points = len(axes), [len(axis) for axis in axes]
    lower = [max(k for k in range(len(axis) - 1) if k == 0 or axis[k] < p) for axis, p in zip(axes, point)]
    cell = []
    for corner in range(1 << d):
        place = 0
        for i in range(d):
            place = place * points[i] + lower[i] + (corner >> (d - 1 - i) & 1)
        cell += [numbers[mask][place] for mask in range(1 << d)]
    for i, (axis, p) in enumerate(zip(axes, point)):
        low = Bounded(axis[lower[i]])
        width = Bounded(axis[lower[i] + 1]) - low
        t, size = (Bounded(p) - low) / width, len(cell) // 4
        cell = [hermite(cell[2 * e], cell[2 * e + 1], cell[2 * size + 2 * e], cell[2 * size + 2 * e + 1], width, t) for e in range(size)]
    return cell[0]
