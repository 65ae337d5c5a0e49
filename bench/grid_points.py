"""Points of the grid of whole numbers that lie in planes: all in space, in a plane, in a line, or one, and the nearest of these to a point. All is exact."""
import functools
import math


def dot(a, b):
    return a[0] * b[0] + a[1] * b[1] + a[2] * b[2]


def cross(a, b):
    return a[1] * b[2] - a[2] * b[1], a[2] * b[0] - a[0] * b[2], a[0] * b[1] - a[1] * b[0]


def moved(p, times, v):
    return p[0] + times * v[0], p[1] + times * v[1], p[2] + times * v[2]


def rounded(a, b):
    """The quotient to the nearest whole number, halves upward, for b > 0."""
    return (2 * a + b) // (2 * b)


def bezout(a, b):
    """The greatest common divisor, and x and y such that it is x a + y b."""
    x, y, next_x, next_y = 1, 0, 0, 1
    while b:
        times = a // b
        a, b, x, y, next_x, next_y = b, a - times * b, next_x, next_y, x - times * next_x, y - times * next_y
    return (a, x, y) if a >= 0 else (-a, -x, -y)


@functools.lru_cache(None)
def plane_lattice(n):
    """A vector v with n v = 1, and a reduced basis of the vectors with n v = 0 (Lagrange 1773), for a primitive n."""
    g, x, y = bezout(n[0], n[1])
    if g == 0:
        return (0, 0, n[2]), ((1, 0, 0), (0, 1, 0))
    _, s, t = bezout(g, n[2])
    a, b = (n[1] // g, -n[0] // g, 0), (-n[2] * x, -n[2] * y, g)
    while True:
        if dot(a, a) > dot(b, b):
            a, b = b, a
        times = rounded(dot(a, b), dot(a, a))
        if times == 0:
            return (s * x, s * y, t), (a, b)
        b = moved(b, -times, a)


class GridPoints:
    """The grid points p + b, for b in the lattice of the basis; all grid points where the basis is None."""

    def __init__(self, p, basis=None):
        self.p, self.basis = p, basis

    def values(self, n):
        """A value of n over the points, and the step between its values, or 0 where there is one."""
        return dot(n, self.p), 1 if self.basis is None else math.gcd(*(dot(n, it) for it in self.basis))

    def within(self, n, d):
        """Those of the points in the plane n x = d, where d is a value of n over them."""
        rest = d - dot(n, self.p)
        if self.basis is None:
            unit, basis = plane_lattice(n)
            return GridPoints(moved(self.p, rest, unit), basis)
        along = [dot(n, it) for it in self.basis]
        if not any(along):
            return self
        if len(along) == 1:
            return GridPoints(moved(self.p, rest // along[0], self.basis[0]), ())
        (a, b), (g, x, y) = self.basis, bezout(*along)
        p = moved(moved(self.p, rest // g * x, a), rest // g * y, b)
        return GridPoints(p, (moved(moved((0, 0, 0), along[1] // g, a), -along[0] // g, b),))

    def nearest(self, q):
        """The greatest difference in a coordinate between q and a point, and this point: the best of those about the one by Babai's rounding."""
        if self.basis is None:
            return 0, q
        found = [self.p]
        for a in self.basis[:1] if len(self.basis) == 1 else ():
            found = [moved(self.p, rounded(dot(moved(q, -1, self.p), a), dot(a, a)), a)]
        if len(self.basis) == 2:
            a, b = self.basis
            rest, aa, ab, bb = moved(q, -1, self.p), dot(a, a), dot(a, b), dot(b, b)
            ra, rb, whole = dot(rest, a), dot(rest, b), aa * bb - ab * ab
            found = [moved(moved(self.p, rounded(ra * bb - rb * ab, whole), a), rounded(rb * aa - ra * ab, whole), b)]
        for a in self.basis:
            found = [moved(it, times, a) for it in found for times in (-1, 0, 1)]
        return min((max(abs(x - y) for x, y in zip(it, q)), it) for it in found)


def met(first, second):
    """The numbers of two residue classes, each a number and a step that is 0 for one number alone; None where they have none in common."""
    (a, by), (b, step) = first, second
    if by == 0 or step == 0:
        alone, (c, other) = (first, second) if by == 0 else (second, first)
        fits = alone[0] == c if other == 0 else (alone[0] - c) % other == 0
        return alone if fits else None
    g, x, _ = bezout(by, step)
    return (a + (b - a) // g * x * by, by * step // g) if (b - a) % g == 0 else None
