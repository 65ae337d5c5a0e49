"""A surface on the grid of a number of decimals, its facets, and the sets of them that are exactly coplanar."""
import collections
import fractions
import importlib.machinery
import importlib.util
import os

from grid_points import cross, dot, moved

loader = importlib.machinery.SourceFileLoader("models", os.path.join(os.path.dirname(os.path.abspath(__file__)), "models"))
models = importlib.util.module_from_spec(importlib.util.spec_from_loader("models", loader))
loader.exec_module(models)


class Model:
    """A surface with coordinates in units of 1 / 10^decimals from its middle. The decimals are the most at which half its extent is at most 2^bits units."""

    def __init__(self, path, bits):
        surface = models.Surface(path)
        exact = [tuple(map(fractions.Fraction, it)) for it in surface.points]
        sides = [(min(it), max(it)) for it in zip(*exact)]
        extent = max(most - least for least, most in sides)
        self.decimals = max(m for m in range(36) if m == 0 or extent / 2 * 10**m <= 2**bits)
        scale = 10**self.decimals
        self.origin = [int((least + most) / 2) * scale for least, most in sides]
        whole = lambda it: int(abs(it) * scale + fractions.Fraction(1, 2)) * (-1 if it < 0 else 1)
        numbers = {}
        at = [numbers.setdefault(tuple(whole(x) - o for x, o in zip(it, self.origin)), len(numbers)) for it in exact]
        self.points, self.extent = [*numbers], extent * scale
        rows = [tuple(at[v] for v in it) for it in surface.polygons]
        self.facets = [it for it in rows if len(it) > 2 and len(set(it)) == len(it)]
        sides = collections.defaultdict(list)
        for place, it in enumerate(self.facets):
            for pair in zip(it, it[1:] + it[:1]):
                sides[frozenset(pair)].append(place)
        self.pairs = [it for it in sides.values() if len(it) == 2]
        self.areas = self.areas_of(self.points)
        self.sets = self.coplanar(self.points)

    def areas_of(self, points):
        """Twice the area vectors of the facets."""
        spokes = ([moved(points[v], -1, points[it[0]]) for v in it[1:]] for it in self.facets)
        return [tuple(map(sum, zip(*map(cross, it, it[1:])))) for it in spokes]

    def not_flat(self, points):
        return sum(len(it) > 3 and len({dot(n, points[v]) for v in it}) > 1 for it, n in zip(self.facets, self.areas_of(points)))

    def coplanar(self, points):
        """The sets of adjacent facets that are exactly coplanar."""
        areas = self.areas_of(points)
        root = [*range(len(self.facets))]

        def top(it):
            while root[it] != it:
                root[it] = root[root[it]]
                it = root[it]
            return it

        for a, b in self.pairs:
            if any(areas[a]) and len({dot(areas[a], points[v]) for v in self.facets[a] + self.facets[b]}) == 1:
                root[top(a)] = top(b)
        found = collections.defaultdict(list)
        for place in range(len(root)):
            found[top(place)].append(place)
        return [*found.values()]

    def write_off(self, path, points):
        """The surface with other points, as exact decimals."""
        with open(path, "w", encoding="ascii") as file:
            file.write(f"OFF\n{len(points)} {len(self.facets)} 0\n")
            file.writelines(" ".join(map(self.text, p, self.origin)) + "\n" for p in points)
            file.writelines(f"{len(it)} {' '.join(map(str, it))}\n" for it in self.facets)

    def text(self, x, origin):
        digits = str(abs(x + origin)).rjust(self.decimals + 1, "0")
        cut = len(digits) - self.decimals
        return ("-" if x + origin < 0 else "") + digits[:cut] + ("." + digits[cut:] if self.decimals else "")
