"""Runs the built program on more inputs than tests would pay for: where a proof says that two inputs have one mesh, coplanar triangles in place of whole
facets, cut in all ways, and triangles with points of their own in place of shared ones; words that are not understood; a crossing of merged facets; and the
examples that have an answer; that tetfit leaves the files that tetgen leaves at its decimals, where that answers; and that its meshes keep the volume limits of
regions, by their files. It prints what differs. The programs are those that rt ci has built."""
import filecmp
import itertools
import os
import shutil
import subprocess
import sys
import tempfile
from fractions import Fraction

TOP = os.path.dirname(os.path.dirname(os.path.abspath(__file__)))
PROGRAM = f"{TOP}/crates/tetgen/out/tetgen"
FITTING = f"{TOP}/crates/tetfit/out/tetfit"
# The statuses of a point that is off the grid, and of a segment that needs a finer one.
OFF_GRID, COARSE_GRID = 5, 7


# Words that are not understood: the first such word, and the place in it.
NOT_UNDERSTOOD = [
    ([], 1, 1),  # no word
    (["t", ""], 2, 1),  # an empty word
    (["-", "t"], 1, 2),  # a hyphen alone
    (["-y", "name"], 1, 2),  # no letter of the table
    (["-nf-", "t"], 1, 4),  # a hyphen among letters
    (["-p5", "t"], 1, 3),  # a digit behind no S
    (["-pS", "name"], 1, 4),  # S at the end
    (["-Sp7", "t"], 1, 3),  # S before a letter
    (["-pS100001", "t"], 1, 4),  # S out of its range
    (["-S0000000007x", "t"], 1, 3),  # S with ten digits
    (["-S12zx", "t"], 1, 6),  # a letter behind S and its number
    (["--", "t"], 1, 3),  # two hyphens
    (["t", "--quality=2"], 2, 3),  # another long word
    (["t", "--halvings"], 2, 3),  # no equals sign
    (["t", "--halvings="], 2, 12),  # no digit
    (["--sample=x"], 1, 10),  # a letter for a digit
    (["--halvings=12x", "t"], 1, 14),  # a letter behind digits
    (["--halvings=13x", "t"], 1, 12),  # two faults
    (["--halvings=13", "t"], 1, 12),  # halvings out of range
    (["--decimals=20", "--decimals=21", "t"], 2, 12),  # decimals out of range
    (["--decimals=0000000001", "t"], 1, 12),  # ten digits
    (["--sample=10001"], 1, 10),  # a sample out of range
    (["a", "b"], 2, 1),  # a second name
    (["a", "-n", "b.poly"], 3, 1),  # a later second name
    (["-nQ"], 2, 1),  # no name
    (["--sample=3", "t"], 3, 1),  # a name and the sample
    (["a", "b", "--sample=3"], 2, 1),  # two names and the sample
    (["t", "-x", ""], 2, 2),  # two bad words
    (["-wp", "t.node"], 3, 2),  # weights of a complex
    (["-w", "t.smesh"], 3, 2),  # weights of a complex by its extension
    (["--sample=3", "-w"], 3, 2),  # weights of the sample
    (["-rwC", "t"], 3, 2),  # weights of a mesh that is read
]


def mesh(points, facets):
    """The tetrahedra of a complex by their corners' coordinates, or the status with which the run ends."""
    with tempfile.TemporaryDirectory() as folder:
        with open(f"{folder}/a.poly", "w", encoding="ascii") as file:
            file.write(f"{len(points)} 3 0 0\n")
            file.writelines(f"{number} {x} {y} {z}\n" for number, (x, y, z) in enumerate(points))
            file.write(f"{len(facets)} 0\n")
            file.writelines(f"1\n{len(facet)} {' '.join(map(str, facet))}\n" for facet in facets)
            file.write("0\n0\n")
        ran = subprocess.run([PROGRAM, "-pQ", "a.poly"], cwd=folder, capture_output=True, check=False)
        if ran.returncode:
            return f"status {ran.returncode}: {ran.stderr.decode().strip()}"
        with open(f"{folder}/a.1.node", encoding="ascii") as file:
            at = [line.split()[1:4] for line in file.readlines()[1:]]
        with open(f"{folder}/a.1.ele", encoding="ascii") as file:
            return sorted(sorted(tuple(at[int(corner)]) for corner in line.split()[1:]) for line in file.readlines()[1:])


def halves(square, way):
    a, b, c, d = square
    return [(a, b, c), (a, c, d)] if way else [(b, c, d), (b, d, a)]


def cut_cubes():
    """Each of the 64 ways to cut the sides of a cube into two triangles."""
    points = [(0, 0, 0), (2, 0, 0), (2, 2, 0), (0, 2, 0), (0, 0, 2), (2, 0, 2), (2, 2, 2), (0, 2, 2)]
    sides = [(0, 1, 2, 3), (4, 5, 6, 7), (0, 4, 5, 1), (1, 5, 6, 2), (2, 6, 7, 3), (3, 7, 4, 0)]
    whole = mesh(points, sides)
    for ways in itertools.product((False, True), repeat=len(sides)):
        cut = [half for side, way in zip(sides, ways) for half in halves(side, way)]
        if mesh(points, cut) != whole:
            yield f"a cube, its sides cut so: {ways}"


def turn(a, b, c):
    return (b[0] - a[0]) * (c[1] - a[1]) - (b[1] - a[1]) * (c[0] - a[0])


def triangulations(outline, corners):
    """All ways to cut the polygon with these corners into triangles whose corners are corners of it."""
    if len(corners) < 3:
        yield []
        return
    first, last = corners[0], corners[-1]
    for k in range(1, len(corners) - 1):
        a, b, c = (outline[it] for it in (first, corners[k], last))
        others = [outline[it] for it in range(len(outline)) if it not in (first, corners[k], last)]
        if turn(a, b, c) <= 0 or any(min(turn(a, b, p), turn(b, c, p), turn(c, a, p)) >= 0 for p in others):
            continue
        for left in triangulations(outline, corners[: k + 1]):
            for right in triangulations(outline, corners[k:]):
                yield [*left, *right, (first, corners[k], last)]


def cut_prisms():
    """A prism over an L: each way to cut its bottom and its top, with all sides cut in one way or the other, and each way to cut its sides."""
    outline = [(0, 0), (4, 0), (4, 2), (2, 2), (2, 4), (0, 4)]
    count = len(outline)
    points = [(x, y, z) for z in (0, 3) for x, y in outline]
    sides = [(i, (i + 1) % count, (i + 1) % count + count, i + count) for i in range(count)]
    whole = mesh(points, [range(count), range(count, 2 * count), *sides])
    ends = [*triangulations(outline, [*range(count)])]
    same = [(bottom, top, (way,) * count) for bottom in ends for top in ends for way in (False, True)]
    each = [(ends[0], ends[0], ways) for ways in itertools.product((False, True), repeat=count)]
    for bottom, top, ways in same + each:
        upper = [tuple(corner + count for corner in triangle) for triangle in top]
        cut = [half for side, way in zip(sides, ways) for half in halves(side, way)]
        if mesh(points, [*bottom, *upper, *cut]) != whole:
            yield f"a prism over an L, cut so: {bottom}, {top}, {ways}"


def own_points(across=23):
    """The sides of a cube, cut into triangles each of which has points of its own: the mesh of the same triangles with shared points."""
    shared, facets = {}, []
    for axis, level, i, j in itertools.product(range(3), (0, across), range(across), range(across)):
        square = [(i, j), (i + 1, j), (i + 1, j + 1), (i, j + 1)]
        corners = [(*at[:axis], level, *at[axis:]) for at in square]
        facets += halves([shared.setdefault(corner, len(shared)) for corner in corners], True)
    points = [*shared]
    own = [points[corner] for facet in facets for corner in facet]
    if mesh(own, [range(3 * k, 3 * k + 3) for k in range(len(facets))]) != mesh(points, facets):
        yield f"{len(facets)} triangles with points of their own"


def words_understood():
    """Where words are refused otherwise than they have to be."""
    with tempfile.TemporaryDirectory() as folder:
        for words, word, place in NOT_UNDERSTOOD:
            ran = subprocess.run([PROGRAM, *words], cwd=folder, capture_output=True, check=False)
            if (ran.returncode, ran.stderr.decode()) != (1, f"tetgen: word {word}, place {place}: not understood\n"):
                yield f"{words}: status {ran.returncode}: {ran.stderr.decode().strip()}"


def merged_crossing():
    """Two triangles of one plane, and a segment through the second: the crossing names the merged facet by the least number."""
    points = [(0, 0, 0), (4, 0, 0), (4, 4, 0), (0, 4, 0), (1, 2, -2), (1, 2, 2)]
    found = mesh(points, [(0, 1, 2), (0, 2, 3), (4, 5)])
    if found != "status 6: tetgen: crossing: facet 1 triangle 0 1 3 and segment 4 5":
        yield f"a segment through a merged facet: {found}"


def answers():
    """The tetrahedra of the examples that have an answer, byte for byte."""
    for answer in sorted(os.listdir(f"{TOP}/examples/answers")):
        name = answer.removesuffix(".1.ele")
        with tempfile.TemporaryDirectory() as folder:
            shutil.copy(f"{TOP}/examples/{name}.node", folder)
            subprocess.run([PROGRAM, "-NFQ", f"{name}.node"], cwd=folder, check=False)
            made, wanted = f"{folder}/{answer}", f"{TOP}/examples/answers/{answer}"
            if not os.path.exists(made) or not filecmp.cmp(made, wanted, shallow=False):
                yield f"{name}.node"


def texts(program, words, name):
    """What a run prints, and what it stores."""
    with tempfile.TemporaryDirectory() as folder:
        shutil.copy(f"{TOP}/examples/{name}", folder)
        ran = subprocess.run([program, *words, name], cwd=folder, capture_output=True, check=False)
        stored = {it: open(f"{folder}/{it}", "rb").read() for it in sorted(os.listdir(folder)) if it != name}
    return ran.returncode, ran.stdout.decode(), stored


def fitted():
    """Each example by tetfit, and by tetgen with the decimals that tetfit tells, where its narrower grid holds the points and their halvings."""
    for name in sorted(os.listdir(f"{TOP}/examples")):
        if not name.endswith((".node", ".poly", ".smesh", ".off", ".stl")) or ".1." in name:
            continue
        status, said, stored = texts(FITTING, ["-nfe"], name)
        if status == 0:
            front, _, decimals = said.splitlines()[0].rpartition(" decimals ")
            exact = texts(PROGRAM, ["-nfe", f"--decimals={decimals}"], name)
            if exact[0] not in (OFF_GRID, COARSE_GRID) and exact != (0, f"{front}\n", stored):
                yield f"{name} at {decimals} decimals"
        elif stored:
            yield f"{name}: status {status}, and files"


def over_limits(limits, *words):
    """How many tetrahedra of two boxes, one in the other, are over the volume limits of their regions, by the files of a run with these words; and the
    summary."""
    places = [[low if it == "0" else high for it in f"{i:03b}"] for low, high in ((0, 6), (2, 4)) for i in range(8)]
    sides = [[0, 1, 3, 2], [4, 5, 7, 6], [0, 1, 5, 4], [2, 3, 7, 6], [0, 2, 6, 4], [1, 3, 7, 5]]
    points = "".join(f"{i} {x} {y} {z}\n" for i, (x, y, z) in enumerate(places))
    facets = "".join(f"1\n4 {' '.join(str(it + first) for it in side)}\n" for first in (0, 8) for side in sides)
    regions = "".join(f"{i} {at} {at} {at} {i} {limit}\n" for i, (at, limit) in enumerate(zip((1, 3), limits)))
    with tempfile.TemporaryDirectory() as folder:
        with open(f"{folder}/b.poly", "w", encoding="ascii") as file:
            file.write(f"16 3 0 0\n{points}12\n{facets}0\n2\n{regions}")
        ran = subprocess.run([FITTING, *words, "b.poly"], cwd=folder, capture_output=True, check=False)
        rows = {it: [line.split() for line in open(f"{folder}/b.1.{it}", encoding="ascii")][1:] for it in ("node", "ele")}
    at = {row[0]: [Fraction(it) for it in row[1:4]] for row in rows["node"]}
    over = 0
    for _, *corners, region in rows["ele"]:
        (ux, uy, uz), (vx, vy, vz), (wx, wy, wz) = [[x - y for x, y in zip(at[it], at[corners[0]])] for it in corners[1:]]
        six = abs(ux * (vy * wz - vz * wy) + uy * (vz * wx - vx * wz) + uz * (vx * wy - vy * wx))
        over += six > 6 * Fraction(limits[int(region)])
    return over, ran.stdout.decode()


def limited():
    """Meshes with two volume limits, by their files and their summaries: with no further point, and with all that are wanted."""
    for limits in (("8", "0.25"), ("0.5", "2")):
        over, said = over_limits(limits, "-a", "-S0")
        if not over or not said.endswith(f" over {over}\n"):
            yield f"{limits}, {over} over and no point added: {said}"
        over, said = over_limits(limits, "-a")
        if over or not said.endswith(" over 0\n"):
            yield f"{limits}, {over} over: {said}"


if os.path.exists(PROGRAM) and os.path.exists(FITTING):
    for it in limited():
        print(f"limits of regions: {it}")
    for it in fitted():
        print(f"fitted otherwise: {it}")

if os.path.exists(PROGRAM):
    for found in (cut_cubes(), cut_prisms(), own_points()):
        for it in found:
            print(f"another mesh: {it}")
    for it in itertools.chain(words_understood(), merged_crossing()):
        print(f"another refusal: {it}")
    for it in answers():
        print(f"another answer: {it}")
else:
    print(f"note: {PROGRAM} is not built, so it was not run", file=sys.stderr)
