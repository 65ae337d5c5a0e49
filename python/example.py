"""Meshes of arrays and of texts by tetgen.py: a pyramid, a box with a wall, the box with points added for shapes and volumes, a surface, a facet with a
hole, points of floats, 2,000 points, refusals, and as many calls of each kind as its word says, 10,000 without one, that keep no memory. Of calls that
add points to the box there are a tenth as many, since each takes some milliseconds."""
import fractions
import random
import sys

import numpy as np

import tetgen

NODE = "5 3 0 0\n0 0 0 0\n1 2 0 0\n2 2 2 0\n3 0 2 0\n4 1 1 2\n"
PYRAMID = [(0, 0, 0), (2, 0, 0), (2, 2, 0), (0, 2, 0), (1, 1, 2)]
# A box of 6 by 4 by 2 with a wall of 4 by 2 in it, from the floor to the lid.
BOX = [(x, y, z) for x in (0, 6) for y in (0, 4) for z in (0, 2)] + [(x, 2, z) for x in (1, 5) for z in (0, 2)]
SIDES = [[0, 1, 3, 2], [4, 6, 7, 5], [0, 4, 5, 1], [2, 3, 7, 6], [[0, 2, 6, 4], [8, 10]], [[1, 5, 7, 3], [9, 11]], [8, 10, 11, 9]]
SURFACE = "OFF 4 4\n0 0 0\n1 0 0\n0 1 0\n0 0 0.1\n3 0 2 1\n3 0 1 3\n3 0 3 2\n3 1 2 3\n"
CALLS = int(sys.argv[1]) if len(sys.argv) > 1 else 10_000
# What a process may take more after the calls than before them: none of them keeps a page.
PAGE = 4096
LEFT = 64 * PAGE


def resident():
    """The bytes of this process that are in memory."""
    with open("/proc/self/statm", encoding="ascii") as it:
        return int(it.read().split()[1]) * PAGE


def refused(points):
    try:
        tetgen.delaunay(points)
    except tetgen.TetgenError as error:
        return error.status
    return 0


def mesh_refused(points, facets, **options):
    try:
        tetgen.mesh(points, facets, **options)
    except tetgen.TetgenError as error:
        return error.status
    return 0


def float_refused(points, decimals):
    try:
        tetgen.places_of(points, decimals)
    except tetgen.TetgenError as error:
        return error.status
    return 0


def volumes(points, rows):
    """Six times the volume of each tetrahedron."""
    a, b, c, d = (points[rows[:, k]] for k in range(4))
    return np.einsum("ij,ij->i", np.cross(b - a, c - a), d - a)


def ratios(points, rows):
    """The radius of the circumsphere of each tetrahedron over its shortest edge."""
    a, b, c, d = (points[rows[:, k]] for k in range(4))
    to = np.stack([b - a, c - a, d - a], axis=1)
    center = np.linalg.solve(to, np.einsum("ijk,ijk->ij", to, to)[:, :, None] / 2)[:, :, 0]
    edges = [one - other for one, other in ((a, b), (a, c), (a, d), (b, c), (b, d), (c, d))]
    return np.linalg.norm(center, axis=1) / np.min([np.linalg.norm(it, axis=1) for it in edges], axis=0)


def run_refused(words, files, program="tetgen"):
    try:
        tetgen.run(words, files, program=program)
    except tetgen.TetgenError as error:
        return error.status, error.message
    return 0, ""


def call(points, place):
    """Calls of each kind, some of them refused; at each tenth place one that adds points to the box."""
    tetgen.delaunay(points)
    refused(PYRAMID[:4])
    tetgen.mesh(BOX, SIDES, regions=[(1, 1, 1)])
    mesh_refused(BOX, [[0, 1, 99]])
    tetgen.places_of(points / 8, 2)
    float_refused(points / 8, 23)
    tetgen.run(["-n", "p"], {"p.node": NODE})
    run_refused(["-n", "p"], {})
    tetgen.run(["-q", "t.off"], {"t.off": SURFACE}, program="tetfit")
    run_refused(["-q", "t.off"], {}, "tetfit")
    if place % 10 == 0:
        tetgen.mesh(BOX, SIDES, quality=(1.4, 0), volume=1, regions=[(1, 1, 1)])


def are_neighbors(made):
    """Each neighbor has the three corners of the face across which it lies, and where there is none the face is on the hull."""
    for row, across in zip(made.rows.tolist(), made.neighbors.tolist()):
        for corner, place in zip(row, across):
            face = set(row) - {corner}
            assert place == tetgen.NO_NEIGHBOR or face < set(made.rows[place].tolist())
            assert place != tetgen.NO_NEIGHBOR or face in [set(it) for it in made.faces.tolist()]


def of_a_ring():
    """A square with a hole in its middle, a point over it and a point below it: no face of the ring lies in the hole."""
    points = [(x, y, 0) for x, y in ((0, 0), (4, 0), (4, 4), (0, 4), (1, 1), (3, 1), (3, 3), (1, 3))] + [(2, 2, 4), (2, 2, -4)]
    square = [[[0, 1, 2, 3], [4, 5, 6, 7]]]
    whole = tetgen.mesh(points, square, markers=[7], keep_hull=True)
    ring = tetgen.mesh(points, square, markers=[7], facet_holes={0: [(2, 2, 0)]}, keep_hull=True)
    inner = {4, 5, 6, 7}
    assert any(set(it) <= inner for it in whole.faces[whole.markers == 7].tolist())
    assert not any(set(it) <= inner for it in ring.faces[ring.markers == 7].tolist()) and (ring.markers == 7).any()
    are_neighbors(ring)


def of_floats():
    """Floats are rounded from their exact values, halves away from zero."""
    random.seed(2)
    floats = [[random.uniform(-1, 1) * 10.0 ** random.randint(-20, 3) for _ in range(3)] for _ in range(500)]
    floats += [[0.125, -0.125, 2.675], [5e-324, -0.0, 0.5], [1.5, -2.5, 0.0005]]
    for decimals in (0, 2, 4):
        for row, places in zip(floats, tetgen.places_of(floats, decimals).tolist()):
            for number, place in zip(row, places):
                exact = abs(fractions.Fraction(number)) * 10**decimals
                assert place == (1 if number > 0 else -1) * int(exact + fractions.Fraction(1, 2))
    assert tetgen.places_of([[1e-14, 0.0, 0.0]], 22).tolist() == [[100_000_000, 0, 0]]
    assert float_refused(floats, 23) == 5 and float_refused([[0, 0, float("nan")]], 0) == 5 and float_refused([[-float("inf"), 0, 0]], 0) == 5
    assert float_refused([[2.0**29, 0, 0]], 0) == 0 and float_refused([[2.0**29 + 0.5, 0, 0]], 0) == 5 and float_refused([[1e300, 0, 0]], 0) == 5


def of_a_complex():
    """A box with a wall in it, whose mesh fills it, and refusals."""
    made = tetgen.mesh(BOX, SIDES, markers=range(10, 17), regions=[(9, 9, 9), (1, 1, 1)])
    sixth = volumes(made.points, made.rows) / 8.0**made.halvings
    assert (sixth > 0).all() and sixth.sum() == 6 * 48
    assert (made.points[: len(BOX)] == np.array(BOX) << made.halvings).all() and (made.coordinates()[: len(BOX)] == BOX).all()
    assert set(made.regions) == {1} and set(made.markers) == set(range(10, 17))
    are_neighbors(made)
    assert len(tetgen.mesh(BOX, [], keep_hull=True).rows) == len(tetgen.delaunay(BOX))
    assert len(tetgen.mesh(BOX, SIDES, holes=[(1, 1, 1)]).rows) == 0
    assert mesh_refused(BOX, [[0, 1, 99]]) == 4 and mesh_refused(BOX, [[0, 1, 7, 4]]) == 6
    assert mesh_refused(BOX[:4], []) == 6 and mesh_refused([*BOX, (0, 0, 2**29 + 1)], []) == 5
    print(f"{len(made.points)} points, {len(made.rows)} tetrahedra in a box with a wall")


def of_shapes():
    """The box with points that are added for shapes and volumes, and refusals."""
    made = tetgen.mesh(BOX, SIDES, markers=range(10, 17), quality=(1.4, 15), volume=0.5)
    sixth = volumes(made.points, made.rows)
    assert (sixth > 0).all() and sixth.sum() == 6 * 48 * 8**made.halvings and (2 * sixth <= 6 * 8**made.halvings).all()
    assert (ratios(made.coordinates(), made.rows) < 1.4 + 1e-9).all() and made.beyond == {"over": 0, "slim": 0, "flat": 0}
    assert (made.points[: len(BOX)] == np.array(BOX) << made.halvings).all() and set(made.markers) == set(range(10, 17))
    assert set(made.regions) == {tetgen.NO_REGION}
    are_neighbors(made)
    fine = tetgen.mesh(BOX, SIDES, regions=[(9, 9, 9), (1, 1, 1)], volume=[0.001, 0.25])
    assert set(fine.regions) == {1} and (4 * volumes(fine.points, fine.rows) <= 6 * 8**fine.halvings).all() and fine.beyond == {"over": 0}
    coarse = tetgen.mesh(BOX, SIDES, regions=[(1, 1, 1)], volume=[None])
    assert len(coarse.points) == len(BOX) and (coarse.rows == tetgen.mesh(BOX, SIDES).rows).all()
    assert mesh_refused(BOX, SIDES, quality=0.5) == 1 and mesh_refused(BOX, [[0, 1, 99]], volume=1) == 4
    assert mesh_refused(BOX, [[0, 1, 7, 4]], quality=2) == 6 and mesh_refused([], [], volume=1e-9) == 6
    assert mesh_refused([*BOX, (0, 0, 2**29 + 1)], SIDES, volume=1) == 5
    print(f"{len(made.points)} points, {len(made.rows)} tetrahedra in the box with points added for shapes and volumes")


def of_a_surface():
    """A run of tetfit, which takes a surface as it is found."""
    line, files = tetgen.run(["-q100", "-NF", "--msh", "t.off"], {"t.off": SURFACE}, program="tetfit")
    assert line == "points 4 added 0 tetrahedra 1 faces 4 edges 6 decimals 1 slim 0 flat 1\n" and sorted(files) == ["t.1.ele", "t.1.msh"]
    assert sorted(tetgen.run(["-NF", "t.OFF"], {"t.OFF": SURFACE}, program="tetfit")[1]) == ["t.1.ele"]
    assert run_refused(["-q", "t.off"], {}, "tetfit")[0] == 2 and run_refused(["-x", "t.off"], {}, "tetfit")[0] == 1


def main():
    print(tetgen.delaunay(PYRAMID).tolist())
    line, files = tetgen.run(["-n", "p"], {"p.node": NODE})
    print(line, end="")
    print(files["p.1.ele"].decode(), end="")
    assert sorted(files) == ["p.1.ele", "p.1.face", "p.1.neigh", "p.1.node"]
    print(*run_refused(["-n", "p"], {}))
    assert refused(PYRAMID[:4]) == 6 and refused([]) == 6
    assert refused([*PYRAMID, (0, 0, 2**29 + 1)]) == 5

    of_a_complex()
    of_shapes()
    of_a_surface()
    of_a_ring()
    of_floats()

    random.seed(1)
    points = np.array([[random.randrange(1000) for _ in range(3)] for _ in range(2000)])
    rows = tetgen.delaunay(points)
    assert (volumes(points, rows) > 0).all()
    print(f"{len(points)} points, {len(rows)} tetrahedra")

    for place in range(CALLS // 10):
        call(points[:40], place)
    before = resident()
    for place in range(CALLS):
        call(points[:40], place)
    kept = resident() - before
    assert kept <= LEFT, f"{CALLS} calls of each kind kept {kept} bytes"
    print(f"{CALLS} calls of each kind kept {max(0, kept)} bytes")


main()
