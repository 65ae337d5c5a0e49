#!/usr/bin/env python3
"""Solves Poisson's equation on a tetrahedral mesh by linear finite elements, and compares with the known solution.

examples/solve.py NAME ..    NAME is a mesh of Gmsh (part.1.msh), or the name in front of .node and .ele (part.1)

The model is scaled to a box with half sides of at most 1; there -div grad u = 12 u has the solution u = sin(3x) cos(2y) exp(z), which is given on
the whole boundary. For each mesh it prints

  tetrahedra, unknowns    how many there are
  L2, H1                  the error of u and of its gradient, in the mean square over the volume
  CG, Jacobi              how many steps the method of conjugate gradients takes to a residual of 1e-10, without and with the diagonal as preconditioner

so two meshes of one size can be compared: slivers spoil the matrix, and with it the number of steps. It takes numpy and scipy
(apt-get install python3-scipy). All in doubles.
"""
import sys

import numpy as np
import scipy.sparse
import scipy.sparse.linalg

# A rule of four points, exact for quadratic functions: the weight of the nearest corner, and of the others.
NEAR, FAR = 0.5854101966249685, 0.1381966011250105
RULE = np.full((4, 4), FAR) + np.eye(4) * (NEAR - FAR)
# The corners of the face opposite each corner.
FACES = [[1, 2, 3], [0, 2, 3], [0, 1, 3], [0, 1, 2]]


def solution(at):
    x, y, z = np.moveaxis(at, -1, 0)
    return np.sin(3 * x) * np.cos(2 * y) * np.exp(z)


def gradient(at):
    x, y, z = np.moveaxis(at, -1, 0)
    parts = [3 * np.cos(3 * x) * np.cos(2 * y), -2 * np.sin(3 * x) * np.sin(2 * y), np.sin(3 * x) * np.cos(2 * y)]
    return np.stack(parts, -1) * np.exp(z)[..., None]


def source(at):
    return 12 * solution(at)


def lines_of(name):
    """The lines of a file of points or tetrahedra that say something."""
    with open(name, encoding="ascii") as file:
        lines = [line.split("#")[0].split() for line in file]
    return [line for line in lines if line]


def read_tetgen(base):
    nodes, tetrahedra = lines_of(f"{base}.node"), lines_of(f"{base}.ele")
    count, first = int(nodes[0][0]), int(nodes[1][0])
    points = np.array([line[1:4] for line in nodes[1 : 1 + count]], float)
    rows = np.array([line[1:5] for line in tetrahedra[1 : 1 + int(tetrahedra[0][0])]], int)
    return points, rows - first


def read_msh(name):
    """The nodes and the tetrahedra of a Gmsh file of version 2.2, in text. A tetrahedron is an element of type 4."""
    with open(name, encoding="ascii") as file:
        lines = file.read().split("\n")
    at = lines.index("$Nodes")
    nodes = [line.split() for line in lines[at + 2 : at + 2 + int(lines[at + 1])]]
    number = {int(line[0]): place for place, line in enumerate(nodes)}
    at = lines.index("$Elements")
    elements = [[int(word) for word in line.split()] for line in lines[at + 2 : at + 2 + int(lines[at + 1])]]
    rows = [[number[corner] for corner in element[-4:]] for element in elements if element[1] == 4]
    return np.array([line[1:4] for line in nodes], float), np.array(rows, int)


def used_and_scaled(points, rows):
    """The points that are corners, scaled, and the tetrahedra by their places."""
    used, places = np.unique(rows, return_inverse=True)
    points = points[used]
    low, high = points.min(0), points.max(0)
    return (points - (low + high) / 2) / ((high - low).max() / 2), places.reshape(rows.shape)


def boundary(rows):
    """The points on faces of one tetrahedron alone."""
    faces = np.sort(np.concatenate([rows[:, face] for face in FACES]), axis=1)
    _, place, count = np.unique(faces, axis=0, return_inverse=True, return_counts=True)
    return np.unique(faces[count[place.reshape(-1)] == 1])


def measures(points, rows):
    """The volume of each tetrahedron, and the gradients of the linear functions that are 1 in one of its corners and 0 in the others."""
    corners = points[rows]
    sides = corners[:, 1:] - corners[:, :1]
    others = np.linalg.inv(sides).transpose(0, 2, 1)
    return abs(np.linalg.det(sides)) / 6, np.concatenate([-others.sum(1, keepdims=True), others], 1)


def system(points, rows, volumes, slopes):
    """The matrix of stiffness, and the load of the source."""
    parts = np.einsum("tia,tja->tij", slopes, slopes) * volumes[:, None, None]
    places = np.repeat(rows, 4, 1).ravel(), np.tile(rows, (1, 4)).ravel()
    load = np.zeros(len(points))
    for weights in RULE:
        value = source(np.einsum("k,tka->ta", weights, points[rows])) * volumes / 4
        for corner in range(4):
            np.add.at(load, rows[:, corner], value * weights[corner])
    return scipy.sparse.csr_matrix((parts.ravel(), places), (len(points), len(points))), load


def steps_of(matrix, load, preconditioner=None):
    """The solution by conjugate gradients, and the number of steps."""
    steps = []
    found, _ = scipy.sparse.linalg.cg(matrix, load, tol=1e-10, maxiter=20000, M=preconditioner, callback=steps.append)
    return found, len(steps)


def errors(points, rows, volumes, slopes, values):
    """The errors of the solution and of its gradient."""
    of_value, of_slope, slope = 0.0, 0.0, np.einsum("tka,tk->ta", slopes, values[rows])
    for weights in RULE:
        at = np.einsum("k,tka->ta", weights, points[rows])
        of_value += ((solution(at) - values[rows] @ weights) ** 2 * volumes / 4).sum()
        of_slope += (((gradient(at) - slope) ** 2).sum(1) * volumes / 4).sum()
    return of_value**0.5, of_slope**0.5


def solve(name):
    points, rows = used_and_scaled(*(read_msh(name) if name.endswith(".msh") else read_tetgen(name)))
    volumes, slopes = measures(points, rows)
    matrix, load = system(points, rows, volumes, slopes)
    free = np.setdiff1d(np.arange(len(points)), boundary(rows))
    values = solution(points)
    values[free] = 0
    inner, load = matrix[free][:, free], (load - matrix @ values)[free]
    _, plain = steps_of(inner, load)
    values[free], jacobi = steps_of(inner, load, scipy.sparse.diags(1 / inner.diagonal()))
    of_value, of_slope = errors(points, rows, volumes, slopes, values)
    print(f"{name}: tetrahedra {len(rows)} unknowns {len(free)} L2 {of_value:.3e} H1 {of_slope:.3e} CG {plain} Jacobi {jacobi}")


def main():
    if len(sys.argv) < 2 or sys.argv[1] in ("-h", "--help"):
        print(__doc__.strip())
        return
    for name in sys.argv[1:]:
        solve(name)


if __name__ == "__main__":
    main()
