"""Reads the files of whole meshes that the built program writes with the readers that a user has: meshio and Gmsh, where they are installed. Points,
tetrahedra, triangles, regions and markers have to be those of the .node, .ele and .face files of the same run. Where scipy is installed,
examples/solve.py has to find one solution from the .msh file alone and from .node and .ele. It prints what differs, and on standard error
which readers are not there. The program is the one that rt ci has built."""
import json
import os
import shutil
import subprocess
import sys
import tempfile

TOP = os.path.dirname(os.path.dirname(os.path.abspath(__file__)))
FITTING = f"{TOP}/crates/tetfit/out/tetfit"
# The words of each run, and the example that it meshes.
RUNS = [
    (["-A"], "boxes.poly"),
    ([], "pyramid.node"),
    (["-f"], "lprism.poly"),
    (["-c"], "bar.poly"),
    (["-o2", "-A"], "boxes.poly"),
    (["-o2"], "pyramid.node"),
    (["-o2", "-f"], "lprism.poly"),
]
# Which of the midpoints of edges, in the order of TetGen, meshio has at each place of a tetrahedron and of a triangle, from both formats.
TET_MIDDLES, FACE_MIDDLES = (2, 3, 5, 1, 4, 0), (2, 0, 1)
# The names of cells in meshio, by the order.
KINDS = {False: ("tetra", "triangle"), True: ("tetra10", "triangle6")}
# Run by a Python that has meshio: what it reads of a file, as JSON.
MESHIO = """
import json, meshio, sys
mesh = meshio.read(sys.argv[1])
cells = [[block.type, block.data.tolist()] for block in mesh.cells]
data = {name: [[float(x) for x in part.reshape(-1)] for part in parts] for name, parts in mesh.cell_data.items()}
print(json.dumps([mesh.points.tolist(), cells, data]))
"""


def lines_of(name):
    with open(name, encoding="ascii") as file:
        return [line.split() for line in file.readlines()[1:]]


def written(base, is_second):
    """The points, the tetrahedra with their regions, and the triangles with their markers, corners counted from 0."""
    four, three = (10, 6) if is_second else (4, 3)
    first = int(lines_of(f"{base}.node")[0][0])
    points = [[float(x) for x in line[1:4]] for line in lines_of(f"{base}.node")]
    rows = [
        ([int(x) - first for x in line[1 : four + 1]], float(line[four + 1]) if len(line) > four + 1 else 0.0)
        for line in lines_of(f"{base}.ele")
    ]
    faces = [([int(x) - first for x in line[1 : three + 1]], int(line[three + 1])) for line in lines_of(f"{base}.face")]
    return points, rows, faces


def turned(cells, middles):
    """The cells with the midpoints behind their corners in another order."""
    return [(corners[: -len(middles)] + [corners[it - len(middles)] for it in middles], number) for corners, number in cells]


def as_read(rows, faces, is_second):
    """The tetrahedra and the triangles as meshio has them."""
    return (turned(rows, TET_MIDDLES), turned(faces, FACE_MIDDLES)) if is_second else (rows, faces)


def middles_differ(points, rows):
    """Each corner behind the first four is halfway between two of them."""
    for corners, _ in rows:
        a, b, c, d = corners[:4]
        for edge, at in zip(((c, d), (a, d), (a, b), (b, c), (b, d), (a, c)), corners[4:]):
            if [2 * x for x in points[at]] != [x + y for x, y in zip(points[edge[0]], points[edge[1]])]:
                yield f"{at} is not between {edge}"


def python_with(module):
    for name in (sys.executable, "/usr/bin/python3"):
        if os.path.exists(name) and subprocess.run([name, "-c", f"import {module}"], capture_output=True, check=False).returncode == 0:
            return name
    return None


def read_by_meshio(python, name):
    return json.loads(subprocess.run([python, "-c", MESHIO, name], capture_output=True, check=True).stdout)


def joined(cells, data, kind):
    """The cells of a kind, each with its number."""
    return [(corners, number) for (name, block), numbers in zip(cells, data) if name == kind for corners, number in zip(block, numbers)]


def meshio_differs(python, base, is_grouped, is_second):
    points, rows, faces = written(base, is_second)
    yield from middles_differ(points, rows)
    four, three = KINDS[is_second]
    tets, triangles = as_read(rows, faces, is_second)
    at, cells, data = read_by_meshio(python, f"{base}.vtk")
    if at != points or joined(cells, data["region"], four) != tets or joined(cells, data["marker"], three) != triangles:
        yield "meshio reads another mesh from the .vtk file"
    at, cells, data = read_by_meshio(python, f"{base}.msh")
    groups = [(corners, region if is_grouped else 1) for corners, region in tets]
    markers = [(corners, marker if marker > 0 else 0) for corners, marker in triangles]
    tags = data["gmsh:physical"]
    if at != points or joined(cells, tags, four) != groups or joined(cells, tags, three) != markers:
        yield "meshio reads another mesh from the .msh file"


def part_of(text, name):
    """The numbers in the lines of a part of a file of Gmsh, but for the first line."""
    return [line.split() for line in text.partition(f"${name}\n")[2].partition(f"$End{name}")[0].splitlines()[1:]]


def elements_of(name):
    """The elements of a file of Gmsh, as sorted tuples of type, physical group and the places of the corners."""
    with open(name, encoding="ascii") as file:
        text = file.read()
    places = {line[0]: tuple(float(x) for x in line[1:]) for line in part_of(text, "Nodes")}
    rows = [(int(line[1]), int(line[3]), [places[it] for it in line[3 + int(line[2]) :]]) for line in part_of(text, "Elements")]
    return sorted(rows)


def gmsh_differs(base):
    """Gmsh writes the elements again that it has read, but for those of no group. It may number the points anew."""
    words = ["gmsh", f"{base}.msh", "-save", "-format", "msh22", "-o", f"{base}.again.msh"]
    ran = subprocess.run(words, capture_output=True, text=True, check=False)
    if ran.returncode or "Error" in ran.stdout + ran.stderr:
        yield f"gmsh does not read the .msh file: {ran.stdout[-200:]}"
        return
    if elements_of(f"{base}.again.msh") != [it for it in elements_of(f"{base}.msh") if it[1] > 0]:
        yield "gmsh reads other elements from the .msh file"


def solver_differs(python, folder):
    """A solver gets one mesh from the Gmsh file and from the points and tetrahedra."""
    words = [FITTING, "-Q", "-q", "-a0.01", "--msh", "lprism.poly"]
    subprocess.run(words, cwd=folder, capture_output=True, check=True)
    words = [python, f"{TOP}/examples/solve.py", "lprism.1", "lprism.1.msh"]
    ran = subprocess.run(words, cwd=folder, capture_output=True, text=True, check=False)
    told = [line.partition(": ")[2] for line in ran.stdout.splitlines()]
    return ran.returncode != 0 or len(told) != 2 or told[0] != told[1]


def differences(python, has_gmsh, switches, example):
    with tempfile.TemporaryDirectory() as folder:
        shutil.copy2(f"{TOP}/examples/{example}", folder)
        words = [FITTING, "-Q", "-k", "--msh", *switches, example]
        ran = subprocess.run(words, cwd=folder, capture_output=True, text=True, check=False)
        if ran.returncode:
            yield f"status {ran.returncode}: {ran.stderr.strip()}"
            return
        base = f"{folder}/{example.partition('.')[0]}.1"
        if python:
            yield from meshio_differs(python, base, "-A" in switches, "-o2" in switches)
        if has_gmsh:
            yield from gmsh_differs(base)


def main():
    if not os.path.isfile(FITTING):
        print(f"no program to run: {os.path.relpath(FITTING, TOP)} is not built")
        return
    python, has_gmsh, solving = python_with("meshio"), shutil.which("gmsh") is not None, python_with("scipy")
    for name, is_there in (("meshio", python), ("gmsh", has_gmsh), ("scipy", solving)):
        if not is_there:
            print(f"checks/readers.py: {name} is not installed, so it reads nothing", file=sys.stderr)
    if solving:
        with tempfile.TemporaryDirectory() as folder:
            shutil.copy2(f"{TOP}/examples/lprism.poly", folder)
            if solver_differs(solving, folder):
                print("lprism.poly: examples/solve.py finds another solution from the .msh file")
    for switches, example in RUNS:
        for difference in differences(python, has_gmsh, switches, example):
            print(f"{' '.join([*switches, example])}: {difference}")


main()
