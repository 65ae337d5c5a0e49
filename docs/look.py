#!/usr/bin/python3
"""Converts a written mesh for viewers, and draws it.

docs/look.py MESH                      writes MESH.vtu, for ParaView, and MESH.msh, for gmsh, from MESH.node, MESH.ele and, where it is there, MESH.face
docs/look.py MESH PICTURE.png          draws the mesh too, cut open before its middle, each tetrahedron in the colour of its region
docs/look.py MESH PICTURE.png whole    draws it whole

MESH is a name such as part.1, with or without an extension. Of Debian's packages it needs python3-meshio, for the picture python3-paraview, and on a machine
with no screen xvfb too.
"""
import importlib.util
import os
import shutil
import sys
import tempfile

# The extensions of a mesh's files.
EXTENSIONS = (".node", ".ele", ".face", ".edge", ".neigh", ".vtu", ".msh")
# The size of a picture, and half the angle that it shows from top to bottom, in degrees.
WIDTH, HEIGHT, HALF_ANGLE = 900, 700, 15


def wanted(packages):
    sys.exit(f"docs/look.py: not installed: {' '.join(packages)} (apt-get install {' '.join(packages)})")


try:
    import meshio
    import numpy
except ImportError:
    wanted(["python3-meshio"])


def base_of(name):
    """The name without the extension of a mesh's file."""
    front, extension = os.path.splitext(name)
    return front if extension in EXTENSIONS else name


def read(base):
    if not os.path.exists(f"{base}.ele"):
        sys.exit(f"docs/look.py: {base}.ele is not there: the name of a mesh is wanted, such as part.1")
    return meshio.read(f"{base}.ele")


def lines_of(path):
    """The fields of each line that has any, without comments."""
    with open(path, encoding="ascii") as file:
        rows = (line.split("#")[0].split() for line in file)
        return [row for row in rows if row]


def regions(mesh):
    """The region of each tetrahedron, or 1 for all where the mesh has none."""
    given = mesh.cell_data.get("tetgen:ref") or [numpy.ones(len(block.data)) for block in mesh.cells]
    return given[0].astype(int)


def surface(base):
    """The triangles of MESH.face with a marker that is not 0, by places of points, and their markers; 1 for all where the file has none."""
    if not os.path.exists(f"{base}.face"):
        return numpy.zeros((0, 3), int), numpy.zeros(0, int)
    nodes = lines_of(f"{base}.node")
    first = int(nodes[1][0]) if len(nodes) > 1 else 0
    head, *rows = lines_of(f"{base}.face")
    if head[1:] == ["0"]:
        rows = [[*row, "1"] for row in rows]
    faces = numpy.array([row[1:5] for row in rows[: int(head[0])]], int).reshape(-1, 4)
    faces = faces[faces[:, 3] != 0]
    return faces[:, :3] - first, faces[:, 3]


def convert(base):
    mesh = read(base)
    marks, (triangles, markers) = regions(mesh), surface(base)
    cells = [("tetra", mesh.cells[0].data), ("triangle", triangles)]
    # a region is one of tetrahedra, a marker one of triangles; each is 0 for the others
    data = {"region": [marks, 0 * markers], "marker": [0 * marks, markers]}
    meshio.Mesh(mesh.points, cells, cell_data=data).write(f"{base}.vtu")
    # what gmsh calls a physical group, and an entity, whose numbers begin with 1
    entities = [numpy.unique(it, return_inverse=True)[1] + 1 for it in (marks, markers)]
    groups = {"gmsh:physical": [marks, markers], "gmsh:geometrical": entities}
    meshio.Mesh(mesh.points, cells, cell_data=groups).write(f"{base}.msh", file_format="gmsh22", binary=False)


def shown_part(base, towards, whole):
    """What is drawn: all tetrahedra, or those whose centroids lie behind the plane through the middle, at right angles to this direction."""
    mesh = read(base)
    cells, marks = mesh.cells[0].data, regions(mesh)
    middle = (mesh.points.min(axis=0) + mesh.points.max(axis=0)) / 2
    behind = (mesh.points[cells].mean(axis=1) - middle) @ towards <= 0
    behind |= whole
    return meshio.Mesh(mesh.points, [("tetra", cells[behind])], cell_data={"region": [marks[behind]]}), (marks.min(), marks.max())


def camera(points, towards):
    """The point that is looked at, and the place from which all points just fill the picture, in this direction and with the third axis upward."""
    ahead = towards / numpy.linalg.norm(towards)
    right = numpy.cross([0, 0, 1], ahead)
    right /= numpy.linalg.norm(right)
    axes = numpy.array([right, numpy.cross(ahead, right), ahead])
    seen, upward = points @ axes.T, numpy.tan(numpy.radians(HALF_ANGLE))
    center = (seen.min(axis=0) + seen.max(axis=0)) / 2
    for _ in range(9):
        sides = numpy.abs(seen - center) / [upward * WIDTH / HEIGHT, upward, 1]
        away = (sides[:, :2].max(axis=1) + seen[:, 2] - center[2]).max()
        # what is near looks larger: the middle of what is seen becomes that of the picture
        flat = (seen - center)[:, :2] / (away + center[2] - seen[:, 2:])
        center[:2] += away * (flat.min(axis=0) + flat.max(axis=0)) / 2
    return center @ axes, (center + [0, 0, 1.04 * away]) @ axes


def draw(base, picture, whole):
    from paraview import simple

    # else the first picture is taken from a place of ParaView's own
    simple._DisableFirstRenderCameraReset()
    towards = numpy.array([0.9, 0.5, 1.1] if whole else [-0.3, -1.0, 0.35])
    mesh, range_of_regions = shown_part(base, towards, whole)
    with tempfile.TemporaryDirectory() as folder:
        path = os.path.join(folder, "part.vtu")
        mesh.write(path)
        shown = simple.Shrink(Input=simple.XMLUnstructuredGridReader(FileName=[path]), ShrinkFactor=0.9)
        view = simple.CreateRenderView(ViewSize=[WIDTH, HEIGHT], OrientationAxesVisibility=0, CameraViewAngle=2 * HALF_ANGLE)
        view.UseColorPaletteForBackground, view.Background = 0, [1, 1, 1]
        display = simple.Show(shown, view, Representation="Surface With Edges", EdgeColor=[0.2, 0.2, 0.2], Ambient=0.3)
        simple.ColorBy(display, ("CELLS", "region"))
        simple.GetColorTransferFunction("region").RescaleTransferFunction(*range_of_regions)
        at, place = camera(mesh.points[numpy.unique(mesh.cells[0].data)], towards)
        view.CameraFocalPoint, view.CameraPosition, view.CameraViewUp = list(at), list(place), [0, 0, 1]
        simple.Render(view)
        simple.SaveScreenshot(picture, view)


def main():
    words = sys.argv[1:]
    if words in ([], ["-h"], ["--help"]):
        print(__doc__.strip())
        return
    if not 1 <= len(words) <= 3 or words[0].startswith("-") or words[2:] not in ([], ["whole"]):
        sys.exit(__doc__.strip())
    base = base_of(words[0])
    convert(base)
    if len(words) == 1:
        return
    has_screen, launcher = os.environ.get("DISPLAY"), shutil.which("xvfb-run")
    packages = {"python3-paraview": importlib.util.find_spec("paraview"), "xvfb": has_screen or launcher}
    if not all(packages.values()):
        wanted([name for name, found in packages.items() if not found])
    if not has_screen:
        # ParaView draws on a screen alone: one that nobody sees serves, if it does not begin anew when ParaView has looked at it once
        os.execv(launcher, [launcher, "-a", "-s", "-screen 0 1280x1024x24 -noreset", sys.executable, *sys.argv])
    draw(base, words[1], words[2:] == ["whole"])


main()
