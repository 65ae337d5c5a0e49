"""Tetrahedral meshes of numpy arrays and of texts, by the library that capi/build makes; the environment's TETGEN_LIBRARY names another file of it.

capi/tetgen.h says what each call promises. No call keeps memory, and threads may call at the same time."""
import ctypes
import decimal
import os

import numpy as np

_HERE = os.path.dirname(os.path.abspath(__file__))
_LIBRARY = ctypes.CDLL(os.environ.get("TETGEN_LIBRARY") or os.path.join(_HERE, "..", "capi", "out", "libtetgen.so"))
_AT, _SIZE = ctypes.c_void_p, ctypes.c_size_t
_DONE, _NO_ROOM = 0, 20
# The most that a coordinate may be in size.
_MOST = 2**29
_REASONS = {
    5: "more than 4000000 points, or a coordinate over 2^29 in size",
    6: "all points lie in one plane",
    10: "out of memory",
}
_COMPLEX_REASONS = {
    **_REASONS,
    4: "a corner that names no point",
    5: "more than 4000000 points, a coordinate over 2^29 in size, or more than 100000000 points that may be added",
    6: "all points lie in one plane, a facet is not flat, or facets or segments cross",
    7: "a segment needs more halvings",
    8: "as many points were added as allowed, and a segment is missing",
    9: "two facets cross one Delaunay tetrahedron, and no filling was found",
}
_PLACES_REASONS = {5: "more than 22 decimals, or a coordinate that is over 2^29 units in size, infinite or no number"}
NO_REGION = NO_NEIGHBOR = 2**32 - 1

# The endings of the files that the programs may write, and of those that they read.
_WRITTEN = (".node", ".ele", ".face", ".edge", ".neigh", ".vtk", ".msh")
_READ = (".node", ".poly", ".smesh", ".off", ".stl")
# Those of surfaces, which tetfit takes in letters of either case.
_SURFACES = (".off", ".stl")


class _Slice(ctypes.Structure):
    _fields_ = [("at", ctypes.c_char_p), ("len", _SIZE)]


class _Text(ctypes.Structure):
    _fields_ = [("name", ctypes.c_char_p), ("name_len", _SIZE), ("at", ctypes.c_char_p), ("len", _SIZE)]


class _Task(ctypes.Structure):
    _fields_ = [("words", _AT), ("word_count", _SIZE), ("files", _AT), ("file_count", _SIZE), ("wanted", _AT), ("wanted_count", _SIZE)]


class _Options(ctypes.Structure):
    _fields_ = [
        ("halvings", ctypes.c_uint32), ("budget", ctypes.c_uint32),
        ("keep_hull", ctypes.c_bool), ("keep_facets", ctypes.c_bool), ("regions", ctypes.c_bool),
    ]


_PARTS = "points", "corners", "polygons", "facets", "facet_holes", "holes", "regions"


class _Complex(ctypes.Structure):
    _fields_ = [*(field for it in _PARTS for field in ((it, _AT), (it + "_count", _SIZE))), ("options", _Options)]


class _Counts(ctypes.Structure):
    _fields_ = [("points", _SIZE), ("cells", _SIZE), ("faces", _SIZE), ("halvings", ctypes.c_uint32)]


# As tetgen.h lays out tetgen_facet, tetgen_cell and tetgen_face.
_FACET = np.dtype(
    {"names": ["first", "past", "marker", "first_hole", "past_hole"], "formats": [np.uintp, np.uintp, np.int64, np.uintp, np.uintp]}, align=True
)
_FACE = np.dtype({"names": ["corners", "marker"], "formats": [(np.uint32, 3), np.int64]}, align=True)

_RUNS = {"tetgen": _LIBRARY.tetgen_run, "tetfit": _LIBRARY.tetfit_run}
for _run in _RUNS.values():
    _run.argtypes = [ctypes.POINTER(_Task), _AT, _SIZE, _AT, _SIZE, ctypes.POINTER(_SIZE)]
    _run.restype = ctypes.c_int32
_LIBRARY.tetgen_delaunay_into.argtypes = [_AT, _SIZE, _AT, _SIZE, ctypes.POINTER(_SIZE)]
_LIBRARY.tetgen_delaunay_into.restype = ctypes.c_int32
_LIBRARY.tetgen_mesh_into.argtypes = [ctypes.POINTER(_Complex), _AT, _SIZE, _AT, _SIZE, _AT, _SIZE, ctypes.POINTER(_Counts)]
_LIBRARY.tetgen_mesh_into.restype = ctypes.c_int32
_LIBRARY.tetgen_places_of.argtypes = [_AT, _SIZE, ctypes.c_uint32, _AT, _SIZE]
_LIBRARY.tetgen_places_of.restype = ctypes.c_int32


class TetgenError(Exception):
    """A call was refused: `status` is that of docs/MANUAL.md, `message` the reason."""

    def __init__(self, status, message):
        super().__init__(f"{message} (status {status})")
        self.status, self.message = status, message


def _places(points):
    """The points as the library reads them: an array that is so is not copied."""
    points = np.asarray(points)
    if points.size == 0:
        return np.zeros((0, 3), np.int64)
    if points.ndim != 2 or points.shape[1] != 3:
        raise ValueError(f"points: an array of shape (n, 3), and not {points.shape}")
    if not np.can_cast(points.dtype, np.int64):
        raise TypeError(f"points: whole numbers of at most 64 bits with a sign, and not {points.dtype}")
    return np.ascontiguousarray(points, np.int64)


def places_of(points, decimals):
    """Points with floating-point coordinates in units of 1 / 10^`decimals`, at most 22: an array of shape (n, 3) of int64. Each coordinate is
    rounded to a whole number from its exact value, halves away from zero, and is at most 2^29 in size then."""
    points = np.ascontiguousarray(points, np.float64)
    if points.ndim != 2 or points.shape[1] != 3:
        raise ValueError(f"points: an array of shape (n, 3), and not {points.shape}")
    places = np.empty(points.shape, np.int64)
    status = _LIBRARY.tetgen_places_of(points.ctypes.data, len(points), decimals, places.ctypes.data, len(places))
    if status != _DONE:
        raise TetgenError(status, _PLACES_REASONS[status])
    return places


def delaunay(points):
    """The Delaunay list of points with whole coordinates, at most 2^29 in size, as an array of shape (m, 4) of uint32: the places of the corners
    of each tetrahedron, from 0, in an order with a positive volume. Of equal points the first alone is a corner."""
    places, count = _places(points), _SIZE()
    room = 7 * len(places) + 16
    while True:
        rows = np.empty((room, 4), np.uint32)
        status = _LIBRARY.tetgen_delaunay_into(places.ctypes.data, len(places), rows.ctypes.data, room, ctypes.byref(count))
        if status != _NO_ROOM:
            break
        room = count.value
    if status != _DONE:
        raise TetgenError(status, _REASONS[status])
    return rows[: count.value]


class Mesh:
    """The mesh of a complex. `points` are whole numbers over 2^`halvings`, those of the complex first and the added ones behind them; `rows` are the
    places of the corners of each tetrahedron, in an order with a positive volume; `regions` the place of the region of each, or NO_REGION;
    `neighbors` the places of the tetrahedra across the faces opposite its corners, or NO_NEIGHBOR; `faces` the places of the corners of the faces on
    the hull and in facets, and `markers` their markers; `beyond` how many tetrahedra are still beyond the bounds that were asked for: those over their
    volume by "over", over the ratio by "slim", and with an angle below the least one by "flat"."""

    def __init__(self, points, halvings, cells, faces, beyond=()):
        self.points, self.halvings, self.beyond = points, halvings, dict(beyond)
        self.rows, self.regions, self.neighbors = cells[:, :4], cells[:, 4], cells[:, 5:]
        self.faces, self.markers = faces["corners"], faces["marker"]

    def coordinates(self):
        """The points as floating-point numbers, which hold them exactly."""
        return np.ldexp(self.points.astype(float), -self.halvings)


def _spans(lengths):
    """From where to where each of the parts with these lengths lies, one behind another."""
    past = np.cumsum(np.asarray(lengths, np.uintp), dtype=np.uintp)
    return past - np.asarray(lengths, np.uintp), past


def _facets(facets, markers, facet_holes):
    """The corners, the polygons, the facets and the points in their holes as arrays. A facet is a polygon or a list of polygons, and a polygon a list
    of places of points."""
    facets = [[it] if len(it) and np.ndim(it[0]) == 0 else it for it in facets]
    markers = range(1, len(facets) + 1) if markers is None else markers
    if len(markers) != len(facets):
        raise ValueError(f"markers: one for each of {len(facets)} facets, and not {len(markers)}")
    polygons = [np.asarray(it, np.uint32) for facet in facets for it in facet]
    corners = np.concatenate(polygons) if polygons else np.zeros(0, np.uint32)
    rows = np.zeros(len(facets), _FACET)
    rows["first"], rows["past"] = _spans([len(it) for it in facets])
    rows["marker"] = markers
    holes = [_places(facet_holes.get(place, ())) for place in range(len(facets))]
    rows["first_hole"], rows["past_hole"] = _spans([len(it) for it in holes])
    holes = np.concatenate(holes) if holes else _places(())
    return corners, np.stack(_spans([len(it) for it in polygons]), axis=1), rows, holes


def mesh(
    points, facets, *, markers=None, facet_holes=None, holes=(), regions=(), quality=None, volume=None, halvings=None, budget=100_000,
    keep_hull=False, keep_facets=False
):
    """The mesh of a piecewise linear complex, a `Mesh`. `points` have whole coordinates, at most 2^29 in size; a facet is a polygon, a list of places
    of points, or a list of polygons in one plane; `markers` are whole numbers, 1, 2, .. where there are none; `facet_holes` has the points that lie
    in holes of a facet, by the place of the facet, as {0: [(2, 2, 0)]}; what no facet parts from a point of `holes` is carved away; a tetrahedron is
    in the first of `regions` from which no facet parts it. On segments at most `budget` points are added, where the unit is halved `halvings` times
    at most, 12 times where no number is given.

    With `quality` or `volume` the program tetfit makes the mesh, over texts in memory, and adds points until the shapes and the volumes are as asked
    for, as far as it comes; `beyond` of the mesh tells what is left. `quality` is the most that the radius of a tetrahedron's circumsphere may be, as
    a multiple of its shortest edge, from 1 to 100 with at most 4 decimals; or a pair of that and the least dihedral angle, from 0 to 30 whole degrees,
    which is 20 without. `volume` is the most that the volume of a tetrahedron may be, in cubes of the unit of the coordinates; or a list with such a
    number for each of `regions`, or None for one without. The unit is halved 18 times at most then, where no number is given, and `budget`, at most
    100000, bounds these points too where it is below that. The points are exact here too: whole numbers over 2^`halvings`, read from the decimals that
    tetfit prints."""
    places = {"points": _places(points), "holes": _places(holes), "regions": _places(regions)}
    places["corners"], places["polygons"], places["facets"], places["facet_holes"] = _facets(facets, markers, facet_holes or {})
    if quality is not None or volume is not None:
        if (places["points"] > _MOST).any() or (places["points"] < -_MOST).any():
            raise TetgenError(5, _COMPLEX_REASONS[5])
        switches = "n" + "c" * keep_hull + "M" * keep_facets + "A" * (len(places["regions"]) > 0)
        words = [f"-{switches}S{budget}", f"--halvings={18 if halvings is None else min(halvings, 18)}"]
        return _fitted(places, words, quality, volume)
    options = _Options(12 if halvings is None else halvings, budget, keep_hull, keep_facets, len(places["regions"]) > 0)
    task, counts = _Complex(options=options), _Counts()
    for name, array in places.items():
        setattr(task, name, array.ctypes.data)
        setattr(task, name + "_count", len(array))
    most = 2 * len(places["points"]) + 1024
    rooms = most, 8 * most, 4 * most
    while True:
        made, cells, faces = np.empty((rooms[0], 3), np.int64), np.empty((rooms[1], 9), np.uint32), np.empty(rooms[2], _FACE)
        into = [it for array in (made, cells, faces) for it in (array.ctypes.data, len(array))]
        status = _LIBRARY.tetgen_mesh_into(ctypes.byref(task), *into, ctypes.byref(counts))
        if status != _NO_ROOM:
            break
        rooms = counts.points, counts.cells, counts.faces
    if status != _DONE:
        raise TetgenError(status, _COMPLEX_REASONS[status])
    return Mesh(made[: counts.points], counts.halvings, cells[: counts.cells], faces[: counts.faces])


def _plain(number):
    """The number as a decimal without an exponent."""
    return format(decimal.Decimal(str(number)), "f")


def _listed(points, rest=None):
    """A line for each point: its place, its coordinates, and what stands behind them."""
    rest = [""] * len(points) if rest is None else rest
    return [f"{place} {x} {y} {z}{more}" for place, ((x, y, z), more) in enumerate(zip(points.tolist(), rest))]


def _poly(places, limits):
    """The text of a complex whose points stand in a .node file, with these volume limits of its regions."""
    corners, polygons, holes = places["corners"].tolist(), places["polygons"].tolist(), places["facet_holes"]
    lines = ["0 3 0 0", f"{len(places['facets'])} 1"]
    for first, past, marker, first_hole, past_hole in places["facets"].tolist():
        lines.append(f"{past - first} {past_hole - first_hole} {marker}")
        lines += [" ".join(map(str, [end - at, *corners[at:end]])) for at, end in polygons[first:past]]
        lines += _listed(holes[first_hole:past_hole])
    regions = [f" {place + 1}" + ("" if limit is None else f" {_plain(limit)}") for place, limit in enumerate(limits)]
    lines += [str(len(places["holes"])), *_listed(places["holes"]), str(len(regions)), *_listed(places["regions"], regions)]
    return "\n".join(lines) + "\n"


def _wholes(decimals):
    """Exact decimals of whole numbers over a power of two: these numbers, and the power."""
    parts = [it.partition(b".") for it in decimals]
    halvings = max((len(it[2]) for it in parts), default=0)
    return [int(whole + fraction.ljust(halvings, b"0")) // 5**halvings for whole, _, fraction in parts], halvings


def _table(text, head, width):
    """The lines of whole numbers below the first one, which has `head` fields, without their numbers."""
    return np.fromstring(text, np.int64, sep=" ")[head:].reshape(-1, width)[:, 1:]


def _fitted(places, words, quality, volume):
    """The mesh by tetfit, with these words and bounds."""
    limits = [None] * len(places["regions"])
    if quality is not None:
        words.append("-q" + "/".join(map(_plain, quality if np.ndim(quality) else [quality])))
    if volume is not None and np.ndim(volume) == 0:
        words.append("-a" + _plain(volume))
    elif volume is not None:
        words.append("-a")
        limits = list(volume)
        if len(limits) != len(places["regions"]):
            raise ValueError(f"volume: one for each of {len(places['regions'])} regions, and not {len(limits)}")
    node = "\n".join([f"{len(places['points'])} 3 0 0", *_listed(places["points"])]) + "\n"
    line, files = run([*words, "mesh.poly"], {"mesh.poly": _poly(places, limits), "mesh.node": node}, program="tetfit")
    fields = line.splitlines()[0].split()
    beyond = {name: int(count) for name, count in zip(fields[::2], fields[1::2]) if name in ("over", "slim", "flat")}
    numbers, halvings = _wholes([it for row in files["mesh.1.node"].split(b"\n")[1:] for it in row.split()[1:]])
    rows = _table(files["mesh.1.ele"], 3, 6 if len(limits) else 5)
    cells = np.empty((len(rows), 9), np.uint32)
    cells[:, :4], cells[:, 5:] = rows[:, :4], _table(files["mesh.1.neigh"], 2, 5)
    cells[:, 4] = rows[:, 4] - 1 if len(limits) else NO_REGION
    listed = _table(files["mesh.1.face"], 2, 5)
    faces = np.empty(len(listed), _FACE)
    faces["corners"], faces["marker"] = listed[:, :3], listed[:, 3]
    return Mesh(np.array(numbers, np.int64).reshape(-1, 3), halvings, cells, faces, beyond)


def _bytes(text):
    return text.encode() if isinstance(text, str) else bytes(text)


def _array(kind, rows):
    """The rows as an array of structures of C, which keeps what it points to."""
    return (kind * max(1, len(rows)))(*(kind(*(it for part in row for it in (part, len(part)))) for row in rows))


def _outputs(words, program):
    """The names of the files that the words may ask for."""
    names = [it for it in words if not it.startswith("-")]
    base = names[-1] if names else ""
    stem, dot, rest = base.rpartition(".")
    if dot + rest in _READ or (program == "tetfit" and dot + rest.lower() in _SURFACES):
        base = stem
    return [f"{base}.1{ending}" for ending in _WRITTEN]


def run(words, files, wanted=None, *, program="tetgen"):
    """Runs a program, tetgen or tetfit, on these words, as ["-pn", "box.poly"], over a folder in memory with these files alone, a dict of names and
    texts (bytes, or str). Answers what the program prints, and a dict with the bytes of the files that are wanted and there afterwards: those with the
    names in `wanted`, or else all that the words may ask for. No file of the system is read or written."""
    wanted = _outputs(words, program) if wanted is None else list(wanted)
    rows = [(_bytes(name), _bytes(text)) for name, text in files.items()]
    parts = _array(_Slice, [(_bytes(it),) for it in words]), _array(_Text, rows), _array(_Slice, [(_bytes(it),) for it in wanted])
    task = _Task(
        ctypes.addressof(parts[0]), len(words), ctypes.addressof(parts[1]), len(rows), ctypes.addressof(parts[2]), len(wanted)
    )
    lengths, count = np.zeros(len(wanted) + 2, np.uintp), _SIZE()
    # (a run that has too little room is made once more, and what is not written takes no memory)
    size = (1 << 26) + 16 * sum(len(text) for _, text in rows)
    while True:
        room = np.empty(size, np.uint8)
        status = _RUNS[program](task, lengths.ctypes.data, len(lengths), room.ctypes.data, size, ctypes.byref(count))
        if status != _NO_ROOM:
            break
        size = count.value
    if status == 10:
        raise TetgenError(status, _REASONS[status])
    texts, at = [], 0
    for length in lengths.tolist():
        there = length <= count.value
        texts.append(room[at : at + length].tobytes() if there else None)
        at += length if there else 0
    if status != _DONE:
        raise TetgenError(status, texts[1].decode(errors="replace").strip())
    return texts[0].decode(), {name: text for name, text in zip(wanted, texts[2:]) if text is not None}
