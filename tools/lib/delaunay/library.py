"""Triangulations with constraints that the shared library keeps, called as C calls it. Types are those that tools/bind makes of dcel.h."""

import functools
import os
from array import array
from ctypes import CDLL, c_bool, c_uint32, c_uint64
from importlib.util import module_from_spec, spec_from_file_location
from pathlib import Path
from typing import NamedTuple

from delaunay.laid import Lists
from delaunay.plane import Wrong

ROOT = Path(__file__).resolve().parents[3]
FOLDER = Path(os.environ.get("DCEL_LIB_DIR") or ROOT / "crates/dcel_c/out")
PREFIX = "dcel_constrained_"
# What stands where there is no triangle, and for no vertex.
NO_TRIANGLE, NONE = 2**32 - 1, 2**64 - 1
# Twice an area, as if it had no limit.
ANY_AREA = 2**128 - 1


class Told(NamedTuple):
    """What the library tells of a triangulation: the point of each vertex, lists, the next half edge, the one before, the origin and the face of
    each half edge, and whether it is whole."""

    points: list
    lists: Lists
    links: list
    is_whole: bool


@functools.cache
def declared():
    """The module that tools/bind makes of dcel.h."""
    spec = spec_from_file_location("declared", ROOT / "bindings/python/dcel/_declared.py")
    module = module_from_spec(spec)
    spec.loader.exec_module(module)
    return module


@functools.cache
def function(name):
    """A function of the library on triangulations with constraints, and whether it returns a status."""
    file = FOLDER / "libdcel.so"
    if not file.is_file():
        raise Wrong(f"there is no {file}: tools/build_static dcel_c proves and builds it")
    result, given = declared().FUNCTIONS[PREFIX + name]
    found = CDLL(str(file))[PREFIX + name]
    is_status = result is declared().Status
    found.restype, found.argtypes = c_uint32 if is_status else result, given
    return found, is_status


def call(name, *given):
    """Returns what a function returns, but a status, which has to be the first."""
    found, is_status = function(name)
    result = found(*given)
    if is_status and result:
        raise Wrong(f"{PREFIX}{name} ends with status {result}")
    return result


class Kept:
    """The triangulation of points and of segments between them, by the points' places. It is freed at the end of a `with`."""

    def __init__(self, points, segments):
        types, count = declared(), len(points)
        self.kept, vertices, row = types.Constrained(), (c_uint32 * count)(), c_uint64()
        ends = (types.Ends * len(segments))(*segments)
        call("bulk_load", self.kept, (types.Point * count)(*points), count, ends, len(segments), vertices, count, row)
        # The vertex of each point.
        self.vertices = list(vertices)

    def __enter__(self):
        return self

    def __exit__(self, *_):
        call("free", self.kept)

    def remove(self, vertex):
        """Removes a vertex. Returns the old number of the one that has its number now, or None."""
        moved = c_uint64()
        call("remove", self.kept, vertex, moved)
        return None if moved.value == NONE else moved.value

    def refine(self, asked):
        """Refines it to what is asked, as of `refined.Asked`. Returns how many points it says that it added, how many
        corners it says are excepted, and whether all is as asked."""
        high, low = divmod(ANY_AREA if asked.doubled_area is None else asked.doubled_area, 2**64)
        given = declared().Refinement(high, low, asked.most, asked.rise, asked.run, asked.is_inside)
        added, excepted, reached = c_uint64(), c_uint64(), c_bool()
        call("refine", self.kept, given, added, excepted, reached)
        return added.value, excepted.value, reached.value

    def rows(self, name, kind, most, code="I"):
        """The numbers of each item of a list, which has at most so many."""
        buffer, needed = (kind * most)(), c_uint64()
        call(name, self.kept, buffer, most, needed)
        numbers = array(code, bytes(buffer)).tolist()
        width = len(numbers) // most if most else 1
        return [tuple(numbers[width * place:width * (place + 1)]) for place in range(needed.value)]

    def told(self):
        """What the library tells of it."""
        types = declared()
        vertices, edges, triangles, constraints = (call(f"num_{it}", self.kept) for it in ("vertices", "edges", "triangles", "constraints"))
        lists = Lists(
            self.rows("triangles", types.Triangle, triangles),
            [tuple(-1 if it == NO_TRIANGLE else it for it in row) for row in self.rows("neighbors", types.Across, triangles)],
            self.rows("edges", types.Ends, edges),
            [vertex for (vertex,) in self.rows("hull", c_uint32, 2 * vertices)],
            self.rows("constraints", types.Ends, constraints),
            [depth for (depth,) in self.rows("regions", c_uint32, triangles)],
        )
        links = self.rows("directed_edges", types.HalfEdge, 2 * edges)
        points = self.rows("points", types.Point, vertices, "q")
        for name, found, count in (("vertices", points, vertices), ("edges", lists.edges, edges), ("triangles", lists.triangles, triangles),
                                   ("constraints", lists.constraints, constraints)):
            if len(found) != count:
                raise Wrong(f"{PREFIX}num_{name} has {count}, and there are {len(found)}")
        return Told(points, lists, links, call("is_whole", self.kept))
