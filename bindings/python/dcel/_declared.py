"""Made of dcel.h by tools/bind --write: what it declares."""

from __future__ import annotations

import enum
from ctypes import POINTER, Structure, c_bool, c_int64, c_size_t, c_uint8, c_uint16, c_uint32, c_uint64, c_void_p
from typing import Any

VERSION = "0.2.0"
# What a call that returns an element's number returns where there is none.
NONE = 2**64 - 1
# What stands for each link of a half edge that isn't live.
NO_LINK = 2**32 - 1


class Status(enum.IntEnum):
    """What calls return."""

    DONE = 0
    NO_SUCH_VERTEX = 1
    NO_SUCH_EDGE = 2  #: of half edges too
    NO_SUCH_FACE = 3  #: also the outer face, where an inner one is asked for
    REMOVAL_OPEN = 4
    NO_REMOVAL = 5  #: none is open that is still to be cleaned up
    GIVEN_UP = 6  #: an element isn't live
    SAME_VERTEX = 7
    VERTEX_IN_USE = 8  #: it has an edge
    EDGES_STAND = 9  #: the mesh has an edge
    NOT_LINE_END = 10
    NOT_BRIDGE = 11  #: the halves of the edge lie on two faces
    NOT_OUTER = 12
    NOT_TRIANGLE = 13
    WOULD_LOOP = 14  #: an edge would join a vertex to itself
    BAD_RING = 15
    BAD_STRIP = 16
    WRONG_LISTS = 17
    NOT_PATH = 18
    NO_ROOM = 19  #: a count would pass 2^31, and with dcel_reserve_capacity 2^32
    OUT_OF_MEMORY = 20
    NO_MESH = 21  #: it was never made, or it was freed; of triangulations too
    SHORT = 22  #: a buffer has too few places
    FAULTY = 23  #: no mesh is made of what is given, and a dcel_fault says why
    OUT_OF_RANGE = 24  #: a coordinate is below -2^53 or above 2^53
    UNFINISHED = 25  #: the triangulation isn't whole, as there was no memory to make it so
    CROSSES = 26  #: a segment would cross a constraint
    NOT_INSIDE = 27  #: the faces round a vertex aren't three inner triangles or more, which make a disc
    SECOND_EDGE = 28  #: a second edge would join two vertices
    CUT_VERTEX = 29  #: the outer face meets the vertex twice
    SHORT_BORDER = 30  #: the outer face has two half edges
    NO_SUCH_EDIT = 31  #: of the calls of an edit there is none with that number


class Ended(enum.IntEnum):
    """How a legalization ended."""

    LEGALIZED = 0  #: nothing is left to flip
    STOPPED = 1  #: as many flips were made as were allowed
    MEMORY_RAN_OUT = 2  #: the list of edges found no memory to grow


class RemovalState(enum.IntEnum):
    """How far a removal has come."""

    CLOSED = 0  #: none is open
    ISOLATED = 1  #: it is to be cleaned up
    CLEANED = 2  #: its vertex is to be taken out


class FaultKind(enum.IntEnum):
    """What is wrong with links or faces that no mesh is made of. With links it is the first that is wrong, in this order, but that the
    three ranges are looked for together, and so are ONE_END, APART and LEAVES_FACE. Places are those of faces in `counts`."""

    LENGTHS = 1  #: a half edge has no other half
    TOO_MANY = 2  #: there are more than 2^32 vertices, half edges or faces
    NO_FACE = 3  #: there is no outer face
    MORE_FACES = 4  #: there are more faces than edges and two
    NEXT_OUT_OF_RANGE = 5  #: after half edge `number` comes none that there is
    ORIGIN_OUT_OF_RANGE = 6  #: half edge `number` starts at no vertex that there is
    FACE_OUT_OF_RANGE = 7  #: half edge `number` lies on no face that there is
    TWO_LEAD_TO = 8  #: two half edges have half edge `number` as their next
    ONE_END = 9  #: half edge `number` ends where it starts
    APART = 10  #: what comes after half edge `number` doesn't start where it ends
    LEAVES_FACE = 11  #: what comes after half edge `number` lies on another face
    FACE_IN_PARTS = 12  #: the half edges of face `number` are no single loop
    VERTEX_IN_PARTS = 13  #: the half edges of vertex `number` are no single turn
    UNUSED_FACE = 14  #: no half edge lies on face `number`
    NOT_CONNECTED = 15  #: half edge `number` isn't reached from half edge 0
    NOT_SPHERE = 16  #: the surface has genus `number`
    OTHER_COUNT = 17  #: the counts don't add up to the corners
    FEW_CORNERS = 18  #: the face at place `number` has fewer than three corners
    TOO_MANY_CORNERS = 19  #: there are more than 2^31 corners
    NO_VERTEX = 20  #: the face at place `number` has corner `from`, which is no vertex
    SIDE_AT_ONE = 21  #: the face at place `number` has corner `from` twice in a row
    SIDE_TWICE = 22  #: faces at places `number` and `other` have the side `from` to `to`
    BORDER_TWICE = 23  #: two sides that no face lies beyond end at vertex `number`


class Call(enum.IntEnum):
    """The calls of edits, and the numbers that each takes, in this order."""

    APPEND_UNCONNECTED_VERTEX = 0  #: datum
    NEW_TRIANGLE = 1  #: a, b, c
    SETUP_INITIAL_TWO_VERTICES = 2  #: first, second
    EXTEND_LINE = 3  #: end, vertex
    SPLIT_EDGE_WHEN_ALL_VERTICES_ON_LINE = 4  #: edge, vertex
    CREATE_SINGLE_FACE_BETWEEN_EDGE_AND_NEXT = 5  #: edge
    CREATE_NEW_FACE_ADJACENT_TO_EDGE = 6  #: edge, vertex
    INSERT_INTO_TRIANGLE = 7  #: vertex, face
    SPLIT_HALF_EDGE = 8  #: edge, vertex
    SPLIT_EDGE = 9  #: edge, vertex
    FLIP_CW = 10  #: undirected edge
    SWAP_VERTICES = 11  #: first, second
    UPDATE_VERTEX = 12  #: vertex, datum
    SWAP_REMOVE_VERTEX = 13  #: vertex
    REMOVE_WHEN_DEGENERATE = 14  #: vertex
    CLEAR = 15  #: nothing


class Place(enum.IntEnum):
    """Where a point is, and what the `number` of a dcel_position is. Each point is at one place alone."""

    ON_FACE = 0  #: strictly inside triangle `number`
    ON_EDGE = 1  #: strictly between the ends of half edge `number`, which is either half
    ON_VERTEX = 2  #: at vertex `number`
    OUTSIDE = 3  #: outside of the hull, strictly on the left of half edge `number` of the outer face
    BEYOND_LINE = 4  #: on the line of all points, strictly beyond vertex `number`, which ends it
    NOWHERE = 5  #: there is no edge, and no vertex is there: `number` is UINT32_MAX


class Mesh(Structure):
    """A mesh, or none: zero bytes are one that isn't open. The fields are the library's."""

    _fields_ = [("at", c_void_p), ("is_open", c_bool)]


class HalfEdge(Structure):
    """The links of a half edge: the ones after and before it on its face, the vertex that it starts at, and its face. Half edge h ends
    where h ^ 1 starts."""

    _fields_ = [("next", c_uint32), ("prev", c_uint32), ("origin", c_uint32), ("face", c_uint32)]


class Removed(Structure):
    """A vertex that was taken out: its datum, and the old number of the vertex that has its number now, DCEL_NONE if none does."""

    _fields_ = [("datum", c_uint64), ("moved", c_uint64)]


class Opened(Structure):
    """A removal that was opened: how many edges and faces it has given up, how many edges it has added, and the number of the first of
    these. The others follow it."""

    _fields_ = [("edges", c_uint64), ("faces", c_uint64), ("new_edges", c_uint64), ("smallest_new_edge", c_uint64)]


class Legalized(Structure):
    """How many edges were flipped, and an enum dcel_ended."""

    _fields_ = [("flips", c_uint64), ("ended", c_uint32)]


class Fault(Structure):
    """A fault: a dcel_fault_kind, and 0 for what that doesn't speak of."""

    _fields_ = [("kind", c_uint32), ("number", c_uint64), ("other", c_uint64), ("from", c_uint64), ("to", c_uint64)]


class Edit(Structure):
    """An edit: an enum dcel_call, and the numbers that it takes. What it doesn't take isn't read."""

    _fields_ = [("call", c_uint64), ("first", c_uint64), ("second", c_uint64), ("third", c_uint64)]


class Reply(Structure):
    """What the call of an edit returned: its dcel_status, a number, and, after a removal, the old number of the vertex that took the
    removed one's number. The number is the one that the call reports; the vertex that dcel_extend_line,
    dcel_create_new_face_adjacent_to_edge or dcel_insert_into_triangle joins to the others; or the datum of a vertex that was taken out.
    Where there is none, DCEL_NONE."""

    _fields_ = [("status", c_uint64), ("number", c_uint64), ("moved", c_uint64)]


class Point(Structure):
    """A point, whose coordinates are from -2^53 to 2^53."""

    _fields_ = [("x", c_int64), ("y", c_int64)]


class Triangle(Structure):
    """The corners of a triangle, counterclockwise."""

    _fields_ = [("first", c_uint32), ("second", c_uint32), ("third", c_uint32)]


class Triangulation(Structure):
    """A triangulation, or none: zero bytes are one that isn't open. The fields are the library's."""

    _fields_ = [("at", c_void_p), ("is_open", c_bool)]


class Across(Structure):
    """The triangles across from the corners of a triangle: the one across from its first corner has the other two as corners too.
    UINT32_MAX stands where there is none: on the hull."""

    _fields_ = [("first", c_uint32), ("second", c_uint32), ("third", c_uint32)]


class Ends(Structure):
    """The ends of an edge u: the vertices where half edge 2 * u starts and ends."""

    _fields_ = [("from", c_uint32), ("to", c_uint32)]


class Position(Structure):
    """A place: an enum dcel_place, and the number that it speaks of."""

    _fields_ = [("kind", c_uint32), ("number", c_uint32)]


class Constrained(Structure):
    """A triangulation with constraints, or none: zero bytes are one that isn't open. The fields are the library's."""

    _fields_ = [("at", c_void_p), ("is_open", c_bool)]


class Refinement(Structure):
    """What a refinement is to reach, and where it gives up. Each corner is to have at least the angle whose tangent is rise / run, unless
    both its sides are constraints: for 20 degrees that is 23853 / 65535, and with a rise of 0 every angle will do. Each triangle is to have
    at most half the area max_doubled_area_high * 2^64 + max_doubled_area_low, in squares of the coordinates' unit; with a high half from
    2^63 on, as UINT64_MAX, any area will do. With `inside` this is asked only of triangles of odd depth (dcel_constrained_regions), else of
    all. At most max_additional_vertices are added. Any numbers may be given."""

    _fields_ = [("max_doubled_area_high", c_uint64), ("max_doubled_area_low", c_uint64), ("max_additional_vertices", c_uint64), ("rise", c_uint16), ("run", c_uint16), ("inside", c_bool)]


STRUCTS: dict[str, type[Structure]] = {
    "dcel_mesh": Mesh,
    "dcel_half_edge": HalfEdge,
    "dcel_removed": Removed,
    "dcel_opened": Opened,
    "dcel_legalized": Legalized,
    "dcel_fault": Fault,
    "dcel_edit": Edit,
    "dcel_reply": Reply,
    "dcel_point": Point,
    "dcel_triangle": Triangle,
    "dcel_triangulation": Triangulation,
    "dcel_across": Across,
    "dcel_ends": Ends,
    "dcel_position": Position,
    "dcel_constrained": Constrained,
    "dcel_refinement": Refinement,
}

# What a fault of each kind says.
FAULTS = {
    FaultKind.LENGTHS: "a half edge has no other half",
    FaultKind.TOO_MANY: "there are more than 2^32 vertices, half edges or faces",
    FaultKind.NO_FACE: "there is no outer face",
    FaultKind.MORE_FACES: "there are more faces than edges and two",
    FaultKind.NEXT_OUT_OF_RANGE: "after half edge {number} comes none that there is",
    FaultKind.ORIGIN_OUT_OF_RANGE: "half edge {number} starts at no vertex that there is",
    FaultKind.FACE_OUT_OF_RANGE: "half edge {number} lies on no face that there is",
    FaultKind.TWO_LEAD_TO: "two half edges have half edge {number} as their next",
    FaultKind.ONE_END: "half edge {number} ends where it starts",
    FaultKind.APART: "what comes after half edge {number} doesn't start where it ends",
    FaultKind.LEAVES_FACE: "what comes after half edge {number} lies on another face",
    FaultKind.FACE_IN_PARTS: "the half edges of face {number} are no single loop",
    FaultKind.VERTEX_IN_PARTS: "the half edges of vertex {number} are no single turn",
    FaultKind.UNUSED_FACE: "no half edge lies on face {number}",
    FaultKind.NOT_CONNECTED: "half edge {number} isn't reached from half edge 0",
    FaultKind.NOT_SPHERE: "the surface has genus {number}",
    FaultKind.OTHER_COUNT: "the counts don't add up to the corners",
    FaultKind.FEW_CORNERS: "the face at place {number} has fewer than three corners",
    FaultKind.TOO_MANY_CORNERS: "there are more than 2^31 corners",
    FaultKind.NO_VERTEX: "the face at place {number} has corner {from}, which is no vertex",
    FaultKind.SIDE_AT_ONE: "the face at place {number} has corner {from} twice in a row",
    FaultKind.SIDE_TWICE: "faces at places {number} and {other} have the side {from} to {to}",
    FaultKind.BORDER_TWICE: "two sides that no face lies beyond end at vertex {number}",
}

_bool = POINTER(c_bool)
_across = POINTER(Across)
_constrained = POINTER(Constrained)
_edit = POINTER(Edit)
_ends = POINTER(Ends)
_fault = POINTER(Fault)
_half_edge = POINTER(HalfEdge)
_legalized = POINTER(Legalized)
_mesh = POINTER(Mesh)
_opened = POINTER(Opened)
_point = POINTER(Point)
_position = POINTER(Position)
_refinement = POINTER(Refinement)
_removed = POINTER(Removed)
_reply = POINTER(Reply)
_triangle = POINTER(Triangle)
_triangulation = POINTER(Triangulation)
_uint32 = POINTER(c_uint32)
_uint64 = POINTER(c_uint64)
_uint8 = POINTER(c_uint8)

# What each function returns, and what it takes.
FUNCTIONS: dict[str, tuple[Any, tuple[Any, ...]]] = {
    "dcel_version": (c_uint32, ()),
    "dcel_version_0_2_0": (c_uint32, ()),
    "dcel_new": (Status, (_mesh,)),
    "dcel_free": (None, (_mesh,)),
    "dcel_clone": (Status, (_mesh, _mesh)),
    "dcel_clear": (Status, (_mesh,)),
    "dcel_reserve_capacity": (Status, (_mesh, c_uint64, c_uint64, c_uint64)),
    "dcel_from_links": (Status, (_mesh, _half_edge, c_size_t, _uint64, c_size_t, _uint64, c_size_t, _fault)),
    "dcel_from_faces": (Status, (_mesh, _uint64, c_size_t, _uint32, c_size_t, _uint32, c_size_t, _fault)),
    "dcel_num_vertices": (c_uint64, (_mesh,)),
    "dcel_num_directed_edges": (c_uint64, (_mesh,)),
    "dcel_num_undirected_edges": (c_uint64, (_mesh,)),
    "dcel_num_faces": (c_uint64, (_mesh,)),
    "dcel_next": (c_uint64, (_mesh, c_uint32)),
    "dcel_prev": (c_uint64, (_mesh, c_uint32)),
    "dcel_rev": (c_uint64, (_mesh, c_uint32)),
    "dcel_ccw": (c_uint64, (_mesh, c_uint32)),
    "dcel_cw": (c_uint64, (_mesh, c_uint32)),
    "dcel_from": (c_uint64, (_mesh, c_uint32)),
    "dcel_to": (c_uint64, (_mesh, c_uint32)),
    "dcel_face": (c_uint64, (_mesh, c_uint32)),
    "dcel_out_edge": (c_uint64, (_mesh, c_uint32)),
    "dcel_adjacent_edge": (c_uint64, (_mesh, c_uint32)),
    "dcel_out_edges": (Status, (_mesh, c_uint32, _uint32, c_size_t, _uint64)),
    "dcel_face_edges": (Status, (_mesh, c_uint32, _uint32, c_size_t, _uint64)),
    "dcel_get_edge_from_neighbors": (c_uint64, (_mesh, c_uint32, c_uint32)),
    "dcel_directed_edge": (None, (_mesh, c_uint32, _half_edge)),
    "dcel_directed_edges": (Status, (_mesh, _half_edge, c_size_t, _uint64)),
    "dcel_vertex_data": (Status, (_mesh, c_uint32, _uint64)),
    "dcel_directed_edge_data": (Status, (_mesh, c_uint32, _uint64)),
    "dcel_undirected_edge_data": (Status, (_mesh, c_uint32, _uint64)),
    "dcel_face_data": (Status, (_mesh, c_uint32, _uint64)),
    "dcel_update_vertex": (Status, (_mesh, c_uint32, c_uint64)),
    "dcel_update_directed_edge": (Status, (_mesh, c_uint32, c_uint64)),
    "dcel_update_undirected_edge": (Status, (_mesh, c_uint32, c_uint64)),
    "dcel_update_face": (Status, (_mesh, c_uint32, c_uint64)),
    "dcel_append_unconnected_vertex": (Status, (_mesh, c_uint64, _uint32)),
    "dcel_new_triangle": (Status, (_mesh, c_uint64, c_uint64, c_uint64)),
    "dcel_setup_initial_two_vertices": (Status, (_mesh, c_uint32, c_uint32)),
    "dcel_extend_line": (Status, (_mesh, c_uint32, c_uint32)),
    "dcel_split_edge_when_all_vertices_on_line": (Status, (_mesh, c_uint32, c_uint32, _uint32)),
    "dcel_create_single_face_between_edge_and_next": (Status, (_mesh, c_uint32, _uint32)),
    "dcel_create_new_face_adjacent_to_edge": (Status, (_mesh, c_uint32, c_uint32)),
    "dcel_insert_into_triangle": (Status, (_mesh, c_uint32, c_uint32)),
    "dcel_split_half_edge": (Status, (_mesh, c_uint32, c_uint32, _uint32)),
    "dcel_split_edge": (Status, (_mesh, c_uint32, c_uint32, _uint32)),
    "dcel_flip_cw": (Status, (_mesh, c_uint32)),
    "dcel_swap_vertices": (Status, (_mesh, c_uint32, c_uint32)),
    "dcel_legalize_by_number": (Status, (_mesh, c_uint64, _uint32, c_size_t, _legalized)),
    "dcel_insert_vertex": (Status, (_mesh, c_uint32, c_uint64, _uint32)),
    "dcel_remove_vertex": (Status, (_mesh, c_uint32, _removed)),
    "dcel_collapse_edge": (Status, (_mesh, c_uint32, _removed)),
    "dcel_can_collapse_edge": (c_bool, (_mesh, c_uint32)),
    "dcel_apply_all": (Status, (_mesh, _edit, c_size_t, _reply, c_size_t)),
    "dcel_isolate_vertex_and_fill_hole": (Status, (_mesh, _uint32, c_size_t, c_uint32, _uint32, c_size_t, _uint32, c_size_t, _opened)),
    "dcel_remesh_edge_ring": (Status, (_mesh, _uint32, c_size_t, _uint32, c_size_t, _uint32, c_size_t, _opened)),
    "dcel_disconnect_edge_strip": (Status, (_mesh, _uint32, c_size_t, _uint32, c_size_t, _uint32, c_size_t, _opened)),
    "dcel_cleanup_isolated_vertex": (Status, (_mesh, _uint32, c_size_t, _uint32, c_size_t)),
    "dcel_swap_remove_vertex": (Status, (_mesh, c_uint32, _removed)),
    "dcel_remove_when_degenerate": (Status, (_mesh, c_uint32, _removed)),
    "dcel_removal_state": (c_uint32, (_mesh,)),
    "dcel_is_live_vertex": (c_bool, (_mesh, c_uint32)),
    "dcel_is_live_edge": (c_bool, (_mesh, c_uint32)),
    "dcel_is_live_face": (c_bool, (_mesh, c_uint32)),
    "dcel_is_unconnected": (c_bool, (_mesh, c_uint32)),
    "dcel_is_line_end": (c_bool, (_mesh, c_uint32)),
    "dcel_is_triangle": (c_bool, (_mesh, c_uint32)),
    "dcel_is_bridge": (c_bool, (_mesh, c_uint32)),
    "dcel_has_room": (c_bool, (_mesh, c_uint64, c_uint64, c_uint64)),
    "dcel_sanity_check": (c_bool, (_mesh,)),
    "dcel_can_setup_initial_two_vertices": (c_bool, (_mesh, c_uint32, c_uint32)),
    "dcel_can_extend_line": (c_bool, (_mesh, c_uint32, c_uint32)),
    "dcel_can_split_edge_when_all_vertices_on_line": (c_bool, (_mesh, c_uint32, c_uint32)),
    "dcel_can_close_outside": (c_bool, (_mesh, c_uint32)),
    "dcel_can_create_new_face_adjacent_to_edge": (c_bool, (_mesh, c_uint32, c_uint32)),
    "dcel_can_insert_into_triangle": (c_bool, (_mesh, c_uint32, c_uint32)),
    "dcel_can_split_half_edge": (c_bool, (_mesh, c_uint32, c_uint32)),
    "dcel_can_split_edge": (c_bool, (_mesh, c_uint32, c_uint32)),
    "dcel_can_flip": (c_bool, (_mesh, c_uint32)),
    "dcel_can_swap_remove": (c_bool, (_mesh, c_uint32)),
    "dcel_can_remove_degenerate": (c_bool, (_mesh, c_uint32)),
    "dcel_is_border_loop": (Status, (_mesh, _uint32, c_size_t, c_uint32, _bool)),
    "dcel_is_ring": (Status, (_mesh, _uint32, c_size_t, _uint32, c_size_t, _uint32, c_size_t, _bool)),
    "dcel_is_edge_strip": (Status, (_mesh, _uint32, c_size_t, _bool)),
    "dcel_is_listed": (Status, (_mesh, _uint32, c_size_t, _uint32, c_size_t, _bool)),
    "dcel_can_isolate_vertex_and_fill_hole": (Status, (_mesh, _uint32, c_size_t, c_uint32, _bool)),
    "dcel_can_remesh_edge_ring": (Status, (_mesh, _uint32, c_size_t, _uint32, c_size_t, _uint32, c_size_t, _bool)),
    "dcel_can_disconnect_edge_strip": (Status, (_mesh, _uint32, c_size_t, _bool)),
    "dcel_replies": (Status, (_uint8, c_size_t, _uint8, c_size_t, _uint64)),
    "dcel_triangulate": (Status, (_point, c_size_t, _triangle, c_size_t, _uint64, _uint64)),
    "dcel_triangulation_new": (Status, (_triangulation,)),
    "dcel_triangulation_free": (None, (_triangulation,)),
    "dcel_triangulation_clone": (Status, (_triangulation, _triangulation)),
    "dcel_triangulation_num_vertices": (c_uint64, (_triangulation,)),
    "dcel_triangulation_num_edges": (c_uint64, (_triangulation,)),
    "dcel_triangulation_num_triangles": (c_uint64, (_triangulation,)),
    "dcel_triangulation_is_whole": (c_bool, (_triangulation,)),
    "dcel_triangulation_finish": (Status, (_triangulation,)),
    "dcel_triangulation_insert": (Status, (_triangulation, Point, _uint32)),
    "dcel_triangulation_insert_with_hint": (Status, (_triangulation, Point, c_uint32, _uint32)),
    "dcel_triangulation_insert_all": (Status, (_triangulation, _point, c_size_t, _uint32, c_size_t, _uint64)),
    "dcel_triangulation_remove": (Status, (_triangulation, c_uint32, _uint64)),
    "dcel_triangulation_points": (Status, (_triangulation, _point, c_size_t, _uint64)),
    "dcel_triangulation_triangles": (Status, (_triangulation, _triangle, c_size_t, _uint64)),
    "dcel_triangulation_neighbors": (Status, (_triangulation, _across, c_size_t, _uint64)),
    "dcel_triangulation_edges": (Status, (_triangulation, _ends, c_size_t, _uint64)),
    "dcel_triangulation_hull": (Status, (_triangulation, _uint32, c_size_t, _uint64)),
    "dcel_triangulation_directed_edges": (Status, (_triangulation, _half_edge, c_size_t, _uint64)),
    "dcel_triangulation_locate": (Status, (_triangulation, Point, _position)),
    "dcel_triangulation_locate_with_hint": (Status, (_triangulation, Point, c_uint32, _position)),
    "dcel_triangulation_locate_all": (Status, (_triangulation, _point, c_size_t, _position, c_size_t, _uint64)),
    "dcel_triangulation_nearest": (Status, (_triangulation, Point, _uint32)),
    "dcel_triangulation_nearest_all": (Status, (_triangulation, _point, c_size_t, _uint32, c_size_t, _uint64)),
    "dcel_constrained_new": (Status, (_constrained,)),
    "dcel_constrained_free": (None, (_constrained,)),
    "dcel_constrained_clone": (Status, (_constrained, _constrained)),
    "dcel_constrained_from_triangulation": (Status, (_triangulation, _constrained)),
    "dcel_constrained_bulk_load": (Status, (_constrained, _point, c_size_t, _ends, c_size_t, _uint32, c_size_t, _uint64)),
    "dcel_constrained_num_vertices": (c_uint64, (_constrained,)),
    "dcel_constrained_num_edges": (c_uint64, (_constrained,)),
    "dcel_constrained_num_triangles": (c_uint64, (_constrained,)),
    "dcel_constrained_num_constraints": (c_uint64, (_constrained,)),
    "dcel_constrained_is_whole": (c_bool, (_constrained,)),
    "dcel_constrained_finish": (Status, (_constrained,)),
    "dcel_constrained_insert": (Status, (_constrained, Point, _uint32)),
    "dcel_constrained_insert_all": (Status, (_constrained, _point, c_size_t, _uint32, c_size_t, _uint64)),
    "dcel_constrained_remove": (Status, (_constrained, c_uint32, _uint64)),
    "dcel_constrained_locate": (Status, (_constrained, Point, _position)),
    "dcel_constrained_locate_all": (Status, (_constrained, _point, c_size_t, _position, c_size_t, _uint64)),
    "dcel_constrained_can_add_constraint": (Status, (_constrained, c_uint32, c_uint32, _bool)),
    "dcel_constrained_add_constraint": (Status, (_constrained, c_uint32, c_uint32, _bool)),
    "dcel_constrained_add_constraints": (Status, (_constrained, _ends, c_size_t, _uint64)),
    "dcel_constrained_remove_constraint": (Status, (_constrained, c_uint32, _bool)),
    "dcel_constrained_is_constraint": (c_bool, (_constrained, c_uint32)),
    "dcel_constrained_exists_constraint": (c_bool, (_constrained, c_uint32, c_uint32)),
    "dcel_constrained_points": (Status, (_constrained, _point, c_size_t, _uint64)),
    "dcel_constrained_triangles": (Status, (_constrained, _triangle, c_size_t, _uint64)),
    "dcel_constrained_neighbors": (Status, (_constrained, _across, c_size_t, _uint64)),
    "dcel_constrained_edges": (Status, (_constrained, _ends, c_size_t, _uint64)),
    "dcel_constrained_hull": (Status, (_constrained, _uint32, c_size_t, _uint64)),
    "dcel_constrained_directed_edges": (Status, (_constrained, _half_edge, c_size_t, _uint64)),
    "dcel_constrained_constraints": (Status, (_constrained, _ends, c_size_t, _uint64)),
    "dcel_constrained_regions": (Status, (_constrained, _uint32, c_size_t, _uint64)),
    "dcel_constrained_refine": (Status, (_constrained, _refinement, _uint64, _uint64, _bool)),
}
