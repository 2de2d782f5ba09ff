"""A mesh, with a method for each call of dcel.h."""

from __future__ import annotations

from array import array
from collections.abc import Callable, Iterable
from ctypes import c_bool, c_uint32, c_uint64
from operator import index
from typing import Any, NamedTuple, NoReturn, Self

from . import _declared
from ._arrays import corners_of, flat, in_rows, listed, number, numbers, shaped, start_of, wide, zeros
from ._calls import library
from ._declared import NO_LINK, NONE, Ended, RemovalState, Status
from ._errors import Short, refused


class HalfEdge(NamedTuple):
    """The links of a half edge. It ends where its other half starts."""

    next: int
    prev: int
    origin: int
    face: int


class Legalized(NamedTuple):
    """How many edges were flipped, and how that ended."""

    flips: int
    ended: Ended


class Opened(NamedTuple):
    """What a removal has given up, and the edges that it has added."""

    edges: array[int]
    faces: array[int]
    new_edges: range


class Removed(NamedTuple):
    """The datum of a vertex that was taken out, and the old number of the vertex that has its number now, if one does."""

    datum: int
    moved: int | None


class Links:
    """The links of all half edges at one time, in columns: `links.next[h]` is the half edge after h.

    The columns are memoryviews of 32-bit numbers, which NumPy takes without a copy: `numpy.asarray(links.next)`. They lie in `flat`, an
    array with the next, prev, origin and face of each half edge in turn. Each is NO_LINK for a half edge that isn't live. The links stay
    as they were when the mesh changes."""

    __slots__ = ("face", "flat", "next", "origin", "prev")

    flat: array[int]
    next: memoryview
    prev: memoryview
    origin: memoryview
    face: memoryview

    def __init__(self, flat: array[int]) -> None:
        view = memoryview(flat)
        self.flat = flat
        self.next, self.prev, self.origin, self.face = (view[column::4] for column in range(4))

    def __len__(self) -> int:
        """How many half edges there are."""
        return len(self.next)

    def __repr__(self) -> str:
        return f"<Links: {len(self)} half edges>"

    @property
    def to(self) -> array[int]:
        """Where each half edge leads: where its other half starts, or NO_LINK if it isn't live. An array of its own."""
        ends = zeros(len(self))
        ends[::2], ends[1::2] = array("I", self.origin[1::2].tobytes()), array("I", self.origin[::2].tobytes())
        return ends

    def __getitem__(self, edge: int) -> HalfEdge:
        edge = index(edge)
        return HalfEdge(self.next[edge], self.prev[edge], self.origin[edge], self.face[edge])


class Dcel:
    """A half-edge mesh on the sphere. A new one is the outer face alone.

    Vertices, undirected edges and faces are numbers from 0 on, by kind. Half edges `2 * u` and `2 * u + 1` are the halves of edge u, and
    go opposite ways. Face 0 is the outer face. Vertices, half edges, edges and faces have a datum each, from 0 to 2**64 - 1. What a
    removal has given up is still counted, but not live, until it is taken out.

    A call that isn't allowed raises the DcelError that says why, and leaves the mesh as it was. An element may be any number from 0 to
    2**32 - 1; others raise OverflowError, before the mesh is asked. Lists may be any iterable of numbers; those of an array of 32-bit
    numbers (`array("I")`, a memoryview, NumPy's uint32) are taken as they lie.

    The memory of a mesh goes back with `close`, at the end of a `with`, or with the last reference. A closed mesh raises NoMesh.
    Threads may share a mesh: one call works at a time. No call may come from the child of a fork in a program with threads.

    >>> with Dcel() as mesh:
    ...     mesh.new_triangle(7, 8, 9)
    ...     mesh.insert_into_triangle(mesh.append_unconnected_vertex(10), 1)
    ...     mesh
    ...     list(mesh.out_edges(3))
    <Dcel: 4 vertices, 6 edges, 4 faces>
    [7, 9, 11]
    """

    __slots__ = ("__weakref__", "_mesh")

    _free = library.dcel_free
    _mesh: _declared.Mesh

    def __new__(cls, *given: Any, **named: Any) -> Self:
        self = super().__new__(cls)
        self._mesh = _declared.Mesh()
        return self

    def __init__(self) -> None:
        library.dcel_new(self._mesh)

    # Meshes from elsewhere.

    @classmethod
    def from_links(cls, links: Links | Iterable[int], vertices: Iterable[int], faces: Iterable[int]) -> Self:
        """The mesh with these links, and these data of its vertices and faces, face 0 first. Raises Faulty, OutOfMemory.

        Links are those of `directed_edges`, or the next, prev, origin and face of each half edge in turn, also in an array of shape (m, 4);
        prev isn't read. Each vertex and each face is anchored at its half edge with the greatest number. If no mesh has these links, the
        `fault` of the error says why."""
        row = numbers(links.flat if isinstance(links, Links) else flat(links, 4))
        if len(row) % 4:
            raise ValueError("a half edge has four links")
        made, fault = cls.__new__(cls), _declared.Fault()
        data = (*listed(numbers(vertices, "Q"), c_uint64), *listed(numbers(faces, "Q"), c_uint64))
        library.dcel_from_links(made._mesh, start_of(row, _declared.HalfEdge), len(row) // 4, *data, fault)
        return made

    @classmethod
    def from_faces(
        cls, vertices: Iterable[int], corners: Iterable[int] | Iterable[Iterable[int]], counts: Iterable[int] | None = None
    ) -> Self:
        """The mesh of these faces, with these data of its vertices. Raises Faulty, OutOfMemory.

        `corners` has the corners of each face, counterclockwise: an array of shape (m, 3) or (m, k), or an iterable of any rows. With
        `counts`, which says how many corners each face has, it has those of one face after the other in a row. They become faces from
        number 1 on, and face 0, the outer face, is what they leave: of a closed surface, leave one face out. If there is no such mesh,
        the `fault` of the error says why."""
        made, fault = cls.__new__(cls), _declared.Fault()
        data = listed(numbers(vertices, "Q"), c_uint64)
        row, lengths = corners_of(corners, counts)
        library.dcel_from_faces(made._mesh, *data, *listed(row), *listed(lengths), fault)
        return made

    @classmethod
    def from_triangles(cls, triangles: Iterable[Any], vertices: Iterable[int] | int | None = None) -> Self:
        """The mesh of these triangles, as `from_faces` makes it: an array of shape (m, 3), such as the `simplices` of a `Delaunay`, or any
        rows of three corners, counterclockwise. Raises Faulty, OutOfMemory; ValueError for a row that isn't three corners.

        `vertices` are the data of the vertices, or how many there are; None for as many as the corners have. Without data the datum of a
        vertex is its number."""
        row, lengths = corners_of(triangles, None)
        if any(length != 3 for length in lengths):
            place = next(it for it, length in enumerate(lengths) if length != 3)
            raise ValueError(f"triangles: row {place} has {lengths[place]} corners, and not 3")
        if vertices is None:
            vertices = max(row, default=-1) + 1
        data = vertices if isinstance(vertices, Iterable) else range(number(vertices))
        return cls.from_faces(data, row, lengths)

    # Whole meshes.

    def close(self) -> None:
        """Gives the memory back. Afterwards the mesh raises NoMesh; only `close` does nothing."""
        self._free(self._mesh)

    @property
    def closed(self) -> bool:
        """Whether the mesh was closed, by `close` or at the end of a `with`. It says nothing of its surface."""
        return not self._mesh.is_open

    def __enter__(self) -> Self:
        self.num_faces()  # which a closed one refuses
        return self

    def __exit__(self, *raised: object) -> None:
        self.close()

    def __del__(self) -> None:
        self._free(self._mesh)

    def __repr__(self) -> str:
        if self.closed:
            return "<Dcel: closed>"
        counts = f"{self.num_vertices()} vertices, {self.num_undirected_edges()} edges, {self.num_faces()} faces"
        is_open = self.removal_state() != RemovalState.CLOSED
        return f"<Dcel: {counts}{', a removal is open' if is_open else ''}>"

    def copy(self) -> Self:
        """An equal mesh of its own. Raises OutOfMemory."""
        made = Dcel.__new__(type(self))
        library.dcel_clone(self._mesh, made._mesh)
        return made

    __copy__ = copy

    def __deepcopy__(self, memo: object) -> Self:
        return self.copy()

    def __reduce__(self) -> NoReturn:
        raise TypeError("a Dcel can't be pickled")

    def clear(self) -> None:
        """Takes out all vertices, all edges and all inner faces, and closes a removal. The outer face keeps its datum."""
        library.dcel_clear(self._mesh)

    def reserve_capacity(self, vertices: int, undirected_edges: int, faces: int) -> None:
        """Makes room in memory for that many more elements. Raises NoRoom if there are no numbers for them, OutOfMemory."""
        library.dcel_reserve_capacity(self._mesh, wide(vertices), wide(undirected_edges), wide(faces))

    # Counts, with what a removal has given up.

    def num_vertices(self) -> int:
        """How many vertices there are."""
        return self._count(library.dcel_num_vertices)

    def num_directed_edges(self) -> int:
        """How many half edges there are."""
        return self._count(library.dcel_num_directed_edges)

    def num_undirected_edges(self) -> int:
        """How many edges there are."""
        return self._count(library.dcel_num_undirected_edges)

    def num_faces(self) -> int:
        """How many faces there are, with the outer one."""
        return self._count(library.dcel_num_faces)

    # Steps from a live half edge; from any other they raise NoSuchEdge or GivenUp.
    #
    #         apex            next  to -> apex
    #         /  \            prev  apex -> from
    #        /face\           rev   to -> from
    #    from ----> to        ccw   from -> apex, the other half of prev
    #        <----            cw    the half edge after rev on the face below
    #         rev

    def next(self, edge: int) -> int:
        """The half edge after this one on its face. Raises NoSuchEdge, GivenUp."""
        return self._step(library.dcel_next, edge)

    def prev(self, edge: int) -> int:
        """The half edge before this one on its face. Raises NoSuchEdge, GivenUp."""
        return self._step(library.dcel_prev, edge)

    def rev(self, edge: int) -> int:
        """The other half of its edge. Raises NoSuchEdge, GivenUp."""
        return self._step(library.dcel_rev, edge)

    def ccw(self, edge: int) -> int:
        """The next half edge that starts at the same vertex, counterclockwise. Raises NoSuchEdge, GivenUp."""
        return self._step(library.dcel_ccw, edge)

    def cw(self, edge: int) -> int:
        """The next half edge that starts at the same vertex, clockwise. Raises NoSuchEdge, GivenUp."""
        return self._step(library.dcel_cw, edge)

    def from_(self, edge: int) -> int:
        """The vertex that the half edge starts at. Raises NoSuchEdge, GivenUp."""
        return self._step(library.dcel_from, edge)

    def to(self, edge: int) -> int:
        """The vertex that the half edge leads to. Raises NoSuchEdge, GivenUp."""
        return self._step(library.dcel_to, edge)

    def face(self, edge: int) -> int:
        """The face on the left of the half edge. Raises NoSuchEdge, GivenUp."""
        return self._step(library.dcel_face, edge)

    # Anchors, where walks begin, and walks.

    def out_edge(self, vertex: int) -> int | None:
        """A half edge that starts at the vertex, or None if none does. Raises NoSuchVertex."""
        return self._find(library.dcel_out_edge, self.num_vertices, Status.NO_SUCH_VERTEX, vertex)

    def adjacent_edge(self, face: int) -> int | None:
        """A half edge on the face, or None if there is none. Raises NoSuchFace."""
        return self._find(library.dcel_adjacent_edge, self.num_faces, Status.NO_SUCH_FACE, face)

    def out_edges(self, vertex: int) -> array[int]:
        """The half edges that start at the vertex, by `ccw` from its anchor. Raises NoSuchVertex."""
        return self._walk(library.dcel_out_edges, vertex)

    def face_edges(self, face: int) -> array[int]:
        """The half edges on the face, by `next` from its anchor; those of face 0 are the hull. Raises NoSuchFace."""
        return self._walk(library.dcel_face_edges, face)

    def get_edge_from_neighbors(self, from_: int, to: int) -> int | None:
        """The first half edge of `out_edges` that leads to the other vertex, or None if none does. Raises NoSuchVertex."""
        return self._find(library.dcel_get_edge_from_neighbors, self.num_vertices, Status.NO_SUCH_VERTEX, from_, to)

    # Links.

    def directed_edge(self, edge: int) -> HalfEdge:
        """The links of a half edge. Raises NoSuchEdge, GivenUp."""
        links = _declared.HalfEdge()
        library.dcel_directed_edge(self._mesh, number(edge), links)
        if links.origin == NO_LINK:
            self._refuse_step(edge, library.dcel_directed_edge)
        return HalfEdge(links.next, links.prev, links.origin, links.face)

    def directed_edges(self) -> Links:
        """The links of all half edges: what a walk over many of them reads faster than it makes steps by calls."""
        needed = c_uint64()
        while True:
            flat = zeros(4 * self.num_directed_edges())
            try:
                library.dcel_directed_edges(self._mesh, start_of(flat, _declared.HalfEdge), len(flat) // 4, needed)
            except Short:  # another thread has added edges meanwhile
                continue
            del flat[4 * needed.value :]
            return Links(flat)

    # Data, of elements that are given up too. New half edges, edges and faces have datum 0.

    def vertex_data(self, vertex: int) -> int:
        """The datum of a vertex. Raises NoSuchVertex."""
        return self._datum(library.dcel_vertex_data, vertex)

    def directed_edge_data(self, edge: int) -> int:
        """The datum of a half edge. Raises NoSuchEdge."""
        return self._datum(library.dcel_directed_edge_data, edge)

    def undirected_edge_data(self, edge: int) -> int:
        """The datum of an edge. Raises NoSuchEdge."""
        return self._datum(library.dcel_undirected_edge_data, edge)

    def face_data(self, face: int) -> int:
        """The datum of a face. Raises NoSuchFace."""
        return self._datum(library.dcel_face_data, face)

    def update_vertex(self, vertex: int, datum: int) -> None:
        """Replaces the datum of a vertex. Raises NoSuchVertex."""
        library.dcel_update_vertex(self._mesh, number(vertex), wide(datum))

    def update_directed_edge(self, edge: int, datum: int) -> None:
        """Replaces the datum of a half edge. Raises NoSuchEdge."""
        library.dcel_update_directed_edge(self._mesh, number(edge), wide(datum))

    def update_undirected_edge(self, edge: int, datum: int) -> None:
        """Replaces the datum of an edge. Raises NoSuchEdge."""
        library.dcel_update_undirected_edge(self._mesh, number(edge), wide(datum))

    def update_face(self, face: int, datum: int) -> None:
        """Replaces the datum of a face. Raises NoSuchFace."""
        library.dcel_update_face(self._mesh, number(face), wide(datum))

    # Edits. docs/PICTURES.md draws most, and docs/MODEL.md says what each leaves.

    def append_unconnected_vertex(self, datum: int) -> int:
        """Adds a vertex without an edge, and returns its number. Raises NoRoom, OutOfMemory."""
        return self._told(library.dcel_append_unconnected_vertex, wide(datum))

    def new_triangle(self, a: int, b: int, c: int) -> None:
        """Replaces the mesh by one triangle, counterclockwise, whose vertices 0, 1 and 2 have these data. Raises OutOfMemory."""
        library.dcel_new_triangle(self._mesh, wide(a), wide(b), wide(c))

    def setup_initial_two_vertices(self, first: int, second: int) -> None:
        """Makes the first edge, between two vertices. Raises NoSuchVertex, GivenUp, SameVertex, EdgesStand, NoRoom, OutOfMemory."""
        library.dcel_setup_initial_two_vertices(self._mesh, number(first), number(second))

    def extend_line(self, end: int, vertex: int) -> None:
        """Lengthens the line that ends at a vertex to another.

        Raises NoSuchVertex, GivenUp, SameVertex, VertexInUse, NotLineEnd, NoRoom, OutOfMemory."""
        library.dcel_extend_line(self._mesh, number(end), number(vertex))

    def split_edge_when_all_vertices_on_line(self, edge: int, vertex: int) -> int:
        """Puts the vertex into the middle of an edge with one face on both sides. The first part of the half edge keeps its number, and
        the second is returned.

        Raises NoSuchVertex, NoSuchEdge, GivenUp, VertexInUse, NotBridge, NoRoom, OutOfMemory."""
        return self._told(library.dcel_split_edge_when_all_vertices_on_line, number(edge), number(vertex))

    def create_single_face_between_edge_and_next(self, edge: int) -> int:
        """Closes a triangle of a half edge of the outer face and the next one, and returns the half of the new edge that lies outside.

        Raises NoSuchEdge, GivenUp, NotOuter, WouldLoop, NoRoom, OutOfMemory."""
        return self._told(library.dcel_create_single_face_between_edge_and_next, number(edge))

    def create_new_face_adjacent_to_edge(self, edge: int, vertex: int) -> None:
        """Puts a triangle of the half edge and the vertex on the face of the half edge.

        Raises NoSuchVertex, NoSuchEdge, GivenUp, VertexInUse, NoRoom, OutOfMemory."""
        library.dcel_create_new_face_adjacent_to_edge(self._mesh, number(edge), number(vertex))

    def insert_into_triangle(self, vertex: int, face: int) -> None:
        """Cuts a triangle into three at the vertex.

        Raises NoSuchVertex, NoSuchFace, GivenUp, VertexInUse, NotTriangle, NoRoom, OutOfMemory."""
        library.dcel_insert_into_triangle(self._mesh, number(vertex), number(face))

    def split_half_edge(self, edge: int, vertex: int) -> int:
        """Puts the vertex into the middle of an edge, and joins it to the corner of the half edge's triangle. Returns the second part of
        the half edge.

        Raises NoSuchVertex, NoSuchEdge, GivenUp, VertexInUse, NotTriangle, NoRoom, OutOfMemory."""
        return self._told(library.dcel_split_half_edge, number(edge), number(vertex))

    def split_edge(self, edge: int, vertex: int) -> int:
        """Puts the vertex into the middle of an edge, and joins it to the corners of the triangles on both sides. Returns the second part
        of the half edge.

        Raises NoSuchVertex, NoSuchEdge, GivenUp, VertexInUse, NotTriangle, NoRoom, OutOfMemory."""
        return self._told(library.dcel_split_edge, number(edge), number(vertex))

    def flip_cw(self, undirected_edge: int) -> None:
        """Turns an edge between two triangles clockwise, so that it joins their other corners.

        Raises NoSuchEdge, GivenUp, NotTriangle, WouldLoop."""
        library.dcel_flip_cw(self._mesh, number(undirected_edge))

    def swap_vertices(self, first: int, second: int) -> None:
        """Exchanges two vertices, with their data. Raises NoSuchVertex, GivenUp."""
        library.dcel_swap_vertices(self._mesh, number(first), number(second))

    def legalize_by_number(self, max_flips: int, edges: Iterable[int]) -> Legalized:
        """Takes these edges from the last on, and after each flip first those beside it. It flips one that can be flipped and whose
        lesser opposite corner is below its lesser end. What was flipped stays so, however it ends. Other threads wait meanwhile.

        Raises NoSuchEdge, and OutOfMemory if the list finds no memory at all."""
        legalized = _declared.Legalized()
        library.dcel_legalize_by_number(self._mesh, wide(max_flips), *listed(numbers(edges)), legalized)
        return Legalized(legalized.flips, Ended(legalized.ended))

    # Edits that are several of these calls.

    def insert_vertex(self, face: int, datum: int) -> int:
        """Appends a vertex with this datum, inserts it into an inner triangle, and returns its number.

        Raises RemovalOpen, NotTriangle (also where there is no such inner face), NoRoom, OutOfMemory."""
        return self._told(library.dcel_insert_vertex, number(face), wide(datum))

    def remove_vertex(self, vertex: int) -> Removed:
        """Removes a vertex wherever it is, with its edges, and fills the hole if it is inside triangles. No new edge joins two vertices that
        an edge joins already. The last vertex, edges and faces get the free numbers.

        Raises NoSuchVertex, RemovalOpen, NotTriangle if a face at the vertex isn't one, CutVertex, ShortBorder, SecondEdge, NoRoom,
        OutOfMemory."""
        return self._removed(library.dcel_remove_vertex, vertex)

    def collapse_edge(self, edge: int) -> Removed:
        """Collapses an edge: removes the vertex where the half edge starts, and joins what met it to the vertex where the half edge ends.

        Raises RemovalOpen, NotInside (also where there is no such half edge), SecondEdge, NoRoom, OutOfMemory."""
        return self._removed(library.dcel_collapse_edge, edge)

    def can_collapse_edge(self, edge: int) -> bool:
        """Whether `collapse_edge` is allowed."""
        return self._holds(library.dcel_can_collapse_edge, number(edge))

    def apply_all(self, edits: Iterable[Any]) -> Any:
        """Makes edits, one after the other, by one call, and returns what each returned.

        `edits` is an array of shape (k, 4), or rows of up to four numbers: a `Call`, and the numbers that it takes. The result has the
        shape (k, 3): a `Status`, 0 for an edit that is made; the number that the call returns, the vertex that `extend_line`,
        `create_new_face_adjacent_to_edge` or `insert_into_triangle` joins to the others, or the datum of a vertex that is taken out; and
        the old number of the vertex that has its number now. It has `NONE` where there is none. It is an array of NumPy's if that is
        installed, and otherwise a memoryview. An edit that is refused changes nothing, and the next follows.

        >>> from dcel import Call
        >>> mesh = Dcel()
        >>> mesh.apply_all([(Call.NEW_TRIANGLE, 7, 8, 9), (Call.APPEND_UNCONNECTED_VERTEX, 10), (Call.INSERT_INTO_TRIANGLE, 3, 1)]).tolist()
        [[0, 18446744073709551615, 18446744073709551615], [0, 3, 18446744073709551615], [0, 3, 18446744073709551615]]
        """
        given = in_rows(edits, 4)
        replies = array("Q", bytes(24 * (len(given) // 4)))
        edit_list = start_of(given, _declared.Edit), len(given) // 4
        library.dcel_apply_all(self._mesh, *edit_list, start_of(replies, _declared.Reply), len(replies) // 3)
        return shaped(replies, 3, "Q")

    # Removals: one is opened, cleaned up, and closed by taking the vertex out.

    def isolate_vertex_and_fill_hole(self, border_loop: Iterable[int], vertex: int) -> Opened:
        """Gives up the vertex, whose border loop these half edges are, with its edges and the triangles round it, and fills the hole.

        Raises NoSuchVertex, NoSuchEdge, RemovalOpen, BadRing, NoRoom, OutOfMemory."""
        border = numbers(border_loop)
        edges, faces = zeros(len(border)), zeros(len(border))
        return self._opened(library.dcel_isolate_vertex_and_fill_hole, (*listed(border), number(vertex)), edges, faces)

    def remesh_edge_ring(self, border_loop: Iterable[int], edges: Iterable[int], faces: Iterable[int]) -> Opened:
        """Gives up these edges and faces, with one vertex or none, inside the ring of the half edges, and fills the hole. In the worst
        case the time is quadratic in the length of the ring.

        Raises NoSuchEdge, NoSuchFace, RemovalOpen, BadRing, NoRoom, OutOfMemory."""
        inside = array("I", numbers(edges)), array("I", numbers(faces))
        return self._opened(library.dcel_remesh_edge_ring, listed(numbers(border_loop)), *inside)

    def disconnect_edge_strip(self, strip: Iterable[int]) -> Opened:
        """Cuts off the vertex of the outer face whose strip the half edges are, and gives it up with its edges and the triangles round it.

        Raises NoSuchEdge, RemovalOpen, BadStrip, OutOfMemory."""
        given = numbers(strip)
        return self._opened(library.dcel_disconnect_edge_strip, listed(given), zeros(len(given)), zeros(len(given)))

    def cleanup_isolated_vertex(self, edges: Iterable[int], faces: Iterable[int]) -> None:
        """Takes out what the open removal has given up, which the lists name in any order: the last edges and faces get the free numbers.
        It closes a removal that has given up no vertex.

        Raises NoSuchEdge, NoSuchFace, NoRemoval, WrongLists, OutOfMemory."""
        library.dcel_cleanup_isolated_vertex(self._mesh, *listed(numbers(edges)), *listed(numbers(faces)))

    def swap_remove_vertex(self, vertex: int) -> Removed:
        """Takes out a vertex that has no edge, or was given up by a removal that is cleaned up, and closes that. The last vertex gets its
        number.

        Raises NoSuchVertex, RemovalOpen, VertexInUse."""
        return self._removed(library.dcel_swap_remove_vertex, vertex)

    def remove_when_degenerate(self, vertex: int) -> Removed:
        """Takes a vertex out of a mesh that is one vertex or a path, with an edge if it has one. The last vertex and the last edge get the
        free numbers.

        Raises NoSuchVertex, RemovalOpen, NotPath."""
        return self._removed(library.dcel_remove_when_degenerate, vertex)

    def removal_state(self) -> RemovalState:
        """How far a removal has come."""
        return RemovalState(self._count(library.dcel_removal_state))

    # Tests. Any numbers of so many bits may be given.

    def is_live_vertex(self, vertex: int) -> bool:
        """There is such a vertex, and no removal has given it up."""
        return self._holds(library.dcel_is_live_vertex, number(vertex))

    def is_live_edge(self, undirected_edge: int) -> bool:
        """There is such an edge, and no removal has given it up."""
        return self._holds(library.dcel_is_live_edge, number(undirected_edge))

    def is_live_face(self, face: int) -> bool:
        """There is such a face, and no removal has given it up."""
        return self._holds(library.dcel_is_live_face, number(face))

    def is_unconnected(self, vertex: int) -> bool:
        """The vertex is live, and no half edge starts there."""
        return self._holds(library.dcel_is_unconnected, number(vertex))

    def is_line_end(self, vertex: int) -> bool:
        """The vertex is live, and exactly one half edge starts there."""
        return self._holds(library.dcel_is_line_end, number(vertex))

    def is_triangle(self, face: int) -> bool:
        """The face is live and has three half edges."""
        return self._holds(library.dcel_is_triangle, number(face))

    def is_bridge(self, edge: int) -> bool:
        """The half edge is live, and both halves of its edge lie on one face."""
        return self._holds(library.dcel_is_bridge, number(edge))

    def has_room(self, vertices: int, undirected_edges: int, faces: int) -> bool:
        """There are numbers left for that many more elements: up to 2**32 vertices and faces, 2**31 edges."""
        return self._holds(library.dcel_has_room, wide(vertices), wide(undirected_edges), wide(faces))

    def sanity_check(self) -> bool:
        """The mesh looks triangulated: as sanity_check of spade."""
        return self._holds(library.dcel_sanity_check)

    # All that the edit asks is so, but that there is room and memory.

    def can_setup_initial_two_vertices(self, first: int, second: int) -> bool:
        """Whether `setup_initial_two_vertices` is allowed."""
        return self._holds(library.dcel_can_setup_initial_two_vertices, number(first), number(second))

    def can_extend_line(self, end: int, vertex: int) -> bool:
        """Whether `extend_line` is allowed."""
        return self._holds(library.dcel_can_extend_line, number(end), number(vertex))

    def can_split_edge_when_all_vertices_on_line(self, edge: int, vertex: int) -> bool:
        """Whether `split_edge_when_all_vertices_on_line` is allowed."""
        return self._holds(library.dcel_can_split_edge_when_all_vertices_on_line, number(edge), number(vertex))

    def can_close_outside(self, edge: int) -> bool:
        """Whether `create_single_face_between_edge_and_next` is allowed."""
        return self._holds(library.dcel_can_close_outside, number(edge))

    def can_create_new_face_adjacent_to_edge(self, edge: int, vertex: int) -> bool:
        """Whether `create_new_face_adjacent_to_edge` is allowed."""
        return self._holds(library.dcel_can_create_new_face_adjacent_to_edge, number(edge), number(vertex))

    def can_insert_into_triangle(self, vertex: int, face: int) -> bool:
        """Whether `insert_into_triangle` is allowed."""
        return self._holds(library.dcel_can_insert_into_triangle, number(vertex), number(face))

    def can_split_half_edge(self, edge: int, vertex: int) -> bool:
        """Whether `split_half_edge` is allowed."""
        return self._holds(library.dcel_can_split_half_edge, number(edge), number(vertex))

    def can_split_edge(self, edge: int, vertex: int) -> bool:
        """Whether `split_edge` is allowed."""
        return self._holds(library.dcel_can_split_edge, number(edge), number(vertex))

    def can_flip(self, undirected_edge: int) -> bool:
        """Whether `flip_cw` is allowed."""
        return self._holds(library.dcel_can_flip, number(undirected_edge))

    def can_swap_remove(self, vertex: int) -> bool:
        """Whether `swap_remove_vertex` is allowed."""
        return self._holds(library.dcel_can_swap_remove, number(vertex))

    def can_remove_degenerate(self, vertex: int) -> bool:
        """Whether `remove_when_degenerate` is allowed."""
        return self._holds(library.dcel_can_remove_degenerate, number(vertex))

    # Tests of lists, which need memory for these: they raise OutOfMemory.

    def is_border_loop(self, border_loop: Iterable[int], vertex: int) -> bool:
        """The list is the border loop of the vertex: read from its end, what comes after its out edges by `ccw`."""
        return self._answer(library.dcel_is_border_loop, [border_loop], number(vertex))

    def is_ring(self, border_loop: Iterable[int], edges: Iterable[int], faces: Iterable[int]) -> bool:
        """The list is the ring of one vertex or of a region, with these edges and faces inside. In the worst case the time is quadratic in
        the length of the ring."""
        return self._answer(library.dcel_is_ring, [border_loop, edges, faces])

    def is_edge_strip(self, strip: Iterable[int]) -> bool:
        """The list is the strip of a vertex of the outer face."""
        return self._answer(library.dcel_is_edge_strip, [strip])

    def is_listed(self, edges: Iterable[int], faces: Iterable[int]) -> bool:
        """The lists name what an open removal has given up."""
        return self._answer(library.dcel_is_listed, [edges, faces])

    def can_isolate_vertex_and_fill_hole(self, border_loop: Iterable[int], vertex: int) -> bool:
        """Whether `isolate_vertex_and_fill_hole` is allowed."""
        return self._answer(library.dcel_can_isolate_vertex_and_fill_hole, [border_loop], number(vertex))

    def can_remesh_edge_ring(self, border_loop: Iterable[int], edges: Iterable[int], faces: Iterable[int]) -> bool:
        """Whether `remesh_edge_ring` is allowed. It takes as long as `is_ring`."""
        return self._answer(library.dcel_can_remesh_edge_ring, [border_loop, edges, faces])

    def can_disconnect_edge_strip(self, strip: Iterable[int]) -> bool:
        """Whether `disconnect_edge_strip` is allowed."""
        return self._answer(library.dcel_can_disconnect_edge_strip, [strip])

    # What the methods above share.

    def _must_be_open(self, call: Any) -> None:
        if not self._mesh.is_open:
            raise refused(Status.NO_MESH, call)

    def _count(self, call: Any) -> int:
        count: int = call(self._mesh)
        if not count:
            self._must_be_open(call)
        return count

    def _holds(self, test: Any, *given: int) -> bool:
        holds: bool = test(self._mesh, *given)
        if not holds:
            self._must_be_open(test)
        return holds

    def _step(self, step: Any, edge: int) -> int:
        found: int = step(self._mesh, number(edge))
        if found == NONE:
            self._refuse_step(edge, step)
        return found

    def _refuse_step(self, edge: int, step: Any) -> NoReturn:
        """Raises why a half edge isn't live."""
        self._must_be_open(step)
        raise refused(Status.GIVEN_UP if edge < self.num_directed_edges() else Status.NO_SUCH_EDGE, step)

    def _find(self, call: Any, count: Callable[[], int], status: Status, *elements: int) -> int | None:
        """What a call finds, which is NONE also where an element that it is given isn't there."""
        found: int = call(self._mesh, *map(number, elements))
        if found != NONE:
            return found
        if max(elements) >= count():
            raise refused(status, call)
        return None

    def _walk(self, walk: Any, start: int) -> array[int]:
        found, needed = zeros(8), c_uint64()
        while True:
            try:
                walk(self._mesh, number(start), *listed(found), needed)
            except Short:
                found = zeros(needed.value)
                continue
            del found[needed.value :]
            return found

    def _datum(self, call: Any, element: int) -> int:
        datum = c_uint64()
        call(self._mesh, number(element), datum)
        return datum.value

    def _told(self, edit: Any, *given: int) -> int:
        told = c_uint32()
        edit(self._mesh, *given, told)
        return told.value

    def _removed(self, removal: Any, vertex: int) -> Removed:
        removed = _declared.Removed()
        removal(self._mesh, number(vertex), removed)
        return Removed(removed.datum, None if removed.moved == NONE else removed.moved)

    def _answer(self, test: Any, lists: Iterable[Iterable[int]], *given: int) -> bool:
        answer = c_bool()
        test(self._mesh, *(word for it in lists for word in listed(numbers(it))), *given, answer)
        return answer.value

    def _opened(self, opener: Any, words: tuple[Any, ...], edges: array[int], faces: array[int]) -> Opened:
        """What a removal has given up: what stands in these lists, or is put there."""
        opened = _declared.Opened()
        opener(self._mesh, *words, *listed(edges), *listed(faces), opened)
        del edges[opened.edges :], faces[opened.faces :]
        first = opened.smallest_new_edge
        return Opened(edges, faces, range(first, first + opened.new_edges))
