"""What calls on a mesh are refused as."""

from __future__ import annotations

from typing import Any, ClassVar, NamedTuple

from ._declared import FAULTS, FaultKind, Status


class Fault(NamedTuple):
    """What is wrong, and where; what the kind doesn't speak of is 0.

    With links, `number` is the half edge, the vertex, the face or the genus. With faces it is the place of the face, `other` that of the
    other face, and a side leads from `from_` to `to`."""

    kind: FaultKind
    number: int
    other: int
    from_: int
    to: int

    def __str__(self) -> str:
        """What is wrong, in words."""
        return FAULTS[self.kind].format(**self._asdict(), **{"from": self.from_})


# Where nothing is left for the outer face.
_CLOSED = Fault(FaultKind.UNUSED_FACE, 0, 0, 0, 0)


class DcelError(Exception):
    """A call was refused, and the mesh is as it was. `status` says why: the least of those that apply. None if the library wasn't asked."""

    status: ClassVar[Status | None] = None


class NoSuchVertex(DcelError, IndexError):
    """There is no such vertex."""

    status = Status.NO_SUCH_VERTEX


class NoSuchEdge(DcelError, IndexError):
    """There is no such edge or half edge."""

    status = Status.NO_SUCH_EDGE


class NoSuchFace(DcelError, IndexError):
    """There is no such face, or it is the outer one where an inner one is asked for."""

    status = Status.NO_SUCH_FACE


class RemovalOpen(DcelError, ValueError):
    """A removal is open."""

    status = Status.REMOVAL_OPEN


class NoRemoval(DcelError, ValueError):
    """No removal is open that is still to be cleaned up."""

    status = Status.NO_REMOVAL


class GivenUp(DcelError, ValueError):
    """A removal has given the element up."""

    status = Status.GIVEN_UP


class SameVertex(DcelError, ValueError):
    """The two vertices are one."""

    status = Status.SAME_VERTEX


class VertexInUse(DcelError, ValueError):
    """The vertex has an edge."""

    status = Status.VERTEX_IN_USE


class EdgesStand(DcelError, ValueError):
    """The mesh has an edge."""

    status = Status.EDGES_STAND


class NotLineEnd(DcelError, ValueError):
    """The vertex is no end of a line."""

    status = Status.NOT_LINE_END


class NotBridge(DcelError, ValueError):
    """The halves of the edge lie on two faces."""

    status = Status.NOT_BRIDGE


class NotOuter(DcelError, ValueError):
    """The half edge doesn't lie on the outer face."""

    status = Status.NOT_OUTER


class NotTriangle(DcelError, ValueError):
    """A face is no triangle."""

    status = Status.NOT_TRIANGLE


class WouldLoop(DcelError, ValueError):
    """An edge would join a vertex to itself."""

    status = Status.WOULD_LOOP


class BadRing(DcelError, ValueError):
    """The list is no border loop of the vertex, or no ring of what lies inside."""

    status = Status.BAD_RING


class BadStrip(DcelError, ValueError):
    """The list is no strip of a vertex."""

    status = Status.BAD_STRIP


class WrongLists(DcelError, ValueError):
    """The lists don't name what the open removal has given up."""

    status = Status.WRONG_LISTS


class NotPath(DcelError, ValueError):
    """The mesh is neither one vertex nor a path."""

    status = Status.NOT_PATH


class NoRoom(DcelError, ValueError):
    """There are no numbers left for the new elements."""

    status = Status.NO_ROOM


class OutOfMemory(DcelError, MemoryError):
    """There is no memory."""

    status = Status.OUT_OF_MEMORY


class NoMesh(DcelError, ValueError):
    """The mesh is closed."""

    status = Status.NO_MESH


class Short(DcelError, ValueError):
    """A buffer has too few places. The methods of a mesh make theirs long enough."""

    status = Status.SHORT


class Faulty(DcelError, ValueError):
    """No mesh is made of what is given."""

    status = Status.FAULTY
    fault: Fault  #: why not


class OutOfRange(DcelError, ValueError):
    """A coordinate is beyond 2**53 steps of the grid, or a whole number beyond 2**53."""

    status = Status.OUT_OF_RANGE
    row: int  #: of the first such point


class Inexact(DcelError, ValueError):
    """A point isn't on the grid."""

    row: int  #: of the first such point


class Busy(DcelError, RuntimeError):
    """A signal handler, a finalizer or an iterator can't use a triangulation that its thread is changing, nor change it within another call."""


class Unfinished(DcelError, MemoryError):
    """There was no memory to make the triangulation whole. The next call that changes it does so."""

    status = Status.UNFINISHED


class Crosses(DcelError, ValueError):
    """A segment would cross a constraint."""

    status = Status.CROSSES
    row: int  #: of the first such segment among those that were given
    pair: tuple[int, int]  #: the rows of the points that it joins


class NotInside(DcelError, ValueError):
    """The faces round the vertex aren't three inner triangles or more, which make a disc."""

    status = Status.NOT_INSIDE


class SecondEdge(DcelError, ValueError):
    """A second edge would join two vertices."""

    status = Status.SECOND_EDGE


class CutVertex(DcelError, ValueError):
    """The outer face meets the vertex twice."""

    status = Status.CUT_VERTEX


class ShortBorder(DcelError, ValueError):
    """The outer face has two half edges."""

    status = Status.SHORT_BORDER


class NoSuchEdit(DcelError, ValueError):
    """No call of an edit has this number. `apply_all` reports it as a status, and raises nothing."""

    status = Status.NO_SUCH_EDIT


ERRORS: dict[int, type[DcelError]] = {kind.status: kind for kind in DcelError.__subclasses__() if kind.status is not None}

for _kind in (DcelError, Inexact, Busy, *ERRORS.values()):
    _kind.__module__ = "dcel"  # where callers find it, and what they are shown


def refused(status: int, function: Any, given: Any = ()) -> DcelError:
    """The error of a status that a call of the library has returned. A fault is told in the last thing that the call was given."""
    kind, name = ERRORS[status], function.__name__.removeprefix("dcel_")
    if kind is not Faulty:
        return kind(f"{name}: {kind.__doc__}")
    told = given[-1]
    fault = Fault(FaultKind(told.kind), told.number, told.other, getattr(told, "from"), told.to)
    hint = "; of a closed surface leave one face out, to be the outer face" if name == "from_faces" and fault == _CLOSED else ""
    error = Faulty(f"{name}: No mesh is made of what is given: {fault}{hint} ({fault.kind.name}).")
    error.fault = fault
    return error
