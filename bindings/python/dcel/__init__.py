"""A half-edge mesh on the sphere, and a Delaunay triangulation of points, over a library in which every call is proved.

`Dcel` is the mesh, `Delaunay` the triangulation, and `ConstrainedDelaunay` one with edges that stay; `triangulate_polygon` makes triangles
of a polygon, and `replies` answers lines. Each way in which a call can be refused is an error of its own, under `DcelError`."""

from ._constrained import ConstrainedDelaunay
from ._declared import NO_LINK, Call, Ended, FaultKind, Place, RemovalState, Status
from ._declared import VERSION as __version__
from ._delaunay import Delaunay
from ._errors import (
    BadRing,
    BadStrip,
    Busy,
    Crosses,
    CutVertex,
    DcelError,
    EdgesStand,
    Fault,
    Faulty,
    GivenUp,
    Inexact,
    NoMesh,
    NoRemoval,
    NoRoom,
    NoSuchEdge,
    NoSuchEdit,
    NoSuchFace,
    NoSuchVertex,
    NotBridge,
    NotInside,
    NotLineEnd,
    NotOuter,
    NotPath,
    NotTriangle,
    OutOfMemory,
    OutOfRange,
    RemovalOpen,
    SameVertex,
    SecondEdge,
    Short,
    ShortBorder,
    Unfinished,
    VertexInUse,
    WouldLoop,
    WrongLists,
)
from ._grid import Grid
from ._lines import replies
from ._mesh import Dcel, HalfEdge, Legalized, Links, Opened, Removed
from ._polygon import triangulate_polygon
from ._refining import Refined

__all__ = [
    "NO_LINK", "BadRing", "BadStrip", "Busy", "Call", "ConstrainedDelaunay", "Crosses", "CutVertex", "Dcel", "DcelError", "Delaunay",
    "EdgesStand", "Ended", "Fault", "FaultKind", "Faulty", "GivenUp", "Grid", "HalfEdge", "Inexact", "Legalized", "Links", "NoMesh",
    "NoRemoval", "NoRoom", "NoSuchEdge", "NoSuchEdit", "NoSuchFace", "NoSuchVertex", "NotBridge", "NotInside", "NotLineEnd", "NotOuter",
    "NotPath", "NotTriangle", "Opened", "OutOfMemory", "OutOfRange", "Place", "Refined", "RemovalOpen", "RemovalState", "Removed",
    "SameVertex", "SecondEdge", "Short", "ShortBorder", "Status", "Unfinished", "VertexInUse", "WouldLoop", "WrongLists", "__version__",
    "replies", "triangulate_polygon",
]
