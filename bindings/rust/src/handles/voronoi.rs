//! The Voronoi diagram: the dual of the mesh.
//!
//! Each half edge is dual to a Voronoi edge of the same number, each vertex to a Voronoi face, each
//! inner face to a Voronoi vertex. A Voronoi edge leads from the face of the half edge to the face
//! on its other side; instead of the outer face it has an end of its own.

use super::kinds::*;
use super::{
    DirectedEdgeHandle, DynamicHandleImpl, FaceHandle, FixedHandleImpl, UndirectedEdgeHandle,
    VertexHandle,
};
use crate::iterators::{CCWEdgesNextBackFn, CircularIterator};
use std::fmt;

/// A half edge of the Voronoi diagram.
pub type DirectedVoronoiEdge<'a, V, DE = (), UE = (), F = ()> =
    DynamicHandleImpl<'a, V, DE, UE, F, DirectedVoronoiEdgeTag, InnerTag>;

/// An edge of the Voronoi diagram.
pub type UndirectedVoronoiEdge<'a, V, DE = (), UE = (), F = ()> =
    DynamicHandleImpl<'a, V, DE, UE, F, UndirectedVoronoiEdgeTag, InnerTag>;

/// A face of the Voronoi diagram.
pub type VoronoiFace<'a, V, DE = (), UE = (), F = ()> =
    DynamicHandleImpl<'a, V, DE, UE, F, VoronoiFaceTag, PossiblyOuterTag>;

/// The half edges round a face of the Voronoi diagram.
pub type VoronoiFaceEdges<'a, V, DE = (), UE = (), F = ()> = std::iter::Map<
    CircularIterator<'a, V, DE, UE, F, CCWEdgesNextBackFn>,
    fn(DirectedEdgeHandle<'a, V, DE, UE, F>) -> DirectedVoronoiEdge<'a, V, DE, UE, F>,
>;

/// A vertex of the Voronoi diagram.
pub enum VoronoiVertex<'a, V, DE = (), UE = (), F = ()> {
    /// An inner face of the mesh.
    Inner(FaceHandle<'a, InnerTag, V, DE, UE, F>),

    /// The end of a Voronoi edge in the outer face: the one that starts there.
    Outer(DirectedVoronoiEdge<'a, V, DE, UE, F>),
}

impl<'a, V, DE, UE, F> VertexHandle<'a, V, DE, UE, F> {
    /// Returns the Voronoi face that is dual to the vertex.
    ///
    /// ```
    /// use dcel::{Dcel, operations::new_triangle};
    ///
    /// let dcel: Dcel<_> = new_triangle(['a', 'b', 'c'])?;
    /// let vertex = dcel.vertices().next().unwrap();
    /// assert_eq!(vertex.as_voronoi_face().as_delaunay_vertex(), vertex);
    /// # Ok::<(), dcel::Refusal>(())
    /// ```
    pub fn as_voronoi_face(&self) -> VoronoiFace<'a, V, DE, UE, F> {
        VoronoiFace::new(self.dcel, FixedHandleImpl::of(self.handle.number()))
    }
}

impl<'a, V, DE, UE, F> DirectedEdgeHandle<'a, V, DE, UE, F> {
    /// Returns the Voronoi edge that is dual to the half edge.
    ///
    /// ```
    /// use dcel::{Dcel, operations::new_triangle};
    ///
    /// let dcel: Dcel<_> = new_triangle(['a', 'b', 'c'])?;
    /// let edge = dcel.directed_edges().next().unwrap();
    /// assert_eq!(edge.as_voronoi_edge().as_delaunay_edge(), edge);
    /// # Ok::<(), dcel::Refusal>(())
    /// ```
    pub fn as_voronoi_edge(&self) -> DirectedVoronoiEdge<'a, V, DE, UE, F> {
        DirectedVoronoiEdge::new(self.dcel, FixedHandleImpl::of(self.handle.number()))
    }
}

impl<'a, V, DE, UE, F> UndirectedEdgeHandle<'a, V, DE, UE, F> {
    /// Returns the Voronoi edge that is dual to the edge.
    ///
    /// ```
    /// use dcel::{Dcel, operations::new_triangle};
    ///
    /// let dcel: Dcel<_> = new_triangle(['a', 'b', 'c'])?;
    /// let edge = dcel.undirected_edges().next().unwrap();
    /// assert_eq!(edge.as_voronoi_edge().as_delaunay_edge(), edge);
    /// # Ok::<(), dcel::Refusal>(())
    /// ```
    pub fn as_voronoi_edge(&self) -> UndirectedVoronoiEdge<'a, V, DE, UE, F> {
        UndirectedVoronoiEdge::new(self.dcel, FixedHandleImpl::of(self.handle.number()))
    }
}

/// The steps panic if the edge isn't live.
///
/// ```
/// use dcel::{Dcel, operations::new_triangle};
///
/// let dcel: Dcel<_> = new_triangle(['a', 'b', 'c'])?;
/// let edge = dcel.directed_edges().next().unwrap().as_voronoi_edge();
/// assert!(edge.from().as_delaunay_face().is_none());
/// assert_eq!(edge.to().as_delaunay_face().unwrap().index(), 1);
/// assert_eq!(edge.rev().to().out_edge(), edge);
/// assert_eq!((edge.next().index(), edge.prev().index()), (5, 5));
/// assert_eq!(edge.face().index(), 0);
/// assert_eq!(edge.as_undirected().as_directed(), edge);
/// # Ok::<(), dcel::Refusal>(())
/// ```
impl<'a, V, DE, UE, F> DirectedVoronoiEdge<'a, V, DE, UE, F> {
    /// Returns the Voronoi vertex where it starts.
    pub fn from(&self) -> VoronoiVertex<'a, V, DE, UE, F> {
        match self.as_delaunay_edge().face().as_inner() {
            Some(face) => VoronoiVertex::Inner(face),
            None => VoronoiVertex::Outer(*self),
        }
    }

    /// Returns the Voronoi vertex where it ends.
    pub fn to(&self) -> VoronoiVertex<'a, V, DE, UE, F> {
        self.rev().from()
    }

    /// Returns the Voronoi face that is dual to the vertex where the half edge starts.
    pub fn face(&self) -> VoronoiFace<'a, V, DE, UE, F> {
        self.as_delaunay_edge().from().as_voronoi_face()
    }

    /// Returns the other half of the edge.
    pub fn rev(&self) -> Self {
        self.as_delaunay_edge().rev().as_voronoi_edge()
    }

    /// Returns the next Voronoi edge round the face, the dual of [`ccw`](DirectedEdgeHandle::ccw).
    pub fn next(&self) -> Self {
        self.as_delaunay_edge().ccw().as_voronoi_edge()
    }

    /// Returns the one before round the face, the dual of [`cw`](DirectedEdgeHandle::cw).
    pub fn prev(&self) -> Self {
        self.as_delaunay_edge().cw().as_voronoi_edge()
    }

    /// Returns the Voronoi edge that this is a half of.
    pub fn as_undirected(&self) -> UndirectedVoronoiEdge<'a, V, DE, UE, F> {
        self.as_delaunay_edge().as_undirected().as_voronoi_edge()
    }

    /// Returns the half edge of the mesh that it is dual to.
    pub fn as_delaunay_edge(&self) -> DirectedEdgeHandle<'a, V, DE, UE, F> {
        DirectedEdgeHandle::new(self.dcel, FixedHandleImpl::of(self.handle.number()))
    }
}

/// ```
/// use dcel::{Dcel, operations::new_triangle};
///
/// let dcel: Dcel<_> = new_triangle(['a', 'b', 'c'])?;
/// let edge = dcel.undirected_edges().next().unwrap().as_voronoi_edge();
/// let [from, to] = edge.vertices();
/// assert!(from.as_delaunay_face().is_none() && to.as_delaunay_face().is_some());
/// # Ok::<(), dcel::Refusal>(())
/// ```
impl<'a, V, DE, UE, F> UndirectedVoronoiEdge<'a, V, DE, UE, F> {
    /// Returns the Voronoi vertices that it joins. Panics if the edge isn't live.
    pub fn vertices(&self) -> [VoronoiVertex<'a, V, DE, UE, F>; 2] {
        [self.as_directed().from(), self.as_directed().to()]
    }

    /// Returns its even half.
    pub fn as_directed(&self) -> DirectedVoronoiEdge<'a, V, DE, UE, F> {
        self.as_delaunay_edge().as_directed().as_voronoi_edge()
    }

    /// Returns the edge of the mesh that it is dual to.
    pub fn as_delaunay_edge(&self) -> UndirectedEdgeHandle<'a, V, DE, UE, F> {
        UndirectedEdgeHandle::new(self.dcel, FixedHandleImpl::of(self.handle.number()))
    }
}

/// ```
/// use dcel::{Dcel, operations::new_triangle};
///
/// let dcel: Dcel<_> = new_triangle(['a', 'b', 'c'])?;
/// let face = dcel.vertices().next().unwrap().as_voronoi_face();
/// assert!(face.adjacent_edges().map(|edge| edge.index()).eq([0, 5]));
/// # Ok::<(), dcel::Refusal>(())
/// ```
impl<'a, V, DE, UE, F> VoronoiFace<'a, V, DE, UE, F> {
    /// Returns the half edges round it, in the order of [`out_edges`](VertexHandle::out_edges).
    pub fn adjacent_edges(&self) -> VoronoiFaceEdges<'a, V, DE, UE, F> {
        self.as_delaunay_vertex()
            .out_edges()
            .map(|edge| edge.as_voronoi_edge())
    }

    /// Returns the vertex of the mesh that it is dual to.
    pub fn as_delaunay_vertex(&self) -> VertexHandle<'a, V, DE, UE, F> {
        VertexHandle::new(self.dcel, FixedHandleImpl::of(self.handle.number()))
    }
}

/// ```
/// use dcel::{Dcel, operations::new_triangle};
///
/// let dcel: Dcel<_> = new_triangle(['a', 'b', 'c'])?;
/// let vertex = dcel.directed_edges().next().unwrap().as_voronoi_edge().to();
/// assert_eq!(vertex.out_edges().unwrap().map(|edge| edge.index()), [3, 1, 5]);
/// assert_eq!(vertex.out_edge().index(), 1);
/// # Ok::<(), dcel::Refusal>(())
/// ```
impl<'a, V, DE, UE, F> VoronoiVertex<'a, V, DE, UE, F> {
    /// Returns the inner face of the mesh that it is dual to, or None if it lies in the outer one.
    pub fn as_delaunay_face(&self) -> Option<FaceHandle<'a, InnerTag, V, DE, UE, F>> {
        match self {
            Self::Inner(face) => Some(*face),
            Self::Outer(_) => None,
        }
    }

    /// Returns three Voronoi edges that start here, all of a triangle's, or None in the outer face.
    pub fn out_edges(&self) -> Option<[DirectedVoronoiEdge<'a, V, DE, UE, F>; 3]> {
        let edges = self.as_delaunay_face()?.adjacent_edges();
        Some(edges.map(|edge| edge.as_voronoi_edge()))
    }

    /// Returns a Voronoi edge that starts here.
    pub fn out_edge(&self) -> DirectedVoronoiEdge<'a, V, DE, UE, F> {
        match self {
            Self::Inner(face) => face.adjacent_edge().as_voronoi_edge(),
            Self::Outer(edge) => *edge,
        }
    }
}

impl<V, DE, UE, F> Clone for VoronoiVertex<'_, V, DE, UE, F> {
    fn clone(&self) -> Self {
        *self
    }
}

impl<V, DE, UE, F> Copy for VoronoiVertex<'_, V, DE, UE, F> {}

impl<V, DE, UE, F> fmt::Debug for VoronoiVertex<'_, V, DE, UE, F> {
    fn fmt(&self, f: &mut fmt::Formatter<'_>) -> fmt::Result {
        match self {
            Self::Inner(face) => f.debug_tuple("Inner").field(face).finish(),
            Self::Outer(edge) => f.debug_tuple("Outer").field(edge).finish(),
        }
    }
}

/// Writes the name and the number of a handle of the Voronoi diagram.
macro_rules! debug {
    ($($name:ident)*) => {$(
        impl<V, DE, UE, F> fmt::Debug for $name<'_, V, DE, UE, F> {
            fn fmt(&self, f: &mut fmt::Formatter<'_>) -> fmt::Result {
                write!(f, concat!(stringify!($name), "({})"), self.index())
            }
        }
    )*};
}

debug! { DirectedVoronoiEdge UndirectedVoronoiEdge VoronoiFace }
