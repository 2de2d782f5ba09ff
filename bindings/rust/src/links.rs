//! The links of a mesh, taken out.

use crate::ffi::{HalfEdgeEntry, Mesh, NO_LINK};
use crate::handles::*;
use std::iter::{self, FusedIterator};

/// The links of all half edges of a mesh, and the anchors of its vertices and faces, as they were
/// when they were taken out.
///
/// A step here is one read, where a step of a borrowed mesh is a call. They borrow no mesh and are
/// `Sync`, so they also serve several threads. Steps are those of
/// [`DirectedEdgeHandle`], and panic if the half edge isn't live.
///
/// ```
/// use dcel::{Dcel, operations::new_triangle};
///
/// let dcel: Dcel<_> = new_triangle(['a', 'b', 'c'])?;
/// let links = dcel.links();
/// let degrees = dcel.fixed_vertices().map(|vertex| links.out_edges(vertex).count());
/// assert!(degrees.eq([2, 2, 2]));
/// # Ok::<(), dcel::Refusal>(())
/// ```
#[derive(Clone, PartialEq, Eq, Debug)]
pub struct Links {
    // A vector for each link: a walk reads few of them, and near ones share a line of the cache.
    next: Vec<FixedDirectedEdgeHandle>,
    prev: Vec<FixedDirectedEdgeHandle>,
    origins: Vec<FixedVertexHandle>,
    faces: Vec<FixedFaceHandle<PossiblyOuterTag>>,
    vertex_anchors: Vec<Option<FixedDirectedEdgeHandle>>,
    face_anchors: Vec<Option<FixedDirectedEdgeHandle>>,
}

impl Links {
    pub(crate) fn of(mesh: &Mesh) -> Self {
        let entries = mesh.half_edges();
        let vertices = 0..mesh.num_vertices() as u32;
        let faces = 0..mesh.num_faces() as u32;
        let handle = FixedDirectedEdgeHandle::of;
        Self {
            next: entries.iter().map(|entry| entry.next).collect(),
            prev: entries.iter().map(|entry| entry.prev).collect(),
            origins: entries.iter().map(|entry| entry.origin).collect(),
            faces: entries.iter().map(|entry| entry.face).collect(),
            vertex_anchors: vertices
                .map(|vertex| mesh.out_edge(vertex).map(handle))
                .collect(),
            face_anchors: faces
                .map(|face| mesh.adjacent_edge(face).map(handle))
                .collect(),
        }
    }

    /// Returns the links of a half edge, or None if it isn't live.
    ///
    /// ```
    /// use dcel::handles::FixedDirectedEdgeHandle;
    /// use dcel::{Dcel, operations::new_triangle};
    ///
    /// let dcel: Dcel<_> = new_triangle(['a', 'b', 'c'])?;
    /// let entry = dcel.links().get(FixedDirectedEdgeHandle::new(0)).unwrap();
    /// assert_eq!((entry.next.index(), entry.prev.index()), (2, 4));
    /// assert_eq!((entry.origin.index(), entry.face.index()), (0, 0));
    /// assert!(dcel.links().get(FixedDirectedEdgeHandle::new(6)).is_none());
    /// # Ok::<(), dcel::Refusal>(())
    /// ```
    pub fn get(&self, edge: FixedDirectedEdgeHandle) -> Option<HalfEdgeEntry> {
        Some(HalfEdgeEntry {
            next: link(&self.next, edge)?,
            prev: link(&self.prev, edge)?,
            origin: link(&self.origins, edge)?,
            face: link(&self.faces, edge)?,
        })
    }

    /// Lists the live half edges.
    ///
    /// ```
    /// use dcel::{Dcel, operations::new_triangle};
    ///
    /// let dcel: Dcel<_> = new_triangle(['a', 'b', 'c'])?;
    /// assert_eq!(dcel.links().directed_edges().count(), 6);
    /// # Ok::<(), dcel::Refusal>(())
    /// ```
    pub fn directed_edges(&self) -> impl DoubleEndedIterator<Item = FixedDirectedEdgeHandle> + '_ {
        let live = self
            .next
            .iter()
            .enumerate()
            .filter(|(_, next)| next.number() != NO_LINK);
        live.map(|(number, _)| FixedDirectedEdgeHandle::of(number as u32))
    }
}

/// Steps and anchors.
///
/// ```
/// use dcel::handles::{FixedDirectedEdgeHandle, FixedVertexHandle, OUTER_FACE};
/// use dcel::{Dcel, operations::new_triangle};
///
/// let dcel: Dcel<_> = new_triangle(['a', 'b', 'c'])?;
/// let links = dcel.links();
/// let edge = FixedDirectedEdgeHandle::new(0);
/// let numbers = [links.next(edge), links.prev(edge), links.ccw(edge), links.cw(edge)];
/// assert_eq!(numbers.map(|edge| edge.index()), [2, 4, 5, 5]);
/// assert_eq!((links.from(edge).index(), links.to(edge).index()), (0, 1));
/// assert_eq!(links.face(edge), OUTER_FACE);
/// assert_eq!(links.out_edge(FixedVertexHandle::new(0)), Some(edge));
/// assert_eq!(links.adjacent_edge(OUTER_FACE), Some(edge));
/// # Ok::<(), dcel::Refusal>(())
/// ```
impl Links {
    /// Returns the half edge after it on its face.
    #[inline]
    pub fn next(&self, edge: FixedDirectedEdgeHandle) -> FixedDirectedEdgeHandle {
        step(&self.next, edge)
    }

    /// Returns the half edge before it on its face.
    #[inline]
    pub fn prev(&self, edge: FixedDirectedEdgeHandle) -> FixedDirectedEdgeHandle {
        step(&self.prev, edge)
    }

    /// Returns the next half edge with the same origin, counterclockwise.
    #[inline]
    pub fn ccw(&self, edge: FixedDirectedEdgeHandle) -> FixedDirectedEdgeHandle {
        step(&self.prev, edge).rev()
    }

    /// Returns the next half edge with the same origin, clockwise.
    #[inline]
    pub fn cw(&self, edge: FixedDirectedEdgeHandle) -> FixedDirectedEdgeHandle {
        step(&self.next, edge.rev())
    }

    /// Returns the vertex where it starts.
    #[inline]
    pub fn from(&self, edge: FixedDirectedEdgeHandle) -> FixedVertexHandle {
        step(&self.origins, edge)
    }

    /// Returns the vertex where it ends.
    #[inline]
    pub fn to(&self, edge: FixedDirectedEdgeHandle) -> FixedVertexHandle {
        step(&self.origins, edge.rev())
    }

    /// Returns its face.
    #[inline]
    pub fn face(&self, edge: FixedDirectedEdgeHandle) -> FixedFaceHandle<PossiblyOuterTag> {
        step(&self.faces, edge)
    }

    /// Returns the anchor of a vertex, or None if no half edge starts there.
    #[inline]
    pub fn out_edge(&self, vertex: FixedVertexHandle) -> Option<FixedDirectedEdgeHandle> {
        *self.vertex_anchors.get(vertex.index())?
    }

    /// Returns the anchor of a face, or None if no half edge lies on it.
    #[inline]
    pub fn adjacent_edge<InnerOuter: InnerOuterMarker>(
        &self,
        face: FixedFaceHandle<InnerOuter>,
    ) -> Option<FixedDirectedEdgeHandle> {
        *self.face_anchors.get(face.index())?
    }
}

/// Walks.
impl Links {
    /// Lists the half edges that start at a vertex, counterclockwise from the anchor on.
    ///
    /// ```
    /// use dcel::handles::FixedVertexHandle;
    /// use dcel::{Dcel, operations::new_triangle};
    ///
    /// let dcel: Dcel<_> = new_triangle(['a', 'b', 'c'])?;
    /// let links = dcel.links();
    /// let edges = links.out_edges(FixedVertexHandle::new(0));
    /// assert!(edges.map(|edge| edge.index()).eq([0, 5]));
    /// # Ok::<(), dcel::Refusal>(())
    /// ```
    #[inline]
    pub fn out_edges(
        &self,
        vertex: FixedVertexHandle,
    ) -> impl FusedIterator<Item = FixedDirectedEdgeHandle> {
        walk(self.out_edge(vertex), |edge| self.ccw(edge))
    }

    /// Lists the half edges on a face, by `next` from the anchor on.
    ///
    /// ```
    /// use dcel::handles::OUTER_FACE;
    /// use dcel::{Dcel, operations::new_triangle};
    ///
    /// let dcel: Dcel<_> = new_triangle(['a', 'b', 'c'])?;
    /// let links = dcel.links();
    /// assert!(links.face_edges(OUTER_FACE).map(|edge| edge.index()).eq([0, 2, 4]));
    /// # Ok::<(), dcel::Refusal>(())
    /// ```
    #[inline]
    pub fn face_edges<InnerOuter: InnerOuterMarker>(
        &self,
        face: FixedFaceHandle<InnerOuter>,
    ) -> impl FusedIterator<Item = FixedDirectedEdgeHandle> {
        walk(self.adjacent_edge(face), |edge| self.next(edge))
    }
}

/// Returns the link of a half edge, or None if it isn't live.
#[inline]
fn link<Type: DelaunayElementType, InnerOuter: InnerOuterMarker>(
    links: &[FixedHandleImpl<Type, InnerOuter>],
    edge: FixedDirectedEdgeHandle,
) -> Option<FixedHandleImpl<Type, InnerOuter>> {
    links
        .get(edge.index())
        .copied()
        .filter(|found| found.number() != NO_LINK)
}

#[inline]
fn step<Type: DelaunayElementType, InnerOuter: InnerOuterMarker>(
    links: &[FixedHandleImpl<Type, InnerOuter>],
    edge: FixedDirectedEdgeHandle,
) -> FixedHandleImpl<Type, InnerOuter> {
    link(links, edge).unwrap_or_else(|| not_live(edge))
}

#[cold]
fn not_live(edge: FixedDirectedEdgeHandle) -> ! {
    panic!("half edge {} isn't live", edge.index());
}

/// Lists half edges by a step, from the first one until it comes back.
#[inline]
fn walk(
    first: Option<FixedDirectedEdgeHandle>,
    step: impl Fn(FixedDirectedEdgeHandle) -> FixedDirectedEdgeHandle,
) -> impl FusedIterator<Item = FixedDirectedEdgeHandle> {
    iter::successors(first, move |edge| {
        Some(step(*edge)).filter(|after| Some(*after) != first)
    })
}
