//! Faces.

use super::{
    DirectedEdgeHandle, FaceHandle, InnerOuterMarker, InnerTag, PossiblyOuterTag, VertexHandle,
};
use crate::iterators::{CircularIterator, HullNextBackFn};

impl<'a, V, DE, UE, F, InnerOuter: InnerOuterMarker> FaceHandle<'a, InnerOuter, V, DE, UE, F> {
    /// Returns the half edges on the face, however many, by `next` from the anchor on.
    ///
    /// ```
    /// use dcel::{Dcel, operations::new_triangle};
    ///
    /// let dcel: Dcel<_> = new_triangle(['a', 'b', 'c'])?;
    /// assert!(dcel.outer_face().directed_edges().map(|edge| edge.index()).eq([0, 2, 4]));
    /// # Ok::<(), dcel::Refusal>(())
    /// ```
    #[inline]
    pub fn directed_edges(&self) -> CircularIterator<'a, V, DE, UE, F, HullNextBackFn> {
        match self.dcel.face_adjacent_edge(self.handle) {
            Some(edge) => CircularIterator::new(self.dcel.directed_edge(edge)),
            None => CircularIterator::empty_of(self.dcel),
        }
    }

    /// Returns the datum of the face.
    ///
    /// # Panics
    ///
    /// Panics if the number is out of range.
    ///
    /// ```
    /// use dcel::{Dcel, operations::new_triangle};
    ///
    /// let dcel: Dcel<_, (), (), u32> = new_triangle(['a', 'b', 'c'])?;
    /// assert_eq!(dcel.outer_face().data(), &0);
    /// # Ok::<(), dcel::Refusal>(())
    /// ```
    pub fn data(&self) -> &'a F {
        self.dcel.face_data(self.handle)
    }
}

impl<'a, V, DE, UE, F> FaceHandle<'a, PossiblyOuterTag, V, DE, UE, F> {
    /// Returns whether this is the outer face.
    ///
    /// ```
    /// let dcel = dcel::Dcel::<()>::default();
    /// assert!(dcel.faces().all(|face| face.is_outer()));
    /// ```
    #[inline]
    pub fn is_outer(&self) -> bool {
        self.handle.is_outer()
    }

    /// Returns the face with the mark of inner ones, or None if it is the outer face.
    ///
    /// ```
    /// use dcel::{Dcel, operations::new_triangle};
    ///
    /// let dcel: Dcel<_> = new_triangle(['a', 'b', 'c'])?;
    /// let inner = dcel.faces().find_map(|face| face.as_inner()).unwrap();
    /// assert_eq!(inner.index(), 1);
    /// # Ok::<(), dcel::Refusal>(())
    /// ```
    #[inline]
    pub fn as_inner(&self) -> Option<FaceHandle<'a, InnerTag, V, DE, UE, F>> {
        Some(FaceHandle::new(self.dcel, self.handle.as_inner()?))
    }

    /// Returns the anchor, a half edge on the face, or None if there is none.
    ///
    /// ```
    /// let dcel = dcel::Dcel::<()>::default();
    /// assert!(dcel.outer_face().adjacent_edge().is_none());
    /// ```
    #[inline]
    pub fn adjacent_edge(&self) -> Option<DirectedEdgeHandle<'a, V, DE, UE, F>> {
        let edge = self.dcel.face_adjacent_edge(self.handle)?;
        Some(DirectedEdgeHandle::new(self.dcel, edge))
    }
}

/// Each call panics if the face isn't live.
impl<'a, V, DE, UE, F> FaceHandle<'a, InnerTag, V, DE, UE, F> {
    /// Returns the anchor, a half edge on the face.
    ///
    /// ```
    /// use dcel::{Dcel, operations::new_triangle};
    ///
    /// let dcel: Dcel<_> = new_triangle(['a', 'b', 'c'])?;
    /// assert_eq!(dcel.inner_faces().next().unwrap().adjacent_edge().index(), 1);
    /// # Ok::<(), dcel::Refusal>(())
    /// ```
    #[inline]
    pub fn adjacent_edge(&self) -> DirectedEdgeHandle<'a, V, DE, UE, F> {
        match self.dcel.face_adjacent_edge(self.handle) {
            Some(edge) => DirectedEdgeHandle::new(self.dcel, edge),
            None => panic!("face {} isn't live", self.index()),
        }
    }

    /// Returns the half edge before the anchor, the anchor, and the one after: all of a triangle.
    ///
    /// ```
    /// use dcel::{Dcel, operations::new_triangle};
    ///
    /// let dcel: Dcel<_> = new_triangle(['a', 'b', 'c'])?;
    /// let face = dcel.inner_faces().next().unwrap();
    /// assert_eq!(face.adjacent_edges().map(|edge| edge.index()), [3, 1, 5]);
    /// # Ok::<(), dcel::Refusal>(())
    /// ```
    pub fn adjacent_edges(&self) -> [DirectedEdgeHandle<'a, V, DE, UE, F>; 3] {
        let edge = self.adjacent_edge();
        [edge.prev(), edge, edge.next()]
    }

    /// Returns the vertices where the [`adjacent_edges`](Self::adjacent_edges) start: the corners
    /// of a triangle.
    ///
    /// ```
    /// use dcel::{Dcel, operations::new_triangle};
    ///
    /// let dcel: Dcel<_> = new_triangle(['a', 'b', 'c'])?;
    /// let face = dcel.inner_faces().next().unwrap();
    /// assert_eq!(face.vertices().map(|vertex| *vertex.data()), ['c', 'b', 'a']);
    /// # Ok::<(), dcel::Refusal>(())
    /// ```
    pub fn vertices(&self) -> [VertexHandle<'a, V, DE, UE, F>; 3] {
        self.adjacent_edges().map(|edge| edge.from())
    }
}

impl<V, DE, UE, F, InnerOuter: InnerOuterMarker> AsRef<F>
    for FaceHandle<'_, InnerOuter, V, DE, UE, F>
{
    fn as_ref(&self) -> &F {
        self.data()
    }
}
