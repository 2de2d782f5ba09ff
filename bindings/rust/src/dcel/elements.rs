//! Elements, by number and as lists.

use super::Dcel;
use crate::handles::*;
use crate::iterators::*;

/// Elements by number. The number is looked at only when something is asked of the element.
impl<V, DE, UE, F> Dcel<V, DE, UE, F> {
    /// Returns the vertex with this number.
    ///
    /// ```
    /// use dcel::handles::FixedVertexHandle;
    /// use dcel::{Dcel, operations::new_triangle};
    ///
    /// let dcel: Dcel<_> = new_triangle(['a', 'b', 'c'])?;
    /// assert_eq!(dcel.vertex(FixedVertexHandle::new(1)).data(), &'b');
    /// # Ok::<(), dcel::Refusal>(())
    /// ```
    #[inline]
    pub fn vertex(&self, handle: FixedVertexHandle) -> VertexHandle<'_, V, DE, UE, F> {
        VertexHandle::new(self, handle)
    }

    /// Returns the half edge with this number.
    ///
    /// ```
    /// use dcel::handles::FixedDirectedEdgeHandle;
    /// use dcel::{Dcel, operations::new_triangle};
    ///
    /// let dcel: Dcel<_> = new_triangle(['a', 'b', 'c'])?;
    /// assert_eq!(dcel.directed_edge(FixedDirectedEdgeHandle::new(2)).from().data(), &'b');
    /// # Ok::<(), dcel::Refusal>(())
    /// ```
    #[inline]
    pub fn directed_edge(
        &self,
        handle: FixedDirectedEdgeHandle,
    ) -> DirectedEdgeHandle<'_, V, DE, UE, F> {
        DirectedEdgeHandle::new(self, handle)
    }

    /// Returns the edge with this number.
    ///
    /// ```
    /// use dcel::handles::FixedUndirectedEdgeHandle;
    /// use dcel::{Dcel, operations::new_triangle};
    ///
    /// let dcel: Dcel<_> = new_triangle(['a', 'b', 'c'])?;
    /// let edge = dcel.undirected_edge(FixedUndirectedEdgeHandle::new(1));
    /// assert_eq!(edge.vertices().map(|vertex| *vertex.data()), ['b', 'c']);
    /// # Ok::<(), dcel::Refusal>(())
    /// ```
    #[inline]
    pub fn undirected_edge(
        &self,
        handle: FixedUndirectedEdgeHandle,
    ) -> UndirectedEdgeHandle<'_, V, DE, UE, F> {
        UndirectedEdgeHandle::new(self, handle)
    }

    /// Returns the face with this number.
    ///
    /// ```
    /// use dcel::handles::{FixedFaceHandle, InnerTag};
    /// use dcel::{Dcel, operations::new_triangle};
    ///
    /// let dcel: Dcel<_> = new_triangle(['a', 'b', 'c'])?;
    /// let face = dcel.face(FixedFaceHandle::<InnerTag>::new(1));
    /// assert_eq!(face.adjacent_edge().index(), 1);
    /// # Ok::<(), dcel::Refusal>(())
    /// ```
    #[inline]
    pub fn face<InnerOuter: InnerOuterMarker>(
        &self,
        handle: FixedFaceHandle<InnerOuter>,
    ) -> FaceHandle<'_, InnerOuter, V, DE, UE, F> {
        FaceHandle::new(self, handle)
    }

    /// Returns the outer face, which each mesh has.
    ///
    /// ```
    /// assert_eq!(dcel::Dcel::<()>::default().outer_face().index(), 0);
    /// ```
    #[inline]
    pub fn outer_face(&self) -> FaceHandle<'_, PossiblyOuterTag, V, DE, UE, F> {
        self.face(OUTER_FACE)
    }

    /// Returns the vertex with this number, or None if there is none. One that is given up counts.
    ///
    /// ```
    /// use dcel::handles::FixedVertexHandle;
    /// use dcel::{Dcel, operations::new_triangle};
    ///
    /// let dcel: Dcel<_> = new_triangle(['a', 'b', 'c'])?;
    /// assert!(dcel.get_vertex(FixedVertexHandle::new(2)).is_some());
    /// assert!(dcel.get_vertex(FixedVertexHandle::new(3)).is_none());
    /// # Ok::<(), dcel::Refusal>(())
    /// ```
    pub fn get_vertex(&self, handle: FixedVertexHandle) -> Option<VertexHandle<'_, V, DE, UE, F>> {
        (handle.index() < self.num_vertices()).then(|| self.vertex(handle))
    }

    /// Returns the half edge with this number, or None if there is no such live one.
    ///
    /// ```
    /// use dcel::handles::FixedDirectedEdgeHandle;
    ///
    /// let dcel = dcel::Dcel::<()>::default();
    /// assert!(dcel.get_directed_edge(FixedDirectedEdgeHandle::new(0)).is_none());
    /// ```
    pub fn get_directed_edge(
        &self,
        handle: FixedDirectedEdgeHandle,
    ) -> Option<DirectedEdgeHandle<'_, V, DE, UE, F>> {
        Some(self.directed_edge(handle)).filter(DynamicHandleImpl::is_live)
    }

    /// Returns the edge with this number, or None if there is no such live one.
    ///
    /// ```
    /// use dcel::handles::FixedUndirectedEdgeHandle;
    ///
    /// let dcel = dcel::Dcel::<()>::default();
    /// assert!(dcel.get_undirected_edge(FixedUndirectedEdgeHandle::new(0)).is_none());
    /// ```
    pub fn get_undirected_edge(
        &self,
        handle: FixedUndirectedEdgeHandle,
    ) -> Option<UndirectedEdgeHandle<'_, V, DE, UE, F>> {
        Some(self.undirected_edge(handle)).filter(DynamicHandleImpl::is_live)
    }

    /// Returns the face with this number, or None if there is no such live one.
    ///
    /// ```
    /// let dcel = dcel::Dcel::<()>::default();
    /// assert!(dcel.get_face(dcel::handles::OUTER_FACE).is_some());
    /// ```
    pub fn get_face<InnerOuter: InnerOuterMarker>(
        &self,
        handle: FixedFaceHandle<InnerOuter>,
    ) -> Option<FaceHandle<'_, InnerOuter, V, DE, UE, F>> {
        Some(self.face(handle)).filter(DynamicHandleImpl::is_live)
    }

    /// Returns the anchor of a vertex, a half edge that starts there, or None if there is none.
    ///
    /// ```
    /// use dcel::handles::FixedVertexHandle;
    /// use dcel::{Dcel, operations::new_triangle};
    ///
    /// let dcel: Dcel<_> = new_triangle(['a', 'b', 'c'])?;
    /// assert_eq!(dcel.vertex_out_edge(FixedVertexHandle::new(1)).unwrap().index(), 2);
    /// # Ok::<(), dcel::Refusal>(())
    /// ```
    #[inline]
    pub fn vertex_out_edge(&self, handle: FixedVertexHandle) -> Option<FixedDirectedEdgeHandle> {
        self.mesh
            .out_edge(handle.number())
            .map(FixedDirectedEdgeHandle::of)
    }

    /// Returns the anchor of a face, a half edge that lies on it, or None if there is none.
    ///
    /// ```
    /// let dcel = dcel::Dcel::<()>::default();
    /// assert!(dcel.face_adjacent_edge(dcel::handles::OUTER_FACE).is_none());
    /// ```
    #[inline]
    pub fn face_adjacent_edge<InnerOuter: InnerOuterMarker>(
        &self,
        handle: FixedFaceHandle<InnerOuter>,
    ) -> Option<FixedDirectedEdgeHandle> {
        self.mesh
            .adjacent_edge(handle.number())
            .map(FixedDirectedEdgeHandle::of)
    }

    /// Returns the first half edge of `from`'s [`out_edges`](VertexHandle::out_edges) that ends at
    /// `to`, or None if none does.
    ///
    /// ```
    /// use dcel::handles::FixedVertexHandle;
    /// use dcel::{Dcel, operations::new_triangle};
    ///
    /// let dcel: Dcel<_> = new_triangle(['a', 'b', 'c'])?;
    /// let [a, b] = [0, 1].map(FixedVertexHandle::new);
    /// assert_eq!(dcel.get_edge_from_neighbors(b, a).unwrap().index(), 1);
    /// # Ok::<(), dcel::Refusal>(())
    /// ```
    pub fn get_edge_from_neighbors(
        &self,
        from: FixedVertexHandle,
        to: FixedVertexHandle,
    ) -> Option<DirectedEdgeHandle<'_, V, DE, UE, F>> {
        let edge = self
            .mesh
            .get_edge_from_neighbors(from.number(), to.number())?;
        Some(self.directed_edge(FixedDirectedEdgeHandle::of(edge)))
    }
}

/// Makes the methods that list elements.
macro_rules! lists {
    ($($marks:literal, $all:ident -> $iterator:ident from $start:literal, $live:ident -> $live_iterator:ident;)*) => {$(
        #[doc = concat!("Lists all ", $marks, ", with those that are given up, by number.")]
        ///
        /// ```
        /// use dcel::{Dcel, operations::new_triangle};
        ///
        /// let dcel: Dcel<_> = new_triangle(['a', 'b', 'c'])?;
        #[doc = concat!("let numbers: Vec<usize> = dcel.", stringify!($all), "().map(|it| it.index()).collect();")]
        #[doc = concat!("assert_eq!(numbers[0], ", $start, ");")]
        /// # Ok::<(), dcel::Refusal>(())
        /// ```
        pub fn $all(&self) -> $iterator<'_, V, DE, UE, F> {
            $iterator::from(self, $start)
        }

        #[doc = concat!("Lists the live ", $marks, " by number.")]
        ///
        /// ```
        /// use dcel::{Dcel, operations::new_triangle};
        ///
        /// let dcel: Dcel<_> = new_triangle(['a', 'b', 'c'])?;
        #[doc = concat!("assert!(dcel.", stringify!($live), "().eq(dcel.", stringify!($all), "()));")]
        /// # Ok::<(), dcel::Refusal>(())
        /// ```
        pub fn $live(&self) -> $live_iterator<'_, V, DE, UE, F> {
            $live_iterator::of(self.$all())
        }
    )*};
}

/// Lists of elements.
impl<V, DE, UE, F> Dcel<V, DE, UE, F> {
    lists! {
        "vertices", vertices -> VertexIterator from 0, live_vertices -> LiveVertexIterator;
        "half edges", directed_edges -> DirectedEdgeIterator from 0, live_directed_edges -> LiveDirectedEdgeIterator;
        "edges", undirected_edges -> UndirectedEdgeIterator from 0, live_undirected_edges -> LiveUndirectedEdgeIterator;
        "faces", faces -> FaceIterator from 0, live_faces -> LiveFaceIterator;
        "inner faces", inner_faces -> InnerFaceIterator from 1, live_inner_faces -> LiveInnerFaceIterator;
    }

    /// Lists the numbers of all vertices.
    ///
    /// ```
    /// use dcel::{Dcel, operations::new_triangle};
    ///
    /// let mut dcel: Dcel<_> = new_triangle(['a', 'b', 'c'])?;
    /// for vertex in dcel.fixed_vertices() {
    ///     dcel.update_vertex(vertex, 'd'); // the numbers don't borrow the mesh
    /// }
    /// # Ok::<(), dcel::Refusal>(())
    /// ```
    pub fn fixed_vertices(&self) -> FixedVertexIterator {
        FixedVertexIterator::new(0..self.num_vertices())
    }

    /// Lists the numbers of all faces.
    ///
    /// ```
    /// use dcel::{Dcel, operations::new_triangle};
    ///
    /// let dcel: Dcel<_> = new_triangle(['a', 'b', 'c'])?;
    /// assert!(dcel.fixed_faces().map(|face| face.index()).eq(0..2));
    /// # Ok::<(), dcel::Refusal>(())
    /// ```
    pub fn fixed_faces(&self) -> FixedFaceIterator {
        FixedFaceIterator::new(0..self.num_faces())
    }
}
