//! Vertices.

use super::{DirectedEdgeHandle, VertexHandle};
use crate::iterators::{CCWEdgesNextBackFn, CircularIterator};

impl<'a, V, DE, UE, F> VertexHandle<'a, V, DE, UE, F> {
    /// Returns the anchor, a half edge that starts here, or None if none does.
    ///
    /// ```
    /// use dcel::{Dcel, operations::new_triangle};
    ///
    /// let dcel: Dcel<_> = new_triangle(['a', 'b', 'c'])?;
    /// assert!(dcel.vertices().all(|vertex| vertex.out_edge().unwrap().from() == vertex));
    /// # Ok::<(), dcel::Refusal>(())
    /// ```
    #[inline]
    pub fn out_edge(&self) -> Option<DirectedEdgeHandle<'a, V, DE, UE, F>> {
        let edge = self.dcel.vertex_out_edge(self.handle)?;
        Some(DirectedEdgeHandle::new(self.dcel, edge))
    }

    /// Returns the half edges that start here, counterclockwise from the anchor on.
    ///
    /// ```
    /// use dcel::{Dcel, operations::new_triangle};
    ///
    /// let dcel: Dcel<_> = new_triangle(['a', 'b', 'c'])?;
    /// let vertex = dcel.vertices().next().unwrap();
    /// let ends: String = vertex.out_edges().map(|edge| *edge.to().data()).collect();
    /// assert_eq!(ends, "bc");
    /// # Ok::<(), dcel::Refusal>(())
    /// ```
    #[inline]
    pub fn out_edges(&self) -> CircularIterator<'a, V, DE, UE, F, CCWEdgesNextBackFn> {
        match self.out_edge() {
            Some(edge) => CircularIterator::new(edge),
            None => CircularIterator::empty_of(self.dcel),
        }
    }

    /// Returns the datum of the vertex.
    ///
    /// # Panics
    ///
    /// Panics if the number is out of range.
    ///
    /// ```
    /// use dcel::{Dcel, operations::new_triangle};
    ///
    /// let dcel: Dcel<_> = new_triangle(['a', 'b', 'c'])?;
    /// assert!(dcel.vertices().map(|vertex| *vertex.data()).eq(['a', 'b', 'c']));
    /// # Ok::<(), dcel::Refusal>(())
    /// ```
    pub fn data(&self) -> &'a V {
        self.dcel.vertex_data(self.handle)
    }
}

impl<V, DE, UE, F> AsRef<V> for VertexHandle<'_, V, DE, UE, F> {
    fn as_ref(&self) -> &V {
        self.data()
    }
}
