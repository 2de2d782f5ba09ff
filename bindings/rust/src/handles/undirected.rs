//! Edges, each a pair of half edges.

use super::{DirectedEdgeHandle, UndirectedEdgeHandle, VertexHandle};

impl<'a, V, DE, UE, F> UndirectedEdgeHandle<'a, V, DE, UE, F> {
    /// Returns the even half of the edge.
    ///
    /// ```
    /// use dcel::{Dcel, operations::new_triangle};
    ///
    /// let dcel: Dcel<_> = new_triangle(['a', 'b', 'c'])?;
    /// assert!(dcel.undirected_edges().map(|edge| edge.as_directed().index()).eq([0, 2, 4]));
    /// # Ok::<(), dcel::Refusal>(())
    /// ```
    #[inline]
    pub fn as_directed(&self) -> DirectedEdgeHandle<'a, V, DE, UE, F> {
        DirectedEdgeHandle::new(self.dcel, self.handle.as_directed())
    }

    /// Returns the vertices that it joins, first the one where the even half starts.
    ///
    /// # Panics
    ///
    /// Panics if the edge isn't live.
    ///
    /// ```
    /// use dcel::{Dcel, operations::new_triangle};
    ///
    /// let dcel: Dcel<_> = new_triangle(['a', 'b', 'c'])?;
    /// let edge = dcel.undirected_edges().last().unwrap();
    /// assert_eq!(edge.vertices().map(|vertex| *vertex.data()), ['c', 'a']);
    /// # Ok::<(), dcel::Refusal>(())
    /// ```
    pub fn vertices(&self) -> [VertexHandle<'a, V, DE, UE, F>; 2] {
        self.as_directed().vertices()
    }

    /// Returns whether the outer face lies on a side of it.
    ///
    /// # Panics
    ///
    /// Panics if the edge isn't live.
    ///
    /// ```
    /// use dcel::{Dcel, operations::new_triangle};
    ///
    /// let dcel: Dcel<_> = new_triangle(['a', 'b', 'c'])?;
    /// assert!(dcel.undirected_edges().all(|edge| edge.is_part_of_convex_hull()));
    /// # Ok::<(), dcel::Refusal>(())
    /// ```
    pub fn is_part_of_convex_hull(&self) -> bool {
        self.as_directed().is_part_of_convex_hull()
    }

    /// Returns the datum of the edge.
    ///
    /// # Panics
    ///
    /// Panics if the number is out of range.
    ///
    /// ```
    /// use dcel::{Dcel, operations::new_triangle};
    ///
    /// let dcel: Dcel<_, (), String> = new_triangle(['a', 'b', 'c'])?;
    /// assert_eq!(dcel.undirected_edges().next().unwrap().data(), "");
    /// # Ok::<(), dcel::Refusal>(())
    /// ```
    pub fn data(&self) -> &'a UE {
        self.dcel.undirected_edge_data(self.handle)
    }
}

impl<V, DE, UE, F> AsRef<UE> for UndirectedEdgeHandle<'_, V, DE, UE, F> {
    fn as_ref(&self) -> &UE {
        self.data()
    }
}
