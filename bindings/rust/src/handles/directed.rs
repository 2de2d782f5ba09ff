//! Half edges.

use super::{
    DirectedEdgeHandle, FaceHandle, FixedHandleImpl, PossiblyOuterTag, UndirectedEdgeHandle,
    VertexHandle,
};

/// Tells that a half edge was stepped from that isn't live.
#[cold]
fn not_live(edge: u32) -> ! {
    panic!("half edge {edge} isn't live");
}

/// Makes the steps to elements of the kind, of which each is a call of the library.
macro_rules! steps {
    ($handle:ident: $($(#[$doc:meta])* $name:ident;)*) => {$(
        $(#[$doc])*
        #[inline]
        pub fn $name(&self) -> $handle<'a, V, DE, UE, F> {
            let edge = self.handle.number();
            let found = self.dcel.mesh.$name(edge).unwrap_or_else(|| not_live(edge));
            $handle::new(self.dcel, FixedHandleImpl::of(found))
        }
    )*};
}

/// Steps. Each panics if the half edge isn't live, except [`rev`](DirectedEdgeHandle::rev), which
/// only looks at the number.
///
/// ```
/// use dcel::handles::FixedDirectedEdgeHandle;
/// use dcel::{Dcel, operations::new_triangle};
///
/// let dcel: Dcel<_> = new_triangle(['a', 'b', 'c'])?;
/// let edge = dcel.directed_edge(FixedDirectedEdgeHandle::new(0));
/// let around = [edge.next(), edge.prev(), edge.rev(), edge.ccw(), edge.cw()];
/// assert_eq!(around.map(|edge| edge.index()), [2, 4, 1, 5, 5]);
/// assert_eq!((edge.from().data(), edge.to().data()), (&'a', &'b'));
/// assert!(edge.face().is_outer());
/// # Ok::<(), dcel::Refusal>(())
/// ```
impl<'a, V, DE, UE, F> DirectedEdgeHandle<'a, V, DE, UE, F> {
    steps! { DirectedEdgeHandle:
        /// Returns the half edge after it on its face.
        ///
        /// ```
        /// use dcel::{Dcel, operations::new_triangle};
        ///
        /// let dcel: Dcel<_> = new_triangle(['a', 'b', 'c'])?;
        /// let edge = dcel.directed_edges().next().unwrap();
        /// assert_eq!(edge.next().from(), edge.to());
        /// # Ok::<(), dcel::Refusal>(())
        /// ```
        next;

        /// Returns the half edge before it on its face.
        ///
        /// ```
        /// use dcel::{Dcel, operations::new_triangle};
        ///
        /// let dcel: Dcel<_> = new_triangle(['a', 'b', 'c'])?;
        /// let edge = dcel.directed_edges().next().unwrap();
        /// assert_eq!(edge.prev().next(), edge);
        /// # Ok::<(), dcel::Refusal>(())
        /// ```
        prev;

        /// Returns the next half edge with the same origin, counterclockwise.
        ///
        /// ```
        /// use dcel::{Dcel, operations::new_triangle};
        ///
        /// let dcel: Dcel<_> = new_triangle(['a', 'b', 'c'])?;
        /// let edge = dcel.directed_edges().next().unwrap();
        /// assert_eq!(edge.ccw(), edge.prev().rev());
        /// # Ok::<(), dcel::Refusal>(())
        /// ```
        ccw;

        /// Returns the next half edge with the same origin, clockwise.
        ///
        /// ```
        /// use dcel::{Dcel, operations::new_triangle};
        ///
        /// let dcel: Dcel<_> = new_triangle(['a', 'b', 'c'])?;
        /// let edge = dcel.directed_edges().next().unwrap();
        /// assert_eq!(edge.cw(), edge.rev().next());
        /// # Ok::<(), dcel::Refusal>(())
        /// ```
        cw;
    }

    steps! { VertexHandle:
        /// Returns the vertex where it starts.
        ///
        /// ```
        /// use dcel::{Dcel, operations::new_triangle};
        ///
        /// let dcel: Dcel<_> = new_triangle(['a', 'b', 'c'])?;
        /// assert_eq!(dcel.directed_edges().next().unwrap().from().data(), &'a');
        /// # Ok::<(), dcel::Refusal>(())
        /// ```
        from;

        /// Returns the vertex where it ends.
        ///
        /// ```
        /// use dcel::{Dcel, operations::new_triangle};
        ///
        /// let dcel: Dcel<_> = new_triangle(['a', 'b', 'c'])?;
        /// assert_eq!(dcel.directed_edges().next().unwrap().to().data(), &'b');
        /// # Ok::<(), dcel::Refusal>(())
        /// ```
        to;
    }

    /// Returns its face, to the left of it.
    ///
    /// ```
    /// use dcel::{Dcel, operations::new_triangle};
    ///
    /// let dcel: Dcel<_> = new_triangle(['a', 'b', 'c'])?;
    /// let edge = dcel.directed_edges().next().unwrap();
    /// assert!(edge.face().is_outer() && !edge.rev().face().is_outer());
    /// # Ok::<(), dcel::Refusal>(())
    /// ```
    #[inline]
    pub fn face(&self) -> FaceHandle<'a, PossiblyOuterTag, V, DE, UE, F> {
        let edge = self.handle.number();
        let found = self.dcel.mesh.face(edge).unwrap_or_else(|| not_live(edge));
        FaceHandle::new(self.dcel, FixedHandleImpl::of(found))
    }

    /// Returns the other half of its edge.
    ///
    /// ```
    /// use dcel::{Dcel, operations::new_triangle};
    ///
    /// let dcel: Dcel<_> = new_triangle(['a', 'b', 'c'])?;
    /// let edge = dcel.directed_edges().next().unwrap();
    /// assert_eq!(edge.rev().from(), edge.to());
    /// # Ok::<(), dcel::Refusal>(())
    /// ```
    #[inline]
    pub fn rev(&self) -> Self {
        Self::new(self.dcel, self.handle.rev())
    }

    /// Returns the edge that it is a half of.
    ///
    /// ```
    /// use dcel::{Dcel, operations::new_triangle};
    ///
    /// let dcel: Dcel<_> = new_triangle(['a', 'b', 'c'])?;
    /// let edge = dcel.directed_edges().next().unwrap();
    /// assert_eq!(edge.as_undirected(), edge.rev().as_undirected());
    /// # Ok::<(), dcel::Refusal>(())
    /// ```
    #[inline]
    pub fn as_undirected(self) -> UndirectedEdgeHandle<'a, V, DE, UE, F> {
        UndirectedEdgeHandle::new(self.dcel, self.handle.as_undirected())
    }
}

/// What lies around. Each call panics if the half edge isn't live.
impl<'a, V, DE, UE, F> DirectedEdgeHandle<'a, V, DE, UE, F> {
    /// Returns the vertices where it starts and ends.
    ///
    /// ```
    /// use dcel::{Dcel, operations::new_triangle};
    ///
    /// let dcel: Dcel<_> = new_triangle(['a', 'b', 'c'])?;
    /// let edge = dcel.directed_edges().next().unwrap();
    /// assert_eq!(edge.vertices().map(|vertex| *vertex.data()), ['a', 'b']);
    /// # Ok::<(), dcel::Refusal>(())
    /// ```
    pub fn vertices(&self) -> [VertexHandle<'a, V, DE, UE, F>; 2] {
        [self.from(), self.to()]
    }

    /// Returns the vertex where the half edge before it starts: in a triangle, the corner opposite.
    /// None if its face is the outer one.
    ///
    /// ```
    /// use dcel::{Dcel, operations::new_triangle};
    ///
    /// let dcel: Dcel<_> = new_triangle(['a', 'b', 'c'])?;
    /// let edge = dcel.directed_edges().next().unwrap();
    /// assert!(edge.opposite_vertex().is_none());
    /// assert_eq!(edge.rev().opposite_vertex().unwrap().data(), &'c');
    /// # Ok::<(), dcel::Refusal>(())
    /// ```
    pub fn opposite_vertex(&self) -> Option<VertexHandle<'a, V, DE, UE, F>> {
        (!self.is_outer_edge()).then(|| self.prev().from())
    }

    /// Returns whether its face is the outer one.
    ///
    /// ```
    /// use dcel::{Dcel, operations::new_triangle};
    ///
    /// let dcel: Dcel<_> = new_triangle(['a', 'b', 'c'])?;
    /// assert_eq!(dcel.directed_edges().filter(|edge| edge.is_outer_edge()).count(), 3);
    /// # Ok::<(), dcel::Refusal>(())
    /// ```
    pub fn is_outer_edge(&self) -> bool {
        self.face().is_outer()
    }

    /// Returns whether its face, or that of its other half, is the outer one.
    ///
    /// ```
    /// use dcel::{Dcel, operations::new_triangle};
    ///
    /// let dcel: Dcel<_> = new_triangle(['a', 'b', 'c'])?;
    /// assert!(dcel.directed_edges().all(|edge| edge.is_part_of_convex_hull()));
    /// # Ok::<(), dcel::Refusal>(())
    /// ```
    pub fn is_part_of_convex_hull(&self) -> bool {
        self.is_outer_edge() || self.rev().is_outer_edge()
    }

    /// Returns the datum of the half edge. Its edge has one of its own.
    ///
    /// # Panics
    ///
    /// Panics if the number is out of range. What is given up still has a datum.
    ///
    /// ```
    /// use dcel::{Dcel, operations::new_triangle};
    ///
    /// let mut dcel: Dcel<_, u8> = new_triangle(['a', 'b', 'c'])?;
    /// let edge = dcel.directed_edges().next().unwrap().fix();
    /// *dcel.directed_edge_data_mut(edge) = 7;
    /// let data: Vec<u8> = dcel.directed_edges().map(|edge| *edge.data()).collect();
    /// assert_eq!(data, [7, 0, 0, 0, 0, 0]);
    /// # Ok::<(), dcel::Refusal>(())
    /// ```
    pub fn data(&self) -> &'a DE {
        self.dcel.directed_edge_data(self.handle)
    }
}

impl<V, DE, UE, F> AsRef<DE> for DirectedEdgeHandle<'_, V, DE, UE, F> {
    fn as_ref(&self) -> &DE {
        self.data()
    }
}
