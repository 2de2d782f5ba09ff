//! Half edges in a circle.

use crate::Dcel;
use crate::handles::DirectedEdgeHandle;
use std::fmt;
use std::iter::FusedIterator;
use std::marker::PhantomData;

/// A step from half edge to half edge, and the step back. They undo each other.
///
/// ```
/// use dcel::iterators::{HullNextBackFn, NextBackFn};
/// use dcel::{Dcel, operations::new_triangle};
///
/// let dcel: Dcel<_> = new_triangle(['a', 'b', 'c'])?;
/// let edge = dcel.directed_edges().next().unwrap();
/// assert_eq!(HullNextBackFn::next_back(HullNextBackFn::next(edge)), edge);
/// # Ok::<(), dcel::Refusal>(())
/// ```
pub trait NextBackFn {
    /// Returns the half edge after this one.
    fn next<V, DE, UE, F>(
        edge: DirectedEdgeHandle<'_, V, DE, UE, F>,
    ) -> DirectedEdgeHandle<'_, V, DE, UE, F>;

    /// Returns the half edge before this one.
    fn next_back<V, DE, UE, F>(
        edge: DirectedEdgeHandle<'_, V, DE, UE, F>,
    ) -> DirectedEdgeHandle<'_, V, DE, UE, F>;
}

/// The step counterclockwise round the vertex where the half edge starts.
#[derive(Clone, Copy, Debug)]
pub struct CCWEdgesNextBackFn;

impl NextBackFn for CCWEdgesNextBackFn {
    #[inline]
    fn next<V, DE, UE, F>(
        edge: DirectedEdgeHandle<'_, V, DE, UE, F>,
    ) -> DirectedEdgeHandle<'_, V, DE, UE, F> {
        edge.ccw()
    }

    #[inline]
    fn next_back<V, DE, UE, F>(
        edge: DirectedEdgeHandle<'_, V, DE, UE, F>,
    ) -> DirectedEdgeHandle<'_, V, DE, UE, F> {
        edge.cw()
    }
}

/// The step to the next half edge on the same face.
#[derive(Clone, Copy, Debug)]
pub struct HullNextBackFn;

impl NextBackFn for HullNextBackFn {
    #[inline]
    fn next<V, DE, UE, F>(
        edge: DirectedEdgeHandle<'_, V, DE, UE, F>,
    ) -> DirectedEdgeHandle<'_, V, DE, UE, F> {
        edge.next()
    }

    #[inline]
    fn next_back<V, DE, UE, F>(
        edge: DirectedEdgeHandle<'_, V, DE, UE, F>,
    ) -> DirectedEdgeHandle<'_, V, DE, UE, F> {
        edge.prev()
    }
}

/// An iterator from a half edge on, by a step, until it comes back.
///
/// ```
/// use dcel::{Dcel, operations::new_triangle};
///
/// let dcel: Dcel<_> = new_triangle(['a', 'b', 'c'])?;
/// let vertex = dcel.vertices().next().unwrap();
/// assert!(vertex.out_edges().map(|edge| edge.index()).eq([0, 5]));
/// assert!(vertex.out_edges().rev().map(|edge| edge.index()).eq([5, 0]));
/// # Ok::<(), dcel::Refusal>(())
/// ```
pub struct CircularIterator<'a, V, DE, UE, F, NB> {
    /// The next half edge, and the one that ends the way; None at the end.
    left: Option<[DirectedEdgeHandle<'a, V, DE, UE, F>; 2]>,
    step: PhantomData<NB>,
}

impl<'a, V, DE, UE, F, NB: NextBackFn> CircularIterator<'a, V, DE, UE, F, NB> {
    /// Begins with this half edge. The iterator panics if it isn't live.
    ///
    /// ```
    /// use dcel::iterators::{CircularIterator, HullNextBackFn};
    /// use dcel::{Dcel, operations::new_triangle};
    ///
    /// let dcel: Dcel<_> = new_triangle(['a', 'b', 'c'])?;
    /// let edge = dcel.directed_edges().last().unwrap();
    /// let edges = CircularIterator::<_, _, _, _, HullNextBackFn>::new(edge);
    /// assert!(edges.map(|edge| edge.index()).eq([5, 3, 1]));
    /// # Ok::<(), dcel::Refusal>(())
    /// ```
    #[inline]
    pub fn new(edge: DirectedEdgeHandle<'a, V, DE, UE, F>) -> Self {
        Self {
            left: Some([edge, edge]),
            step: PhantomData,
        }
    }

    /// Lists nothing, whatever the half edge.
    ///
    /// ```
    /// use dcel::iterators::{CircularIterator, HullNextBackFn};
    /// use dcel::{Dcel, operations::new_triangle};
    ///
    /// let dcel: Dcel<_> = new_triangle(['a', 'b', 'c'])?;
    /// let edge = dcel.directed_edges().last().unwrap();
    /// assert_eq!(CircularIterator::<_, _, _, _, HullNextBackFn>::new_empty(edge).count(), 0);
    /// # Ok::<(), dcel::Refusal>(())
    /// ```
    pub fn new_empty(edge: DirectedEdgeHandle<'a, V, DE, UE, F>) -> Self {
        Self::empty_of(edge.dcel)
    }

    /// Lists nothing of a mesh, which may have no half edge.
    ///
    /// ```
    /// use dcel::iterators::{CircularIterator, HullNextBackFn};
    ///
    /// let dcel = dcel::Dcel::<()>::default();
    /// assert_eq!(CircularIterator::<_, _, _, _, HullNextBackFn>::empty_of(&dcel).count(), 0);
    /// ```
    #[inline]
    pub fn empty_of(_dcel: &'a Dcel<V, DE, UE, F>) -> Self {
        Self {
            left: None,
            step: PhantomData,
        }
    }
}

impl<'a, V, DE, UE, F, NB: NextBackFn> Iterator for CircularIterator<'a, V, DE, UE, F, NB> {
    type Item = DirectedEdgeHandle<'a, V, DE, UE, F>;

    #[inline]
    fn next(&mut self) -> Option<Self::Item> {
        let [edge, end] = self.left?;
        let after = NB::next(edge);
        self.left = (after != end).then_some([after, end]);
        Some(edge)
    }

    fn size_hint(&self) -> (usize, Option<usize>) {
        (usize::from(self.left.is_some()), None)
    }
}

impl<V, DE, UE, F, NB: NextBackFn> DoubleEndedIterator for CircularIterator<'_, V, DE, UE, F, NB> {
    #[inline]
    fn next_back(&mut self) -> Option<Self::Item> {
        let [edge, end] = self.left?;
        let before = NB::next_back(end);
        self.left = (before != edge).then_some([edge, before]);
        Some(before)
    }
}

impl<V, DE, UE, F, NB: NextBackFn> FusedIterator for CircularIterator<'_, V, DE, UE, F, NB> {}

impl<V, DE, UE, F, NB> Clone for CircularIterator<'_, V, DE, UE, F, NB> {
    fn clone(&self) -> Self {
        Self {
            left: self.left,
            step: PhantomData,
        }
    }
}

impl<V, DE, UE, F, NB> fmt::Debug for CircularIterator<'_, V, DE, UE, F, NB> {
    fn fmt(&self, f: &mut fmt::Formatter<'_>) -> fmt::Result {
        f.debug_struct("CircularIterator")
            .field("left", &self.left)
            .finish()
    }
}
