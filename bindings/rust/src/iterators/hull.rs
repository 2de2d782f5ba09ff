//! The half edges of the outer face.

use super::circular::{CircularIterator, HullNextBackFn};
use crate::Dcel;
use crate::handles::DirectedEdgeHandle;
use std::fmt;
use std::iter::FusedIterator;

/// An iterator over the half edges of the outer face, by `next` from its anchor on.
///
/// ```
/// use dcel::iterators::HullIterator;
/// use dcel::{Dcel, operations::new_triangle};
///
/// let dcel: Dcel<_> = new_triangle(['a', 'b', 'c'])?;
/// assert!(HullIterator::new(&dcel).map(|edge| *edge.from().data()).eq(['a', 'b', 'c']));
/// # Ok::<(), dcel::Refusal>(())
/// ```
pub struct HullIterator<'a, V, DE, UE, F> {
    edges: CircularIterator<'a, V, DE, UE, F, HullNextBackFn>,
}

impl<'a, V, DE, UE, F> HullIterator<'a, V, DE, UE, F> {
    /// Lists the hull of a mesh: nothing if there is no live edge.
    ///
    /// ```
    /// use dcel::iterators::HullIterator;
    ///
    /// assert_eq!(HullIterator::new(&dcel::Dcel::<()>::default()).count(), 0);
    /// ```
    pub fn new(dcel: &'a Dcel<V, DE, UE, F>) -> Self {
        Self {
            edges: dcel.outer_face().directed_edges(),
        }
    }
}

impl<'a, V, DE, UE, F> Iterator for HullIterator<'a, V, DE, UE, F> {
    type Item = DirectedEdgeHandle<'a, V, DE, UE, F>;

    #[inline]
    fn next(&mut self) -> Option<Self::Item> {
        self.edges.next()
    }

    fn size_hint(&self) -> (usize, Option<usize>) {
        self.edges.size_hint()
    }
}

impl<V, DE, UE, F> DoubleEndedIterator for HullIterator<'_, V, DE, UE, F> {
    #[inline]
    fn next_back(&mut self) -> Option<Self::Item> {
        self.edges.next_back()
    }
}

impl<V, DE, UE, F> FusedIterator for HullIterator<'_, V, DE, UE, F> {}

impl<V, DE, UE, F> Clone for HullIterator<'_, V, DE, UE, F> {
    fn clone(&self) -> Self {
        Self {
            edges: self.edges.clone(),
        }
    }
}

impl<V, DE, UE, F> fmt::Debug for HullIterator<'_, V, DE, UE, F> {
    fn fmt(&self, f: &mut fmt::Formatter<'_>) -> fmt::Result {
        f.debug_tuple("HullIterator").field(&self.edges).finish()
    }
}
