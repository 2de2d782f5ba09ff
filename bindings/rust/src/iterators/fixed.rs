//! Numbers of elements.

use crate::handles::{DelaunayElementType, FixedHandleImpl, InnerOuterMarker};
use std::iter::FusedIterator;
use std::marker::PhantomData;
use std::ops::Range;

/// An iterator over the numbers of elements. It borrows no mesh.
///
/// ```
/// use dcel::{Dcel, operations::new_triangle};
///
/// let dcel: Dcel<_> = new_triangle(['a', 'b', 'c'])?;
/// assert!(dcel.fixed_vertices().map(|vertex| vertex.index()).eq(0..3));
/// # Ok::<(), dcel::Refusal>(())
/// ```
#[derive(Clone, Debug)]
pub struct FixedHandleIterator<Type, InnerOuter> {
    range: Range<usize>,
    kind: PhantomData<(Type, InnerOuter)>,
}

impl<Type: DelaunayElementType, InnerOuter: InnerOuterMarker>
    FixedHandleIterator<Type, InnerOuter>
{
    pub(crate) fn new(range: Range<usize>) -> Self {
        Self {
            range,
            kind: PhantomData,
        }
    }
}

impl<Type: DelaunayElementType, InnerOuter: InnerOuterMarker> Iterator
    for FixedHandleIterator<Type, InnerOuter>
{
    type Item = FixedHandleImpl<Type, InnerOuter>;

    #[inline]
    fn next(&mut self) -> Option<Self::Item> {
        self.range.next().map(FixedHandleImpl::new)
    }

    fn size_hint(&self) -> (usize, Option<usize>) {
        self.range.size_hint()
    }

    fn nth(&mut self, n: usize) -> Option<Self::Item> {
        self.range.nth(n).map(FixedHandleImpl::new)
    }
}

impl<Type: DelaunayElementType, InnerOuter: InnerOuterMarker> DoubleEndedIterator
    for FixedHandleIterator<Type, InnerOuter>
{
    fn next_back(&mut self) -> Option<Self::Item> {
        self.range.next_back().map(FixedHandleImpl::new)
    }

    fn nth_back(&mut self, n: usize) -> Option<Self::Item> {
        self.range.nth_back(n).map(FixedHandleImpl::new)
    }
}

impl<Type: DelaunayElementType, InnerOuter: InnerOuterMarker> ExactSizeIterator
    for FixedHandleIterator<Type, InnerOuter>
{
}

impl<Type: DelaunayElementType, InnerOuter: InnerOuterMarker> FusedIterator
    for FixedHandleIterator<Type, InnerOuter>
{
}
