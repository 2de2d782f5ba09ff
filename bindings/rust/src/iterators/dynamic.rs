//! Elements of a borrowed mesh.

use super::fixed::FixedHandleIterator;
use crate::Dcel;
use crate::handles::{DelaunayElementType, DynamicHandleImpl, FixedHandleImpl, InnerOuterMarker};
use std::fmt;
use std::iter::FusedIterator;

/// An iterator over elements of a borrowed mesh, with those that are given up.
///
/// ```
/// use dcel::{Dcel, operations::new_triangle};
///
/// let dcel: Dcel<_> = new_triangle(['a', 'b', 'c'])?;
/// assert_eq!(dcel.vertices().nth(1).unwrap().data(), &'b');
/// assert_eq!(dcel.vertices().rev().next().unwrap().data(), &'c');
/// # Ok::<(), dcel::Refusal>(())
/// ```
pub struct DynamicHandleIterator<'a, V, DE, UE, F, Type, InnerOuter> {
    dcel: &'a Dcel<V, DE, UE, F>,
    numbers: FixedHandleIterator<Type, InnerOuter>,
}

impl<'a, V, DE, UE, F, Type: DelaunayElementType, InnerOuter: InnerOuterMarker>
    DynamicHandleIterator<'a, V, DE, UE, F, Type, InnerOuter>
{
    /// Begins with this number.
    pub(crate) fn from(dcel: &'a Dcel<V, DE, UE, F>, start: usize) -> Self {
        Self {
            dcel,
            numbers: FixedHandleIterator::new(start..Type::num_elements(dcel)),
        }
    }

    #[inline]
    fn element(
        &self,
        number: Option<FixedHandleImpl<Type, InnerOuter>>,
    ) -> Option<DynamicHandleImpl<'a, V, DE, UE, F, Type, InnerOuter>> {
        Some(DynamicHandleImpl::new(self.dcel, number?))
    }
}

impl<'a, V, DE, UE, F, Type: DelaunayElementType, InnerOuter: InnerOuterMarker> Iterator
    for DynamicHandleIterator<'a, V, DE, UE, F, Type, InnerOuter>
{
    type Item = DynamicHandleImpl<'a, V, DE, UE, F, Type, InnerOuter>;

    #[inline]
    fn next(&mut self) -> Option<Self::Item> {
        let number = self.numbers.next();
        self.element(number)
    }

    fn size_hint(&self) -> (usize, Option<usize>) {
        self.numbers.size_hint()
    }

    fn nth(&mut self, n: usize) -> Option<Self::Item> {
        let number = self.numbers.nth(n);
        self.element(number)
    }
}

impl<V, DE, UE, F, Type: DelaunayElementType, InnerOuter: InnerOuterMarker> DoubleEndedIterator
    for DynamicHandleIterator<'_, V, DE, UE, F, Type, InnerOuter>
{
    fn next_back(&mut self) -> Option<Self::Item> {
        let number = self.numbers.next_back();
        self.element(number)
    }

    fn nth_back(&mut self, n: usize) -> Option<Self::Item> {
        let number = self.numbers.nth_back(n);
        self.element(number)
    }
}

impl<V, DE, UE, F, Type: DelaunayElementType, InnerOuter: InnerOuterMarker> ExactSizeIterator
    for DynamicHandleIterator<'_, V, DE, UE, F, Type, InnerOuter>
{
}

impl<V, DE, UE, F, Type: DelaunayElementType, InnerOuter: InnerOuterMarker> FusedIterator
    for DynamicHandleIterator<'_, V, DE, UE, F, Type, InnerOuter>
{
}

impl<V, DE, UE, F, Type: Clone, InnerOuter: Clone> Clone
    for DynamicHandleIterator<'_, V, DE, UE, F, Type, InnerOuter>
{
    fn clone(&self) -> Self {
        Self {
            dcel: self.dcel,
            numbers: self.numbers.clone(),
        }
    }
}

impl<V, DE, UE, F, Type: fmt::Debug, InnerOuter: fmt::Debug> fmt::Debug
    for DynamicHandleIterator<'_, V, DE, UE, F, Type, InnerOuter>
{
    fn fmt(&self, f: &mut fmt::Formatter<'_>) -> fmt::Result {
        f.debug_tuple("DynamicHandleIterator")
            .field(&self.numbers)
            .finish()
    }
}
