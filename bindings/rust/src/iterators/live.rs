//! Live elements of a borrowed mesh.

use super::dynamic::DynamicHandleIterator;
use crate::handles::{DelaunayElementType, DynamicHandleImpl, InnerOuterMarker};
use std::fmt;
use std::iter::FusedIterator;

/// An iterator over the live elements of a borrowed mesh: those that no open removal has given up.
///
/// ```
/// use dcel::{Dcel, operations::new_triangle};
///
/// let dcel: Dcel<_> = new_triangle(['a', 'b', 'c'])?;
/// assert!(dcel.live_faces().eq(dcel.faces()));
/// # Ok::<(), dcel::Refusal>(())
/// ```
pub struct LiveIterator<'a, V, DE, UE, F, Type, InnerOuter> {
    all: DynamicHandleIterator<'a, V, DE, UE, F, Type, InnerOuter>,
}

impl<'a, V, DE, UE, F, Type, InnerOuter> LiveIterator<'a, V, DE, UE, F, Type, InnerOuter> {
    pub(crate) fn of(all: DynamicHandleIterator<'a, V, DE, UE, F, Type, InnerOuter>) -> Self {
        Self { all }
    }
}

impl<'a, V, DE, UE, F, Type: DelaunayElementType, InnerOuter: InnerOuterMarker> Iterator
    for LiveIterator<'a, V, DE, UE, F, Type, InnerOuter>
{
    type Item = DynamicHandleImpl<'a, V, DE, UE, F, Type, InnerOuter>;

    #[inline]
    fn next(&mut self) -> Option<Self::Item> {
        self.all.find(DynamicHandleImpl::is_live)
    }

    fn size_hint(&self) -> (usize, Option<usize>) {
        (0, Some(self.all.len()))
    }
}

impl<V, DE, UE, F, Type: DelaunayElementType, InnerOuter: InnerOuterMarker> DoubleEndedIterator
    for LiveIterator<'_, V, DE, UE, F, Type, InnerOuter>
{
    fn next_back(&mut self) -> Option<Self::Item> {
        self.all.rfind(DynamicHandleImpl::is_live)
    }
}

impl<V, DE, UE, F, Type: DelaunayElementType, InnerOuter: InnerOuterMarker> FusedIterator
    for LiveIterator<'_, V, DE, UE, F, Type, InnerOuter>
{
}

impl<V, DE, UE, F, Type: Clone, InnerOuter: Clone> Clone
    for LiveIterator<'_, V, DE, UE, F, Type, InnerOuter>
{
    fn clone(&self) -> Self {
        Self {
            all: self.all.clone(),
        }
    }
}

impl<V, DE, UE, F, Type: fmt::Debug, InnerOuter: fmt::Debug> fmt::Debug
    for LiveIterator<'_, V, DE, UE, F, Type, InnerOuter>
{
    fn fmt(&self, f: &mut fmt::Formatter<'_>) -> fmt::Result {
        f.debug_tuple("LiveIterator").field(&self.all).finish()
    }
}
