//! Fixed handles: the numbers of elements.

use super::kinds::*;
use std::fmt;
use std::marker::PhantomData;

/// The number of an element, below 2^32, with its kind and its mark as types.
///
/// Use it by its aliases, such as [`FixedVertexHandle`].
#[derive(Clone, Copy, PartialEq, Eq, PartialOrd, Ord, Hash)]
#[repr(transparent)]
pub struct FixedHandleImpl<Type: DelaunayElementType, InnerOuter: InnerOuterMarker> {
    index: u32,
    kind: PhantomData<(Type, InnerOuter)>,
}

/// The number of a vertex.
pub type FixedVertexHandle = FixedHandleImpl<VertexTag, InnerTag>;

/// The number of a half edge. Edge `u` has the half edges `2 * u` and `2 * u + 1`.
pub type FixedDirectedEdgeHandle = FixedHandleImpl<DirectedEdgeTag, InnerTag>;

/// The number of an edge.
pub type FixedUndirectedEdgeHandle = FixedHandleImpl<UndirectedEdgeTag, InnerTag>;

/// The number of a face, meant for the outer face only with [`PossiblyOuterTag`].
pub type FixedFaceHandle<InnerOuter> = FixedHandleImpl<FaceTag, InnerOuter>;

/// The outer face, which each mesh has: face 0.
///
/// ```
/// assert!(dcel::handles::OUTER_FACE.is_outer());
/// ```
pub const OUTER_FACE: FixedFaceHandle<PossiblyOuterTag> = FixedHandleImpl::of(0);

/// The same as [`OUTER_FACE`].
pub const OUTER_FACE_HANDLE: FixedFaceHandle<PossiblyOuterTag> = OUTER_FACE;

/// Makes the handle of the face with this number.
///
/// # Panics
///
/// Panics if the number isn't below 2^32.
///
/// ```
/// assert_eq!(dcel::handles::new_fixed_face_handle(3).index(), 3);
/// ```
pub const fn new_fixed_face_handle(index: usize) -> FixedFaceHandle<PossiblyOuterTag> {
    assert!(index <= u32::MAX as usize, "the number isn't below 2^32");
    FixedHandleImpl::of(index as u32)
}

impl<Type: DelaunayElementType, InnerOuter: InnerOuterMarker> FixedHandleImpl<Type, InnerOuter> {
    /// Makes the handle of the element with this number.
    ///
    /// # Panics
    ///
    /// Panics if the number isn't below 2^32.
    ///
    /// ```
    /// use dcel::handles::FixedDirectedEdgeHandle;
    ///
    /// assert_eq!(FixedDirectedEdgeHandle::new(3).index(), 3);
    /// ```
    #[inline]
    pub fn new(index: usize) -> Self {
        Self::of(u32::try_from(index).expect("the number is below 2^32"))
    }

    #[inline]
    pub(crate) const fn of(index: u32) -> Self {
        Self {
            index,
            kind: PhantomData,
        }
    }

    /// Returns the number of the element.
    ///
    /// ```
    /// use dcel::handles::FixedVertexHandle;
    ///
    /// assert_eq!(FixedVertexHandle::new(7).index(), 7);
    /// ```
    #[inline]
    pub fn index(self) -> usize {
        self.index as usize
    }

    #[inline]
    pub(crate) const fn number(self) -> u32 {
        self.index
    }

    /// Returns the handle with the same number and another mark.
    ///
    /// Face 0 gets [`InnerTag`] too: [`as_inner`](FixedFaceHandle::as_inner) rules it out.
    ///
    /// ```
    /// use dcel::handles::{FixedFaceHandle, InnerTag, PossiblyOuterTag};
    ///
    /// let inner = FixedFaceHandle::<InnerTag>::new(3);
    /// let face: FixedFaceHandle<PossiblyOuterTag> = inner.adjust_inner_outer();
    /// assert_eq!(face.as_inner(), Some(inner));
    /// ```
    #[inline]
    pub fn adjust_inner_outer<TargetInnerOuter: InnerOuterMarker>(
        self,
    ) -> FixedHandleImpl<Type, TargetInnerOuter> {
        FixedHandleImpl::of(self.index)
    }
}

impl FixedVertexHandle {
    /// Makes the handle of the vertex with this number: the same as `new`.
    ///
    /// # Panics
    ///
    /// Panics if the number isn't below 2^32.
    ///
    /// ```
    /// use dcel::handles::FixedVertexHandle;
    ///
    /// assert_eq!(FixedVertexHandle::from_index(7), FixedVertexHandle::new(7));
    /// ```
    #[inline]
    pub fn from_index(index: usize) -> Self {
        Self::new(index)
    }
}

impl FixedDirectedEdgeHandle {
    /// Makes the handle of the even half edge of an edge, which is called normalized.
    ///
    /// # Panics
    ///
    /// Panics if the edge's number isn't below 2^31.
    ///
    /// ```
    /// use dcel::handles::FixedDirectedEdgeHandle;
    ///
    /// assert_eq!(FixedDirectedEdgeHandle::new_normalized(3).index(), 6);
    /// ```
    #[inline]
    pub fn new_normalized(index: usize) -> Self {
        assert!(index < 1 << 31, "the edge's number isn't below 2^31");
        Self::new(2 * index)
    }

    /// Returns whether the number is even.
    ///
    /// ```
    /// use dcel::handles::FixedDirectedEdgeHandle;
    ///
    /// assert!(!FixedDirectedEdgeHandle::new(7).is_normalized());
    /// ```
    #[inline]
    pub fn is_normalized(self) -> bool {
        self.index % 2 == 0
    }

    /// Returns the other half of the edge.
    ///
    /// ```
    /// use dcel::handles::FixedDirectedEdgeHandle;
    ///
    /// assert_eq!(FixedDirectedEdgeHandle::new(6).rev().index(), 7);
    /// ```
    #[inline]
    pub fn rev(self) -> Self {
        Self::of(self.index ^ 1)
    }

    /// Returns the edge that this is a half of.
    ///
    /// ```
    /// use dcel::handles::FixedDirectedEdgeHandle;
    ///
    /// assert_eq!(FixedDirectedEdgeHandle::new(7).as_undirected().index(), 3);
    /// ```
    #[inline]
    pub fn as_undirected(self) -> FixedUndirectedEdgeHandle {
        FixedHandleImpl::of(self.index / 2)
    }
}

impl FixedUndirectedEdgeHandle {
    /// Returns the even half of the edge.
    ///
    /// # Panics
    ///
    /// Panics if the edge's number isn't below 2^31.
    ///
    /// ```
    /// use dcel::handles::FixedUndirectedEdgeHandle;
    ///
    /// assert_eq!(FixedUndirectedEdgeHandle::new(3).as_directed().index(), 6);
    /// ```
    #[inline]
    pub fn as_directed(self) -> FixedDirectedEdgeHandle {
        FixedDirectedEdgeHandle::new_normalized(self.index())
    }

    /// Returns both halves of the edge, the even one first.
    ///
    /// # Panics
    ///
    /// Panics if the edge's number isn't below 2^31.
    ///
    /// ```
    /// use dcel::handles::FixedUndirectedEdgeHandle;
    ///
    /// let halves = FixedUndirectedEdgeHandle::new(3).directed_edges();
    /// assert_eq!(halves.map(|half| half.index()), [6, 7]);
    /// ```
    #[inline]
    pub fn directed_edges(self) -> [FixedDirectedEdgeHandle; 2] {
        [self.as_directed(), self.as_directed().rev()]
    }
}

impl FixedFaceHandle<PossiblyOuterTag> {
    /// Returns whether this is the outer face.
    ///
    /// ```
    /// assert!(!dcel::handles::new_fixed_face_handle(3).is_outer());
    /// ```
    #[inline]
    pub fn is_outer(self) -> bool {
        self == OUTER_FACE
    }

    /// Returns the face with the mark of inner ones, or None if it is the outer face.
    ///
    /// ```
    /// assert!(dcel::handles::OUTER_FACE.as_inner().is_none());
    /// ```
    #[inline]
    pub fn as_inner(self) -> Option<FixedFaceHandle<InnerTag>> {
        (!self.is_outer()).then(|| self.adjust_inner_outer())
    }
}

impl<Type: DelaunayElementType, InnerOuter: InnerOuterMarker> fmt::Debug
    for FixedHandleImpl<Type, InnerOuter>
{
    fn fmt(&self, f: &mut fmt::Formatter<'_>) -> fmt::Result {
        f.debug_struct("FixedHandle")
            .field("index", &self.index)
            .finish()
    }
}
