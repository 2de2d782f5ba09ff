//! Dynamic handles: elements of a borrowed mesh.

use super::fixed::FixedHandleImpl;
use super::kinds::*;
use crate::Dcel;
use std::cmp::Ordering;
use std::fmt;
use std::hash::{Hash, Hasher};

/// An element of a borrowed mesh. Comparisons look at its number alone.
///
/// Use it by its aliases, such as [`VertexHandle`].
pub struct DynamicHandleImpl<
    'a,
    V,
    DE,
    UE,
    F,
    Type: DelaunayElementType,
    InnerOuter: InnerOuterMarker,
> {
    pub(crate) dcel: &'a Dcel<V, DE, UE, F>,
    pub(crate) handle: FixedHandleImpl<Type, InnerOuter>,
}

/// A vertex of a borrowed mesh.
pub type VertexHandle<'a, V, DE = (), UE = (), F = ()> =
    DynamicHandleImpl<'a, V, DE, UE, F, VertexTag, InnerTag>;

/// A half edge of a borrowed mesh.
///
/// ```text
///           apex            next  to -> apex
///           /  \            prev  apex -> from
///          /face\           rev   to -> from
///      from ----> to        ccw   from -> apex, the other half of prev
///          <----            cw    the half edge after rev on the face below
///           rev
/// ```
pub type DirectedEdgeHandle<'a, V, DE = (), UE = (), F = ()> =
    DynamicHandleImpl<'a, V, DE, UE, F, DirectedEdgeTag, InnerTag>;

/// An edge of a borrowed mesh.
pub type UndirectedEdgeHandle<'a, V, DE = (), UE = (), F = ()> =
    DynamicHandleImpl<'a, V, DE, UE, F, UndirectedEdgeTag, InnerTag>;

/// A face of a borrowed mesh. It may be the outer face with [`PossiblyOuterTag`], and isn't with
/// [`InnerTag`].
pub type FaceHandle<'a, InnerOuter, V, DE = (), UE = (), F = ()> =
    DynamicHandleImpl<'a, V, DE, UE, F, FaceTag, InnerOuter>;

impl<'a, V, DE, UE, F, Type: DelaunayElementType, InnerOuter: InnerOuterMarker>
    DynamicHandleImpl<'a, V, DE, UE, F, Type, InnerOuter>
{
    #[inline]
    pub(crate) fn new(
        dcel: &'a Dcel<V, DE, UE, F>,
        handle: FixedHandleImpl<Type, InnerOuter>,
    ) -> Self {
        Self { dcel, handle }
    }

    /// Returns the fixed handle, which borrows no mesh.
    ///
    /// ```
    /// use dcel::{Dcel, operations::new_triangle};
    ///
    /// let dcel: Dcel<_> = new_triangle(['a', 'b', 'c'])?;
    /// let vertex = dcel.vertices().next().unwrap().fix();
    /// assert_eq!(dcel.vertex(vertex).data(), &'a');
    /// # Ok::<(), dcel::Refusal>(())
    /// ```
    #[inline]
    pub fn fix(&self) -> FixedHandleImpl<Type, InnerOuter> {
        self.handle
    }

    /// Returns the number of the element.
    ///
    /// ```
    /// use dcel::{Dcel, operations::new_triangle};
    ///
    /// let dcel: Dcel<_> = new_triangle(['a', 'b', 'c'])?;
    /// assert!(dcel.directed_edges().map(|edge| edge.index()).eq(0..6));
    /// # Ok::<(), dcel::Refusal>(())
    /// ```
    #[inline]
    pub fn index(&self) -> usize {
        self.handle.index()
    }

    /// Returns whether the element is live: its number is in range, and no removal has given it up.
    ///
    /// ```
    /// use dcel::handles::FixedVertexHandle;
    /// use dcel::{Dcel, operations::new_triangle};
    ///
    /// let dcel: Dcel<_> = new_triangle(['a', 'b', 'c'])?;
    /// assert!(dcel.vertex(FixedVertexHandle::new(2)).is_live());
    /// assert!(!dcel.vertex(FixedVertexHandle::new(3)).is_live());
    /// # Ok::<(), dcel::Refusal>(())
    /// ```
    #[inline]
    pub fn is_live(&self) -> bool {
        Type::is_live(self.dcel, self.handle.number())
    }
}

/// Implements traits of dynamic handles by those of their numbers.
macro_rules! by_number {
    ($($bound:ident { $($item:item)* })*) => {$(
        impl<V, DE, UE, F, Type: DelaunayElementType, InnerOuter: InnerOuterMarker> $bound
            for DynamicHandleImpl<'_, V, DE, UE, F, Type, InnerOuter>
        {
            $($item)*
        }
    )*};
}

by_number! {
    Clone {
        #[inline]
        fn clone(&self) -> Self {
            *self
        }
    }

    Copy {}

    PartialEq {
        #[inline]
        fn eq(&self, other: &Self) -> bool {
            self.handle == other.handle
        }
    }

    Eq {}

    PartialOrd {
        #[inline]
        fn partial_cmp(&self, other: &Self) -> Option<Ordering> {
            Some(self.cmp(other))
        }
    }

    Ord {
        #[inline]
        fn cmp(&self, other: &Self) -> Ordering {
            self.handle.cmp(&other.handle)
        }
    }

    Hash {
        fn hash<H: Hasher>(&self, state: &mut H) {
            self.handle.hash(state);
        }
    }
}

impl<V, DE, UE, F> fmt::Debug for VertexHandle<'_, V, DE, UE, F> {
    fn fmt(&self, f: &mut fmt::Formatter<'_>) -> fmt::Result {
        write!(f, "VertexHandle({})", self.index())
    }
}

impl<V, DE, UE, F> fmt::Debug for DirectedEdgeHandle<'_, V, DE, UE, F> {
    fn fmt(&self, f: &mut fmt::Formatter<'_>) -> fmt::Result {
        write!(f, "DirectedEdgeHandle - id: {} ", self.index())?;
        if !self.is_live() {
            return f.write_str("(none)");
        }
        let [from, to] = self.vertices();
        write!(f, "({:?} -> {:?})", from.fix(), to.fix())
    }
}

impl<V, DE, UE, F> fmt::Debug for UndirectedEdgeHandle<'_, V, DE, UE, F> {
    fn fmt(&self, f: &mut fmt::Formatter<'_>) -> fmt::Result {
        write!(f, "UndirectedEdgeHandle - id: {} ", self.index())?;
        if !self.is_live() {
            return f.write_str("(none)");
        }
        let [from, to] = self.vertices();
        write!(f, "({:?} <-> {:?})", from.fix(), to.fix())
    }
}

impl<V, DE, UE, F> fmt::Debug for FaceHandle<'_, InnerTag, V, DE, UE, F> {
    fn fmt(&self, f: &mut fmt::Formatter<'_>) -> fmt::Result {
        write!(f, "FaceHandle - id: {} ", self.index())?;
        if self.dcel.face_adjacent_edge(self.handle).is_none() {
            return f.write_str("(none)");
        }
        let [a, b, c] = self.vertices().map(|vertex| vertex.index());
        write!(f, "({a}, {b}, {c})")
    }
}

impl<V, DE, UE, F> fmt::Debug for FaceHandle<'_, PossiblyOuterTag, V, DE, UE, F> {
    fn fmt(&self, f: &mut fmt::Formatter<'_>) -> fmt::Result {
        match self.as_inner() {
            Some(inner) => inner.fmt(f),
            None => f.write_str("OuterFace"),
        }
    }
}
