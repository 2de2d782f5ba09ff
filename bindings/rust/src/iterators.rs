//! Iterators over the elements of a mesh, and round its vertices and faces.
//!
//! Those over all elements list given-up ones too, while a removal is open; those over live
//! elements don't.

mod circular;
mod dynamic;
mod fixed;
mod hull;
mod live;

pub use circular::{CCWEdgesNextBackFn, CircularIterator, HullNextBackFn, NextBackFn};
pub use dynamic::DynamicHandleIterator;
pub use fixed::FixedHandleIterator;
pub use hull::HullIterator;
pub use live::LiveIterator;

use crate::handles::{
    DirectedEdgeTag, DirectedVoronoiEdgeTag, FaceTag, InnerTag, PossiblyOuterTag,
    UndirectedEdgeTag, UndirectedVoronoiEdgeTag, VertexTag, VoronoiFaceTag,
};

/// Names the iterators over the elements of a kind.
macro_rules! aliases {
    ($($marks:literal, $type:ident, $inner_outer:ident: $all:ident $fixed:ident;)*) => {$(
        #[doc = concat!("An iterator over all ", $marks, ".")]
        pub type $all<'a, V, DE = (), UE = (), F = ()> =
            DynamicHandleIterator<'a, V, DE, UE, F, $type, $inner_outer>;

        #[doc = concat!("An iterator over the numbers of all ", $marks, ".")]
        pub type $fixed = FixedHandleIterator<$type, $inner_outer>;
    )*};
}

aliases! {
    "vertices", VertexTag, InnerTag: VertexIterator FixedVertexIterator;
    "half edges", DirectedEdgeTag, InnerTag: DirectedEdgeIterator FixedDirectedEdgeIterator;
    "edges", UndirectedEdgeTag, InnerTag: UndirectedEdgeIterator FixedUndirectedEdgeIterator;
    "faces", FaceTag, PossiblyOuterTag: FaceIterator FixedFaceIterator;
    "inner faces", FaceTag, InnerTag: InnerFaceIterator FixedInnerFaceIterator;
}

/// Names the iterators over the live elements of a kind.
macro_rules! live_aliases {
    ($($marks:literal, $type:ident, $inner_outer:ident: $live:ident;)*) => {$(
        #[doc = concat!("An iterator over the live ", $marks, ".")]
        pub type $live<'a, V, DE = (), UE = (), F = ()> =
            LiveIterator<'a, V, DE, UE, F, $type, $inner_outer>;
    )*};
}

live_aliases! {
    "vertices", VertexTag, InnerTag: LiveVertexIterator;
    "half edges", DirectedEdgeTag, InnerTag: LiveDirectedEdgeIterator;
    "edges", UndirectedEdgeTag, InnerTag: LiveUndirectedEdgeIterator;
    "faces", FaceTag, PossiblyOuterTag: LiveFaceIterator;
    "inner faces", FaceTag, InnerTag: LiveInnerFaceIterator;
}

/// An iterator over the faces of the Voronoi diagram.
pub type VoronoiFaceIterator<'a, V, DE = (), UE = (), F = ()> =
    DynamicHandleIterator<'a, V, DE, UE, F, VoronoiFaceTag, PossiblyOuterTag>;

/// An iterator over the half edges of the Voronoi diagram.
pub type DirectedVoronoiEdgeIterator<'a, V, DE = (), UE = (), F = ()> =
    DynamicHandleIterator<'a, V, DE, UE, F, DirectedVoronoiEdgeTag, InnerTag>;

/// An iterator over the edges of the Voronoi diagram.
pub type UndirectedVoronoiEdgeIterator<'a, V, DE = (), UE = (), F = ()> =
    DynamicHandleIterator<'a, V, DE, UE, F, UndirectedVoronoiEdgeTag, InnerTag>;
