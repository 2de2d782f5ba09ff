//! Marks of handles: their kinds, and whether they may name the outer face.

use crate::Dcel;
use std::fmt::Debug;
use std::hash::Hash;

/// A kind of elements.
///
/// ```
/// use dcel::handles::{DelaunayElementType, DirectedEdgeTag, FaceTag};
/// use dcel::{Dcel, operations::new_triangle};
///
/// let dcel: Dcel<_> = new_triangle(['a', 'b', 'c'])?;
/// assert_eq!(FaceTag::num_elements(&dcel), 2);
/// assert!(DirectedEdgeTag::is_live(&dcel, 5) && !DirectedEdgeTag::is_live(&dcel, 6));
/// # Ok::<(), dcel::Refusal>(())
/// ```
pub trait DelaunayElementType: Copy + Ord + Hash + Debug + Default {
    /// Returns how many elements of the kind the mesh has, with those that are given up.
    fn num_elements<V, DE, UE, F>(dcel: &Dcel<V, DE, UE, F>) -> usize;

    /// Returns whether there is an element with this number, and no removal has given it up.
    fn is_live<V, DE, UE, F>(dcel: &Dcel<V, DE, UE, F>, number: u32) -> bool;
}

/// Makes the mark of a kind from what it marks, its count and its test.
macro_rules! kinds {
    ($($name:ident, $marks:literal, $count:ident, $number:ident => $live:ident($given:expr);)*) => {$(
        #[doc = concat!("Marks handles of ", $marks, ".")]
        #[derive(Clone, Copy, PartialEq, Eq, PartialOrd, Ord, Debug, Default, Hash)]
        pub struct $name;

        impl DelaunayElementType for $name {
            #[inline]
            fn num_elements<V, DE, UE, F>(dcel: &Dcel<V, DE, UE, F>) -> usize {
                dcel.mesh.$count()
            }

            #[inline]
            fn is_live<V, DE, UE, F>(dcel: &Dcel<V, DE, UE, F>, $number: u32) -> bool {
                dcel.mesh.$live($given)
            }
        }
    )*};
}

kinds! {
    VertexTag, "vertices", num_vertices, number => is_live_vertex(number);
    DirectedEdgeTag, "half edges", num_directed_edges, number => is_live_edge(number / 2);
    UndirectedEdgeTag, "edges, each a pair of half edges", num_undirected_edges, number => is_live_edge(number);
    FaceTag, "faces", num_faces, number => is_live_face(number);
    DirectedVoronoiEdgeTag, "half edges of the Voronoi diagram", num_directed_edges, number => is_live_edge(number / 2);
    UndirectedVoronoiEdgeTag, "edges of the Voronoi diagram", num_undirected_edges, number => is_live_edge(number);
    VoronoiFaceTag, "faces of the Voronoi diagram", num_vertices, number => is_live_vertex(number);
}

/// Tells whether a handle may name the outer face: [`InnerTag`] or [`PossiblyOuterTag`].
///
/// ```
/// use dcel::handles::{InnerOuterMarker, PossiblyOuterTag};
///
/// assert_eq!(PossiblyOuterTag::debug_string(), "PossiblyOuter");
/// ```
pub trait InnerOuterMarker: Copy + Ord + Hash + Debug + Default {
    /// Returns the name of the mark.
    fn debug_string() -> &'static str;
}

/// Marks handles that aren't meant for the outer face.
///
/// A number with this mark may still be 0: calls that want an inner face test it.
#[derive(Clone, Copy, PartialEq, Eq, PartialOrd, Ord, Debug, Default, Hash)]
pub struct InnerTag;

/// Marks handles of faces that may be the outer face.
#[derive(Clone, Copy, PartialEq, Eq, PartialOrd, Ord, Debug, Default, Hash)]
pub struct PossiblyOuterTag;

impl InnerOuterMarker for InnerTag {
    fn debug_string() -> &'static str {
        "Inner"
    }
}

impl InnerOuterMarker for PossiblyOuterTag {
    fn debug_string() -> &'static str {
        "PossiblyOuter"
    }
}
