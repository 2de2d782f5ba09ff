//! Handles: numbers of elements, and borrowed elements.
//!
//! A *fixed* handle, such as [`FixedVertexHandle`], is a number. It borrows no mesh, and may name
//! an element that isn't there. A *dynamic* handle, such as [`VertexHandle`], is an element of a
//! borrowed mesh, with the steps from there and its datum.
//!
//! ```
//! use dcel::{Dcel, operations::new_triangle};
//!
//! let dcel: Dcel<_> = new_triangle(['a', 'b', 'c'])?;
//! let edge = dcel.directed_edges().next().unwrap();
//! let number = edge.next().fix(); // a fixed handle, which outlives the borrow
//! assert_eq!(dcel.directed_edge(number), edge.next());
//! # Ok::<(), dcel::Refusal>(())
//! ```

mod directed;
mod dynamic;
mod face;
mod fixed;
mod kinds;
mod undirected;
mod vertex;
mod voronoi;

pub use dynamic::{
    DirectedEdgeHandle, DynamicHandleImpl, FaceHandle, UndirectedEdgeHandle, VertexHandle,
};
pub use fixed::{
    FixedDirectedEdgeHandle, FixedFaceHandle, FixedHandleImpl, FixedUndirectedEdgeHandle,
    FixedVertexHandle, OUTER_FACE, OUTER_FACE_HANDLE, new_fixed_face_handle,
};
pub use kinds::{
    DelaunayElementType, DirectedEdgeTag, DirectedVoronoiEdgeTag, FaceTag, InnerOuterMarker,
    InnerTag, PossiblyOuterTag, UndirectedEdgeTag, UndirectedVoronoiEdgeTag, VertexTag,
    VoronoiFaceTag,
};
pub use voronoi::{
    DirectedVoronoiEdge, UndirectedVoronoiEdge, VoronoiFace, VoronoiFaceEdges, VoronoiVertex,
};
