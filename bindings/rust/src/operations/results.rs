//! What removals return.

use crate::handles::{FixedFaceHandle, FixedUndirectedEdgeHandle, FixedVertexHandle, InnerTag};

/// What a removal gave up, and the edges that it added.
///
/// ```
/// use dcel::Dcel;
/// use dcel::operations::*;
///
/// let mut dcel: Dcel<_> = new_triangle(['a', 'b', 'c'])?;
/// let vertex = append_unconnected_vertex(&mut dcel, 'd')?;
/// let face = dcel.inner_faces().next().unwrap().fix();
/// insert_into_triangle(&mut dcel, vertex, face)?;
///
/// let spokes = dcel.vertex(vertex).out_edges();
/// let border: Vec<_> = spokes.rev().map(|edge| edge.next().fix()).collect();
/// let isolated = isolate_vertex_and_fill_hole(&mut dcel, &border, vertex)?;
/// let edges = isolated.edges_to_remove.iter().map(|edge| edge.index());
/// assert!(edges.eq([3, 4, 5]));
/// assert_eq!(isolated.faces_to_remove.len(), 3);
/// assert!(isolated.new_edges.is_empty());
/// # Ok::<(), dcel::Refusal>(())
/// ```
#[derive(Clone, PartialEq, Eq, PartialOrd, Ord, Hash, Debug)]
pub struct IsolateVertexResult {
    /// The edges that it added, by the numbers that they have before cleanup.
    pub new_edges: Vec<FixedUndirectedEdgeHandle>,

    /// The smallest number that an added edge can have, 0 if a strip was cut off.
    pub smallest_new_edge: FixedUndirectedEdgeHandle,

    /// The edges that it gave up.
    pub edges_to_remove: Vec<FixedUndirectedEdgeHandle>,

    /// The faces that it gave up.
    pub faces_to_remove: Vec<FixedFaceHandle<InnerTag>>,
}

impl IsolateVertexResult {
    /// Returns whether the edge has at least the number of the first new edge.
    ///
    /// Before cleanup this holds for exactly the new edges and those that later calls have added.
    /// After a strip was cut off it holds for every edge, and after cleanup it says nothing.
    ///
    /// ```
    /// use dcel::handles::FixedUndirectedEdgeHandle;
    /// use dcel::operations::IsolateVertexResult;
    ///
    /// let [three, four] = [3, 4].map(FixedUndirectedEdgeHandle::new);
    /// let isolated = IsolateVertexResult {
    ///     new_edges: vec![four],
    ///     smallest_new_edge: four,
    ///     edges_to_remove: vec![three],
    ///     faces_to_remove: Vec::new(),
    /// };
    /// assert!(isolated.is_new_edge(four) && !isolated.is_new_edge(three));
    /// ```
    pub fn is_new_edge(&self, edge: FixedUndirectedEdgeHandle) -> bool {
        edge >= self.smallest_new_edge
    }
}

/// A vertex that was taken out.
///
/// ```
/// use dcel::operations::{RemovalResult, append_unconnected_vertex, swap_remove_vertex};
///
/// let mut dcel = dcel::Dcel::<char>::new()?;
/// let a = append_unconnected_vertex(&mut dcel, 'a')?;
/// let b = append_unconnected_vertex(&mut dcel, 'b')?;
/// let removed = swap_remove_vertex(&mut dcel, a)?;
/// assert_eq!(removed, RemovalResult { removed_vertex: 'a', swapped_in_vertex: Some(b) });
/// assert_eq!(dcel.vertex_data(a), &'b');
/// # Ok::<(), dcel::Refusal>(())
/// ```
#[derive(Clone, PartialEq, Eq, PartialOrd, Ord, Hash, Debug)]
pub struct RemovalResult<V> {
    /// The datum of the vertex.
    pub removed_vertex: V,

    /// The old number of the vertex that was moved into its place, if one was.
    pub swapped_in_vertex: Option<FixedVertexHandle>,
}
