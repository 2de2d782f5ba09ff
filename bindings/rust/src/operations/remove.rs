//! Removals. The values of what is taken out are dropped, but that of the vertex, which is
//! returned.

use super::results::{IsolateVertexResult, RemovalResult};
use crate::ffi::{Opened, Removed};
use crate::handles::{
    FixedDirectedEdgeHandle, FixedFaceHandle, FixedUndirectedEdgeHandle, FixedVertexHandle,
    InnerTag,
};
use crate::slab::Values;
use crate::{Dcel, Refusal};

/// Gives up a vertex, with its edges and the triangles round it, and fills the hole: opens a
/// removal.
///
/// The list is the border loop of the vertex: read from its end, what comes after the vertex's out
/// edges, counterclockwise. The new triangles meet where its last half edge starts.
///
/// # Errors
///
/// [`Refusal::NoSuchVertex`], [`Refusal::NoSuchEdge`], [`Refusal::RemovalOpen`],
/// [`Refusal::BadRing`], [`Refusal::NoRoom`] and [`Refusal::OutOfMemory`].
///
/// ```
/// use dcel::operations::*;
/// use dcel::{Dcel, RemovalState};
///
/// let mut dcel: Dcel<_> = new_triangle(['a', 'b', 'c'])?;
/// let vertex = append_unconnected_vertex(&mut dcel, 'd')?;
/// let face = dcel.inner_faces().next().unwrap().fix();
/// insert_into_triangle(&mut dcel, vertex, face)?;
///
/// let spokes = dcel.vertex(vertex).out_edges();
/// let border: Vec<_> = spokes.rev().map(|edge| edge.next().fix()).collect();
/// isolate_vertex_and_fill_hole(&mut dcel, &border, vertex)?;
/// assert_eq!(dcel.removal_state(), RemovalState::Isolated);
/// assert_eq!((dcel.vertices().count(), dcel.live_vertices().count()), (4, 3));
/// # Ok::<(), dcel::Refusal>(())
/// ```
pub fn isolate_vertex_and_fill_hole<V, DE, UE, F>(
    dcel: &mut Dcel<V, DE, UE, F>,
    border_loop: &[FixedDirectedEdgeHandle],
    vertex_to_remove: FixedVertexHandle,
) -> Result<IsolateVertexResult, Refusal> {
    opened(border_loop.len(), |edges, faces| {
        dcel.mesh
            .isolate_vertex_and_fill_hole(border_loop, vertex_to_remove.number(), edges, faces)
    })
}

/// Cuts off the vertex of the outer face whose strip the half edges are, and gives it up with its
/// edges and the triangles round it: opens a removal.
///
/// The list is what comes after the vertex's out edges, counterclockwise, from the outer one on,
/// but the first of these last.
///
/// # Errors
///
/// [`Refusal::NoSuchEdge`], [`Refusal::RemovalOpen`], [`Refusal::BadStrip`] and
/// [`Refusal::OutOfMemory`].
///
/// ```
/// use dcel::handles::FixedDirectedEdgeHandle;
/// use dcel::operations::*;
/// use dcel::Dcel;
///
/// let mut dcel: Dcel<_> = new_triangle(['a', 'b', 'c'])?;
/// let vertex = append_unconnected_vertex(&mut dcel, 'd')?;
/// create_new_face_adjacent_to_edge(&mut dcel, FixedDirectedEdgeHandle::new(0), vertex)?;
///
/// let outer = dcel.vertex(vertex).out_edges().find(|edge| edge.is_outer_edge()).unwrap();
/// let strip = [outer.ccw(), outer].map(|edge| edge.next().fix());
/// let opened = disconnect_edge_strip(&mut dcel, &strip)?;
/// assert_eq!((opened.edges_to_remove.len(), opened.faces_to_remove.len()), (2, 1));
/// # Ok::<(), dcel::Refusal>(())
/// ```
pub fn disconnect_edge_strip<V, DE, UE, F>(
    dcel: &mut Dcel<V, DE, UE, F>,
    edge_strip: &[FixedDirectedEdgeHandle],
) -> Result<IsolateVertexResult, Refusal> {
    opened(edge_strip.len(), |edges, faces| {
        dcel.mesh.disconnect_edge_strip(edge_strip, edges, faces)
    })
}

/// Gives up these edges and faces, with one vertex or none, inside the ring of the half edges, and
/// fills the hole: opens a removal.
///
/// Without a vertex the edges are between the faces, one fewer than these, and join them all. In
/// the worst case the time is quadratic in the length of the ring.
///
/// # Errors
///
/// [`Refusal::NoSuchEdge`], [`Refusal::NoSuchFace`], [`Refusal::RemovalOpen`],
/// [`Refusal::BadRing`], [`Refusal::NoRoom`] and [`Refusal::OutOfMemory`].
///
/// ```
/// use dcel::operations::*;
/// use dcel::Dcel;
///
/// let mut dcel: Dcel<_> = new_triangle(['a', 'b', 'c'])?;
/// let vertex = append_unconnected_vertex(&mut dcel, 'd')?;
/// let face = dcel.inner_faces().next().unwrap().fix();
/// insert_into_triangle(&mut dcel, vertex, face)?;
///
/// // The two triangles beside an edge of the new vertex, and the four half edges round them.
/// let edge = dcel.vertex(vertex).out_edge().unwrap();
/// let sides = [edge.next(), edge.prev(), edge.rev().next(), edge.rev().prev()];
/// let ring = [sides[3], sides[2], sides[1], sides[0]].map(|side| side.fix());
/// let faces = [edge, edge.rev()].map(|half| half.face().fix().as_inner().unwrap());
/// let edges = [edge.as_undirected().fix()];
/// let opened = remesh_edge_ring(&mut dcel, &ring, &edges, &faces)?;
/// assert_eq!(opened.new_edges.len(), 1);
/// # Ok::<(), dcel::Refusal>(())
/// ```
pub fn remesh_edge_ring<V, DE, UE, F>(
    dcel: &mut Dcel<V, DE, UE, F>,
    border_loop: &[FixedDirectedEdgeHandle],
    edges_to_remove: &[FixedUndirectedEdgeHandle],
    faces_to_remove: &[FixedFaceHandle<InnerTag>],
) -> Result<IsolateVertexResult, Refusal> {
    let opened = dcel
        .mesh
        .remesh_edge_ring(border_loop, edges_to_remove, faces_to_remove)?;
    Ok(result(
        opened,
        edges_to_remove.to_vec(),
        faces_to_remove.to_vec(),
    ))
}

/// Opens a removal by a call that puts what is given up into lists of this length.
fn opened(
    length: usize,
    open: impl FnOnce(
        &mut [FixedUndirectedEdgeHandle],
        &mut [FixedFaceHandle<InnerTag>],
    ) -> Result<Opened, Refusal>,
) -> Result<IsolateVertexResult, Refusal> {
    let mut edges = vec![FixedUndirectedEdgeHandle::of(0); length];
    let mut faces = vec![FixedFaceHandle::of(0); length];
    let opened = open(&mut edges, &mut faces)?;
    edges.truncate(opened.edges as usize);
    faces.truncate(opened.faces as usize);
    Ok(result(opened, edges, faces))
}

fn result(
    opened: Opened,
    edges_to_remove: Vec<FixedUndirectedEdgeHandle>,
    faces_to_remove: Vec<FixedFaceHandle<InnerTag>>,
) -> IsolateVertexResult {
    let first = opened.smallest_new_edge as u32;
    let behind = first + opened.new_edges as u32;
    IsolateVertexResult {
        new_edges: (first..behind).map(FixedUndirectedEdgeHandle::of).collect(),
        smallest_new_edge: FixedUndirectedEdgeHandle::of(first),
        edges_to_remove,
        faces_to_remove,
    }
}

/// Takes out what the open removal has given up, which the lists name in any order: the last edges
/// and faces get the free numbers. A removal that has given up no vertex is closed. The lists
/// ascend afterwards.
///
/// # Errors
///
/// [`Refusal::NoSuchEdge`], [`Refusal::NoSuchFace`], [`Refusal::NoRemoval`],
/// [`Refusal::WrongLists`] and [`Refusal::OutOfMemory`].
///
/// ```
/// use dcel::operations::{IsolateVertexResult, cleanup_isolated_vertex};
/// use dcel::handles::FixedUndirectedEdgeHandle;
/// use dcel::{Dcel, Refusal};
///
/// let mut isolated = IsolateVertexResult {
///     new_edges: Vec::new(),
///     smallest_new_edge: FixedUndirectedEdgeHandle::new(0),
///     edges_to_remove: Vec::new(),
///     faces_to_remove: Vec::new(),
/// };
/// let mut dcel = Dcel::<char>::new()?;
/// assert_eq!(cleanup_isolated_vertex(&mut dcel, &mut isolated), Err(Refusal::NoRemoval));
/// # Ok::<(), Refusal>(())
/// ```
pub fn cleanup_isolated_vertex<V, DE, UE, F>(
    dcel: &mut Dcel<V, DE, UE, F>,
    isolated: &mut IsolateVertexResult,
) -> Result<(), Refusal> {
    let gone = Gone::of(dcel, &isolated.edges_to_remove, &isolated.faces_to_remove);
    dcel.mesh
        .cleanup_isolated_vertex(&isolated.edges_to_remove, &isolated.faces_to_remove)?;
    isolated.edges_to_remove.sort_unstable();
    isolated.faces_to_remove.sort_unstable();
    gone.drop_values(dcel);
    Ok(())
}

/// Takes out a vertex that has no edge, or was given up by a removal that is cleaned up, and closes
/// that. The last vertex gets its number.
///
/// # Errors
///
/// [`Refusal::NoSuchVertex`], [`Refusal::RemovalOpen`] and [`Refusal::VertexInUse`].
///
/// ```
/// use dcel::operations::{append_unconnected_vertex, swap_remove_vertex};
///
/// let mut dcel = dcel::Dcel::<char>::new()?;
/// let vertex = append_unconnected_vertex(&mut dcel, 'a')?;
/// let removed = swap_remove_vertex(&mut dcel, vertex)?;
/// assert_eq!((removed.removed_vertex, removed.swapped_in_vertex), ('a', None));
/// # Ok::<(), dcel::Refusal>(())
/// ```
pub fn swap_remove_vertex<V, DE, UE, F>(
    dcel: &mut Dcel<V, DE, UE, F>,
    vertex: FixedVertexHandle,
) -> Result<RemovalResult<V>, Refusal> {
    let removed = dcel.mesh.swap_remove_vertex(vertex.number())?;
    Ok(taken_out(dcel, removed))
}

/// Takes a vertex out of a mesh that is one vertex or a path, with an edge if it has one. The last
/// vertex and the last edge get the free numbers.
///
/// # Errors
///
/// [`Refusal::NoSuchVertex`], [`Refusal::RemovalOpen`] and [`Refusal::NotPath`].
///
/// ```
/// use dcel::handles::FixedVertexHandle;
/// use dcel::operations::{extend_line, new_with_fixed_vertices, remove_when_degenerate};
/// use dcel::Dcel;
///
/// let [a, b, c] = [0, 1, 2].map(FixedVertexHandle::new);
/// let mut dcel: Dcel<_> = new_with_fixed_vertices(vec!['a', 'b', 'c'], a, b)?;
/// extend_line(&mut dcel, b, c)?;
/// assert_eq!(remove_when_degenerate(&mut dcel, b)?.removed_vertex, 'b');
/// let edge = dcel.undirected_edges().next().unwrap();
/// assert_eq!(edge.vertices().map(|vertex| *vertex.data()), ['a', 'c']);
/// # Ok::<(), dcel::Refusal>(())
/// ```
pub fn remove_when_degenerate<V, DE, UE, F>(
    dcel: &mut Dcel<V, DE, UE, F>,
    vertex_to_remove: FixedVertexHandle,
) -> Result<RemovalResult<V>, Refusal> {
    // The edge that goes is that of the half edge after the anchor, by `ccw`.
    let goes = dcel
        .vertex(vertex_to_remove)
        .out_edge()
        .map(|anchor| anchor.ccw().as_undirected().fix());
    let gone = Gone::of(dcel, goes.as_slice(), &[]);
    let removed = dcel
        .mesh
        .remove_when_degenerate(vertex_to_remove.number())?;
    gone.drop_values(dcel);
    Ok(taken_out(dcel, removed))
}

fn taken_out<V, DE, UE, F>(dcel: &mut Dcel<V, DE, UE, F>, removed: Removed) -> RemovalResult<V> {
    RemovalResult {
        removed_vertex: dcel.vertices.remove(removed.datum),
        swapped_in_vertex: removed.moved().map(FixedVertexHandle::of),
    }
}

/// The keys of values whose edges and faces are to be taken out. They are read before that.
struct Gone {
    directed_edges: Vec<u64>,
    undirected_edges: Vec<u64>,
    faces: Vec<u64>,
}

impl Gone {
    /// Reads the keys. Numbers out of range have none.
    fn of<V, DE, UE, F>(
        dcel: &Dcel<V, DE, UE, F>,
        edges: &[FixedUndirectedEdgeHandle],
        faces: &[FixedFaceHandle<InnerTag>],
    ) -> Self {
        let mesh = &dcel.mesh;
        let numbers = || edges.iter().map(|edge| edge.number());
        let has_halves = |edge: &u32| *edge < 1 << 31;
        let halves = numbers()
            .filter(has_halves)
            .flat_map(|edge| [2 * edge, 2 * edge + 1]);
        Self {
            directed_edges: written(
                &dcel.directed_edges,
                halves.map(|half| mesh.directed_edge_key(half)),
            ),
            undirected_edges: written(
                &dcel.undirected_edges,
                numbers().map(|edge| mesh.undirected_edge_key(edge)),
            ),
            faces: written(
                &dcel.faces,
                faces.iter().map(|face| mesh.face_key(face.number())),
            ),
        }
    }

    fn drop_values<V, DE, UE, F>(self, dcel: &mut Dcel<V, DE, UE, F>) {
        dcel.directed_edges.remove_all(self.directed_edges);
        dcel.undirected_edges.remove_all(self.undirected_edges);
        dcel.faces.remove_all(self.faces);
    }
}

/// Returns the keys under which something was written. If nothing was of the kind, none is read.
fn written<T>(values: &Values<T>, keys: impl Iterator<Item = Option<u64>>) -> Vec<u64> {
    if values.is_empty() {
        return Vec::new();
    }
    keys.flatten().filter(|key| *key != 0).collect()
}
