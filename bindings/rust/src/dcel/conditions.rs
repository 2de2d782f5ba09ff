//! Tests of what edits ask. Any numbers may be given.

use super::{Dcel, RemovalState};
use crate::ffi::removal_state;
use crate::handles::*;
use crate::operations::IsolateVertexResult;
use crate::refusal::Refusal;

/// Tests of elements.
impl<V, DE, UE, F> Dcel<V, DE, UE, F> {
    /// Returns whether the vertex is live: its number is in range, and no removal has given it up.
    ///
    /// ```
    /// use dcel::handles::FixedVertexHandle;
    ///
    /// assert!(!dcel::Dcel::<()>::default().is_live_vertex(FixedVertexHandle::new(0)));
    /// ```
    pub fn is_live_vertex(&self, handle: FixedVertexHandle) -> bool {
        self.mesh.is_live_vertex(handle.number())
    }

    /// Returns whether the edge is live. Its halves are so too.
    ///
    /// ```
    /// use dcel::handles::FixedUndirectedEdgeHandle;
    ///
    /// assert!(!dcel::Dcel::<()>::default().is_live_edge(FixedUndirectedEdgeHandle::new(0)));
    /// ```
    pub fn is_live_edge(&self, handle: FixedUndirectedEdgeHandle) -> bool {
        self.mesh.is_live_edge(handle.number())
    }

    /// Returns whether the face is live. The outer one always is.
    ///
    /// ```
    /// assert!(dcel::Dcel::<()>::default().is_live_face(dcel::handles::OUTER_FACE));
    /// ```
    pub fn is_live_face<InnerOuter: InnerOuterMarker>(
        &self,
        handle: FixedFaceHandle<InnerOuter>,
    ) -> bool {
        self.mesh.is_live_face(handle.number())
    }

    /// Returns whether the vertex is live, and no half edge starts there.
    ///
    /// ```
    /// use dcel::{Dcel, operations::append_unconnected_vertex};
    ///
    /// let mut dcel = Dcel::<char>::new()?;
    /// let vertex = append_unconnected_vertex(&mut dcel, 'a')?;
    /// assert!(dcel.is_unconnected(vertex));
    /// # Ok::<(), dcel::Refusal>(())
    /// ```
    pub fn is_unconnected(&self, handle: FixedVertexHandle) -> bool {
        self.mesh.is_unconnected(handle.number())
    }

    /// Returns whether the vertex is live, and exactly one half edge starts there.
    ///
    /// ```
    /// use dcel::handles::FixedVertexHandle;
    /// use dcel::{Dcel, operations::new_with_fixed_vertices};
    ///
    /// let [a, b] = [0, 1].map(FixedVertexHandle::new);
    /// let dcel: Dcel<_> = new_with_fixed_vertices(vec!['a', 'b'], a, b)?;
    /// assert!(dcel.is_line_end(a) && dcel.is_line_end(b));
    /// # Ok::<(), dcel::Refusal>(())
    /// ```
    pub fn is_line_end(&self, handle: FixedVertexHandle) -> bool {
        self.mesh.is_line_end(handle.number())
    }

    /// Returns whether the face is live, and has three half edges.
    ///
    /// ```
    /// use dcel::{Dcel, operations::new_triangle};
    ///
    /// let dcel: Dcel<_> = new_triangle(['a', 'b', 'c'])?;
    /// assert!(dcel.fixed_faces().all(|face| dcel.is_triangle(face)));
    /// # Ok::<(), dcel::Refusal>(())
    /// ```
    pub fn is_triangle<InnerOuter: InnerOuterMarker>(
        &self,
        handle: FixedFaceHandle<InnerOuter>,
    ) -> bool {
        self.mesh.is_triangle(handle.number())
    }

    /// Returns whether the half edge is live, and both halves of its edge lie on one face.
    ///
    /// ```
    /// use dcel::handles::{FixedDirectedEdgeHandle, FixedVertexHandle};
    /// use dcel::{Dcel, operations::new_with_fixed_vertices};
    ///
    /// let [a, b] = [0, 1].map(FixedVertexHandle::new);
    /// let dcel: Dcel<_> = new_with_fixed_vertices(vec!['a', 'b'], a, b)?;
    /// assert!(dcel.is_bridge(FixedDirectedEdgeHandle::new(0)));
    /// # Ok::<(), dcel::Refusal>(())
    /// ```
    pub fn is_bridge(&self, handle: FixedDirectedEdgeHandle) -> bool {
        self.mesh.is_bridge(handle.number())
    }

    /// Returns whether there are numbers left for that many more elements: 2^32 for vertices and
    /// faces, 2^31 for edges. Edits stop at 2^31 of each kind.
    ///
    /// ```
    /// let dcel = dcel::Dcel::<()>::default();
    /// assert!(dcel.has_room(1 << 32, 0, 0) && !dcel.has_room(0, 0, 1 << 32));
    /// ```
    pub fn has_room(&self, vertices: usize, undirected_edges: usize, faces: usize) -> bool {
        self.mesh
            .has_room(vertices as u64, undirected_edges as u64, faces as u64)
    }

    /// Returns whether the mesh looks triangulated, with no removal open: it has at most one
    /// vertex, or an edge and no vertex without one; inner faces are triangles, and with more than
    /// one face no edge has one face on both sides.
    ///
    /// ```
    /// use dcel::{Dcel, operations::new_triangle};
    ///
    /// let dcel: Dcel<_> = new_triangle(['a', 'b', 'c'])?;
    /// assert!(dcel.sanity_check());
    /// # Ok::<(), dcel::Refusal>(())
    /// ```
    pub fn sanity_check(&self) -> bool {
        self.mesh.sanity_check()
    }

    /// Returns how far a removal has come.
    ///
    /// ```
    /// assert_eq!(dcel::Dcel::<()>::default().removal_state(), dcel::RemovalState::Closed);
    /// ```
    pub fn removal_state(&self) -> RemovalState {
        match self.mesh.removal_state() {
            removal_state::CLOSED => RemovalState::Closed,
            removal_state::ISOLATED => RemovalState::Isolated,
            _ => RemovalState::Cleaned,
        }
    }
}

/// Makes the tests of all that an edit asks but room and memory.
macro_rules! tests {
    ($($edit:ident: $name:ident($($argument:ident: $kind:ty),*);)*) => {$(
        #[doc = concat!(
            "Returns whether all is so that [`", stringify!($edit), "`](crate::operations::", stringify!($edit),
            ") asks, but for room and memory."
        )]
        ///
        /// ```
        /// use dcel::handles::*;
        ///
        /// let dcel = dcel::Dcel::<()>::default();
        #[doc = concat!(
            "assert!(!dcel.", stringify!($name), "(", $("<", stringify!($kind), ">::new(1), ",)* "));"
        )]
        /// ```
        pub fn $name(&self, $($argument: $kind),*) -> bool {
            self.mesh.$name($($argument.number()),*)
        }
    )*};
}

/// Tests of what edits ask but room and memory.
impl<V, DE, UE, F> Dcel<V, DE, UE, F> {
    tests! {
        setup_initial_two_vertices: can_setup_initial_two_vertices(first: FixedVertexHandle, second: FixedVertexHandle);
        extend_line: can_extend_line(end: FixedVertexHandle, vertex: FixedVertexHandle);
        split_edge_when_all_vertices_on_line: can_split_edge_when_all_vertices_on_line(
            edge: FixedDirectedEdgeHandle, vertex: FixedVertexHandle);
        create_single_face_between_edge_and_next: can_close_outside(edge: FixedDirectedEdgeHandle);
        create_new_face_adjacent_to_edge: can_create_new_face_adjacent_to_edge(
            edge: FixedDirectedEdgeHandle, vertex: FixedVertexHandle);
        insert_into_triangle: can_insert_into_triangle(vertex: FixedVertexHandle, face: FixedFaceHandle<InnerTag>);
        split_half_edge: can_split_half_edge(edge: FixedDirectedEdgeHandle, vertex: FixedVertexHandle);
        split_edge: can_split_edge(edge: FixedDirectedEdgeHandle, vertex: FixedVertexHandle);
        flip_cw: can_flip(edge: FixedUndirectedEdgeHandle);
        swap_remove_vertex: can_swap_remove(vertex: FixedVertexHandle);
        remove_when_degenerate: can_remove_degenerate(vertex: FixedVertexHandle);
    }
}

/// Tests of lists, which need memory for these.
///
/// # Errors
///
/// [`Refusal::OutOfMemory`], each.
///
/// ```
/// use dcel::operations::*;
/// use dcel::Dcel;
///
/// let mut dcel: Dcel<_> = new_triangle(['a', 'b', 'c'])?;
/// let vertex = append_unconnected_vertex(&mut dcel, 'd')?;
/// let face = dcel.inner_faces().next().unwrap().fix();
/// insert_into_triangle(&mut dcel, vertex, face)?;
///
/// let spokes = dcel.vertex(vertex).out_edges();
/// let border: Vec<_> = spokes.rev().map(|edge| edge.next().fix()).collect();
/// let spokes = dcel.vertex(vertex).out_edges();
/// let edges: Vec<_> = spokes.map(|edge| edge.as_undirected().fix()).collect();
/// let faces: Vec<_> = dcel.inner_faces().map(|face| face.fix()).collect();
/// assert!(dcel.is_border_loop(&border, vertex)?);
/// assert!(dcel.can_isolate_vertex_and_fill_hole(&border, vertex)?);
/// assert!(dcel.is_ring(&border, &edges, &faces)?);
/// assert!(dcel.can_remesh_edge_ring(&border, &edges, &faces)?);
/// assert!(!dcel.is_edge_strip(&border)? && !dcel.can_disconnect_edge_strip(&border)?);
///
/// let isolated = isolate_vertex_and_fill_hole(&mut dcel, &border, vertex)?;
/// assert!(dcel.is_listed(&isolated)?);
/// # Ok::<(), dcel::Refusal>(())
/// ```
impl<V, DE, UE, F> Dcel<V, DE, UE, F> {
    /// Returns whether the list is the border loop of the vertex, which lies inside three triangles
    /// or more: read from its end, it is what comes after the vertex's out edges, counterclockwise;
    /// and no other item starts where the last one does.
    pub fn is_border_loop(
        &self,
        border_loop: &[FixedDirectedEdgeHandle],
        vertex: FixedVertexHandle,
    ) -> Result<bool, Refusal> {
        self.mesh.is_border_loop(border_loop, vertex.number())
    }

    /// Returns whether the lists are a ring of half edges with the edges and faces inside: those of
    /// a vertex, or of a region without one. In the worst case the time is quadratic in the length
    /// of the ring.
    pub fn is_ring(
        &self,
        border_loop: &[FixedDirectedEdgeHandle],
        edges: &[FixedUndirectedEdgeHandle],
        faces: &[FixedFaceHandle<InnerTag>],
    ) -> Result<bool, Refusal> {
        self.mesh.is_ring(border_loop, edges, faces)
    }

    /// Returns whether the list is the strip of a vertex of the outer face: what comes after its
    /// out edges from the outer one on, counterclockwise, with what comes after the outer one last.
    pub fn is_edge_strip(&self, edge_strip: &[FixedDirectedEdgeHandle]) -> Result<bool, Refusal> {
        self.mesh.is_edge_strip(edge_strip)
    }

    /// Returns whether the lists of `isolated` name what the open removal has given up, each once,
    /// with the cleanup still to come.
    pub fn is_listed(&self, isolated: &IsolateVertexResult) -> Result<bool, Refusal> {
        self.mesh
            .is_listed(&isolated.edges_to_remove, &isolated.faces_to_remove)
    }

    /// Returns whether all is so that
    /// [`isolate_vertex_and_fill_hole`](crate::operations::isolate_vertex_and_fill_hole) asks, but
    /// for room and memory.
    pub fn can_isolate_vertex_and_fill_hole(
        &self,
        border_loop: &[FixedDirectedEdgeHandle],
        vertex: FixedVertexHandle,
    ) -> Result<bool, Refusal> {
        self.mesh
            .can_isolate_vertex_and_fill_hole(border_loop, vertex.number())
    }

    /// Returns whether all is so that [`remesh_edge_ring`](crate::operations::remesh_edge_ring)
    /// asks, but for room and memory. It takes as long as [`is_ring`](Self::is_ring).
    pub fn can_remesh_edge_ring(
        &self,
        border_loop: &[FixedDirectedEdgeHandle],
        edges: &[FixedUndirectedEdgeHandle],
        faces: &[FixedFaceHandle<InnerTag>],
    ) -> Result<bool, Refusal> {
        self.mesh.can_remesh_edge_ring(border_loop, edges, faces)
    }

    /// Returns whether all is so that
    /// [`disconnect_edge_strip`](crate::operations::disconnect_edge_strip) asks, but for room and
    /// memory.
    pub fn can_disconnect_edge_strip(
        &self,
        edge_strip: &[FixedDirectedEdgeHandle],
    ) -> Result<bool, Refusal> {
        self.mesh.can_disconnect_edge_strip(edge_strip)
    }
}
