//! Made of `bindings/c/dcel.h` by `tools/bind --write`: each call as a method.

// A list is a slice, and what a call tells is returned.

use super::*;

impl Mesh {
    #[inline]
    pub(crate) fn clear(&mut self) -> Result<(), Refusal> {
        self.edit(|mesh| dcel_clear(mesh))
    }

    #[inline]
    pub(crate) fn reserve_capacity(
        &mut self,
        vertices: u64,
        undirected_edges: u64,
        faces: u64,
    ) -> Result<(), Refusal> {
        self.edit(|mesh| dcel_reserve_capacity(mesh, vertices, undirected_edges, faces))
    }

    pub(crate) fn from_links(
        half_edges: &[HalfEdgeEntry],
        vertices: &[u64],
        faces: &[u64],
    ) -> Result<Self, Option<Fault>> {
        // SAFETY: the slices last for the call, and each number that it writes is a handle.
        Self::given(|mesh, fault| unsafe {
            dcel_from_links(
                mesh,
                half_edges.as_ptr(),
                half_edges.len(),
                vertices.as_ptr(),
                vertices.len(),
                faces.as_ptr(),
                faces.len(),
                fault,
            )
        })
    }

    pub(crate) fn from_faces(
        vertices: &[u64],
        corners: &[FixedVertexHandle],
        counts: &[u32],
    ) -> Result<Self, Option<Fault>> {
        // SAFETY: the slices last for the call, and each number that it writes is a handle.
        Self::given(|mesh, fault| unsafe {
            dcel_from_faces(
                mesh,
                vertices.as_ptr(),
                vertices.len(),
                corners.as_ptr().cast(),
                corners.len(),
                counts.as_ptr(),
                counts.len(),
                fault,
            )
        })
    }

    #[inline]
    pub(crate) fn num_vertices(&self) -> usize {
        self.read(|mesh| dcel_num_vertices(mesh)) as usize
    }

    #[inline]
    pub(crate) fn num_directed_edges(&self) -> usize {
        self.read(|mesh| dcel_num_directed_edges(mesh)) as usize
    }

    #[inline]
    pub(crate) fn num_undirected_edges(&self) -> usize {
        self.read(|mesh| dcel_num_undirected_edges(mesh)) as usize
    }

    #[inline]
    pub(crate) fn num_faces(&self) -> usize {
        self.read(|mesh| dcel_num_faces(mesh)) as usize
    }

    #[inline]
    pub(crate) fn next(&self, edge: u32) -> Option<u32> {
        found(self.read(|mesh| dcel_next(mesh, edge)))
    }

    #[inline]
    pub(crate) fn prev(&self, edge: u32) -> Option<u32> {
        found(self.read(|mesh| dcel_prev(mesh, edge)))
    }

    #[inline]
    pub(crate) fn ccw(&self, edge: u32) -> Option<u32> {
        found(self.read(|mesh| dcel_ccw(mesh, edge)))
    }

    #[inline]
    pub(crate) fn cw(&self, edge: u32) -> Option<u32> {
        found(self.read(|mesh| dcel_cw(mesh, edge)))
    }

    #[inline]
    pub(crate) fn from(&self, edge: u32) -> Option<u32> {
        found(self.read(|mesh| dcel_from(mesh, edge)))
    }

    #[inline]
    pub(crate) fn to(&self, edge: u32) -> Option<u32> {
        found(self.read(|mesh| dcel_to(mesh, edge)))
    }

    #[inline]
    pub(crate) fn face(&self, edge: u32) -> Option<u32> {
        found(self.read(|mesh| dcel_face(mesh, edge)))
    }

    #[inline]
    pub(crate) fn out_edge(&self, vertex: u32) -> Option<u32> {
        found(self.read(|mesh| dcel_out_edge(mesh, vertex)))
    }

    #[inline]
    pub(crate) fn adjacent_edge(&self, face: u32) -> Option<u32> {
        found(self.read(|mesh| dcel_adjacent_edge(mesh, face)))
    }

    #[inline]
    pub(crate) fn get_edge_from_neighbors(&self, from: u32, to: u32) -> Option<u32> {
        found(self.read(|mesh| dcel_get_edge_from_neighbors(mesh, from, to)))
    }

    pub(crate) fn directed_edges(&self, half_edges: &mut [HalfEdgeEntry]) -> Result<u64, Refusal> {
        let mut needed = 0;
        // SAFETY: the slices last for the call, and each number that it writes is a handle.
        Refusal::of(self.read(|mesh| unsafe {
            dcel_directed_edges(mesh, half_edges.as_mut_ptr(), half_edges.len(), &mut needed)
        }))?;
        Ok(needed)
    }

    #[inline]
    pub(crate) fn vertex_data(&self, vertex: u32) -> Result<u64, Refusal> {
        let mut datum = 0;
        Refusal::of(self.read(|mesh| dcel_vertex_data(mesh, vertex, &mut datum)))?;
        Ok(datum)
    }

    #[inline]
    pub(crate) fn directed_edge_data(&self, edge: u32) -> Result<u64, Refusal> {
        let mut datum = 0;
        Refusal::of(self.read(|mesh| dcel_directed_edge_data(mesh, edge, &mut datum)))?;
        Ok(datum)
    }

    #[inline]
    pub(crate) fn undirected_edge_data(&self, edge: u32) -> Result<u64, Refusal> {
        let mut datum = 0;
        Refusal::of(self.read(|mesh| dcel_undirected_edge_data(mesh, edge, &mut datum)))?;
        Ok(datum)
    }

    #[inline]
    pub(crate) fn face_data(&self, face: u32) -> Result<u64, Refusal> {
        let mut datum = 0;
        Refusal::of(self.read(|mesh| dcel_face_data(mesh, face, &mut datum)))?;
        Ok(datum)
    }

    #[inline]
    pub(crate) fn update_vertex(&mut self, vertex: u32, datum: u64) -> Result<(), Refusal> {
        self.edit(|mesh| dcel_update_vertex(mesh, vertex, datum))
    }

    #[inline]
    pub(crate) fn update_directed_edge(&mut self, edge: u32, datum: u64) -> Result<(), Refusal> {
        self.edit(|mesh| dcel_update_directed_edge(mesh, edge, datum))
    }

    #[inline]
    pub(crate) fn update_undirected_edge(&mut self, edge: u32, datum: u64) -> Result<(), Refusal> {
        self.edit(|mesh| dcel_update_undirected_edge(mesh, edge, datum))
    }

    #[inline]
    pub(crate) fn update_face(&mut self, face: u32, datum: u64) -> Result<(), Refusal> {
        self.edit(|mesh| dcel_update_face(mesh, face, datum))
    }

    #[inline]
    pub(crate) fn append_unconnected_vertex(&mut self, datum: u64) -> Result<u32, Refusal> {
        let mut vertex = 0;
        self.edit(|mesh| dcel_append_unconnected_vertex(mesh, datum, &mut vertex))?;
        Ok(vertex)
    }

    #[inline]
    pub(crate) fn new_triangle(&mut self, a: u64, b: u64, c: u64) -> Result<(), Refusal> {
        self.edit(|mesh| dcel_new_triangle(mesh, a, b, c))
    }

    #[inline]
    pub(crate) fn setup_initial_two_vertices(
        &mut self,
        first: u32,
        second: u32,
    ) -> Result<(), Refusal> {
        self.edit(|mesh| dcel_setup_initial_two_vertices(mesh, first, second))
    }

    #[inline]
    pub(crate) fn extend_line(&mut self, end: u32, vertex: u32) -> Result<(), Refusal> {
        self.edit(|mesh| dcel_extend_line(mesh, end, vertex))
    }

    #[inline]
    pub(crate) fn split_edge_when_all_vertices_on_line(
        &mut self,
        edge: u32,
        vertex: u32,
    ) -> Result<u32, Refusal> {
        let mut second = 0;
        self.edit(|mesh| {
            dcel_split_edge_when_all_vertices_on_line(mesh, edge, vertex, &mut second)
        })?;
        Ok(second)
    }

    #[inline]
    pub(crate) fn create_single_face_between_edge_and_next(
        &mut self,
        edge: u32,
    ) -> Result<u32, Refusal> {
        let mut half = 0;
        self.edit(|mesh| dcel_create_single_face_between_edge_and_next(mesh, edge, &mut half))?;
        Ok(half)
    }

    #[inline]
    pub(crate) fn create_new_face_adjacent_to_edge(
        &mut self,
        edge: u32,
        vertex: u32,
    ) -> Result<(), Refusal> {
        self.edit(|mesh| dcel_create_new_face_adjacent_to_edge(mesh, edge, vertex))
    }

    #[inline]
    pub(crate) fn insert_into_triangle(&mut self, vertex: u32, face: u32) -> Result<(), Refusal> {
        self.edit(|mesh| dcel_insert_into_triangle(mesh, vertex, face))
    }

    #[inline]
    pub(crate) fn split_half_edge(&mut self, edge: u32, vertex: u32) -> Result<u32, Refusal> {
        let mut second = 0;
        self.edit(|mesh| dcel_split_half_edge(mesh, edge, vertex, &mut second))?;
        Ok(second)
    }

    #[inline]
    pub(crate) fn split_edge(&mut self, edge: u32, vertex: u32) -> Result<u32, Refusal> {
        let mut second = 0;
        self.edit(|mesh| dcel_split_edge(mesh, edge, vertex, &mut second))?;
        Ok(second)
    }

    #[inline]
    pub(crate) fn flip_cw(&mut self, undirected_edge: u32) -> Result<(), Refusal> {
        self.edit(|mesh| dcel_flip_cw(mesh, undirected_edge))
    }

    #[inline]
    pub(crate) fn swap_vertices(&mut self, first: u32, second: u32) -> Result<(), Refusal> {
        self.edit(|mesh| dcel_swap_vertices(mesh, first, second))
    }

    pub(crate) fn legalize_by_number(
        &mut self,
        max_flips: u64,
        edges: &[FixedUndirectedEdgeHandle],
    ) -> Result<Legalized, Refusal> {
        let mut legalized = Legalized::default();
        // SAFETY: the slices last for the call, and each number that it writes is a handle.
        self.edit(|mesh| unsafe {
            dcel_legalize_by_number(
                mesh,
                max_flips,
                edges.as_ptr().cast(),
                edges.len(),
                &mut legalized,
            )
        })?;
        Ok(legalized)
    }

    pub(crate) fn isolate_vertex_and_fill_hole(
        &mut self,
        border_loop: &[FixedDirectedEdgeHandle],
        vertex: u32,
        edges: &mut [FixedUndirectedEdgeHandle],
        faces: &mut [FixedFaceHandle<InnerTag>],
    ) -> Result<Opened, Refusal> {
        let mut opened = Opened::default();
        // SAFETY: the slices last for the call, and each number that it writes is a handle.
        self.edit(|mesh| unsafe {
            dcel_isolate_vertex_and_fill_hole(
                mesh,
                border_loop.as_ptr().cast(),
                border_loop.len(),
                vertex,
                edges.as_mut_ptr().cast(),
                edges.len(),
                faces.as_mut_ptr().cast(),
                faces.len(),
                &mut opened,
            )
        })?;
        Ok(opened)
    }

    pub(crate) fn remesh_edge_ring(
        &mut self,
        border_loop: &[FixedDirectedEdgeHandle],
        edges: &[FixedUndirectedEdgeHandle],
        faces: &[FixedFaceHandle<InnerTag>],
    ) -> Result<Opened, Refusal> {
        let mut opened = Opened::default();
        // SAFETY: the slices last for the call, and each number that it writes is a handle.
        self.edit(|mesh| unsafe {
            dcel_remesh_edge_ring(
                mesh,
                border_loop.as_ptr().cast(),
                border_loop.len(),
                edges.as_ptr().cast(),
                edges.len(),
                faces.as_ptr().cast(),
                faces.len(),
                &mut opened,
            )
        })?;
        Ok(opened)
    }

    pub(crate) fn disconnect_edge_strip(
        &mut self,
        strip: &[FixedDirectedEdgeHandle],
        edges: &mut [FixedUndirectedEdgeHandle],
        faces: &mut [FixedFaceHandle<InnerTag>],
    ) -> Result<Opened, Refusal> {
        let mut opened = Opened::default();
        // SAFETY: the slices last for the call, and each number that it writes is a handle.
        self.edit(|mesh| unsafe {
            dcel_disconnect_edge_strip(
                mesh,
                strip.as_ptr().cast(),
                strip.len(),
                edges.as_mut_ptr().cast(),
                edges.len(),
                faces.as_mut_ptr().cast(),
                faces.len(),
                &mut opened,
            )
        })?;
        Ok(opened)
    }

    pub(crate) fn cleanup_isolated_vertex(
        &mut self,
        edges: &[FixedUndirectedEdgeHandle],
        faces: &[FixedFaceHandle<InnerTag>],
    ) -> Result<(), Refusal> {
        // SAFETY: the slices last for the call, and each number that it writes is a handle.
        self.edit(|mesh| unsafe {
            dcel_cleanup_isolated_vertex(
                mesh,
                edges.as_ptr().cast(),
                edges.len(),
                faces.as_ptr().cast(),
                faces.len(),
            )
        })
    }

    #[inline]
    pub(crate) fn swap_remove_vertex(&mut self, vertex: u32) -> Result<Removed, Refusal> {
        let mut removed = Removed::default();
        self.edit(|mesh| dcel_swap_remove_vertex(mesh, vertex, &mut removed))?;
        Ok(removed)
    }

    #[inline]
    pub(crate) fn remove_when_degenerate(&mut self, vertex: u32) -> Result<Removed, Refusal> {
        let mut removed = Removed::default();
        self.edit(|mesh| dcel_remove_when_degenerate(mesh, vertex, &mut removed))?;
        Ok(removed)
    }

    #[inline]
    pub(crate) fn removal_state(&self) -> u32 {
        self.read(|mesh| dcel_removal_state(mesh))
    }

    #[inline]
    pub(crate) fn is_live_vertex(&self, vertex: u32) -> bool {
        self.read(|mesh| dcel_is_live_vertex(mesh, vertex))
    }

    #[inline]
    pub(crate) fn is_live_edge(&self, undirected_edge: u32) -> bool {
        self.read(|mesh| dcel_is_live_edge(mesh, undirected_edge))
    }

    #[inline]
    pub(crate) fn is_live_face(&self, face: u32) -> bool {
        self.read(|mesh| dcel_is_live_face(mesh, face))
    }

    #[inline]
    pub(crate) fn is_unconnected(&self, vertex: u32) -> bool {
        self.read(|mesh| dcel_is_unconnected(mesh, vertex))
    }

    #[inline]
    pub(crate) fn is_line_end(&self, vertex: u32) -> bool {
        self.read(|mesh| dcel_is_line_end(mesh, vertex))
    }

    #[inline]
    pub(crate) fn is_triangle(&self, face: u32) -> bool {
        self.read(|mesh| dcel_is_triangle(mesh, face))
    }

    #[inline]
    pub(crate) fn is_bridge(&self, edge: u32) -> bool {
        self.read(|mesh| dcel_is_bridge(mesh, edge))
    }

    #[inline]
    pub(crate) fn has_room(&self, vertices: u64, undirected_edges: u64, faces: u64) -> bool {
        self.read(|mesh| dcel_has_room(mesh, vertices, undirected_edges, faces))
    }

    #[inline]
    pub(crate) fn sanity_check(&self) -> bool {
        self.read(|mesh| dcel_sanity_check(mesh))
    }

    #[inline]
    pub(crate) fn can_setup_initial_two_vertices(&self, first: u32, second: u32) -> bool {
        self.read(|mesh| dcel_can_setup_initial_two_vertices(mesh, first, second))
    }

    #[inline]
    pub(crate) fn can_extend_line(&self, end: u32, vertex: u32) -> bool {
        self.read(|mesh| dcel_can_extend_line(mesh, end, vertex))
    }

    #[inline]
    pub(crate) fn can_split_edge_when_all_vertices_on_line(&self, edge: u32, vertex: u32) -> bool {
        self.read(|mesh| dcel_can_split_edge_when_all_vertices_on_line(mesh, edge, vertex))
    }

    #[inline]
    pub(crate) fn can_close_outside(&self, edge: u32) -> bool {
        self.read(|mesh| dcel_can_close_outside(mesh, edge))
    }

    #[inline]
    pub(crate) fn can_create_new_face_adjacent_to_edge(&self, edge: u32, vertex: u32) -> bool {
        self.read(|mesh| dcel_can_create_new_face_adjacent_to_edge(mesh, edge, vertex))
    }

    #[inline]
    pub(crate) fn can_insert_into_triangle(&self, vertex: u32, face: u32) -> bool {
        self.read(|mesh| dcel_can_insert_into_triangle(mesh, vertex, face))
    }

    #[inline]
    pub(crate) fn can_split_half_edge(&self, edge: u32, vertex: u32) -> bool {
        self.read(|mesh| dcel_can_split_half_edge(mesh, edge, vertex))
    }

    #[inline]
    pub(crate) fn can_split_edge(&self, edge: u32, vertex: u32) -> bool {
        self.read(|mesh| dcel_can_split_edge(mesh, edge, vertex))
    }

    #[inline]
    pub(crate) fn can_flip(&self, undirected_edge: u32) -> bool {
        self.read(|mesh| dcel_can_flip(mesh, undirected_edge))
    }

    #[inline]
    pub(crate) fn can_swap_remove(&self, vertex: u32) -> bool {
        self.read(|mesh| dcel_can_swap_remove(mesh, vertex))
    }

    #[inline]
    pub(crate) fn can_remove_degenerate(&self, vertex: u32) -> bool {
        self.read(|mesh| dcel_can_remove_degenerate(mesh, vertex))
    }

    pub(crate) fn is_border_loop(
        &self,
        border_loop: &[FixedDirectedEdgeHandle],
        vertex: u32,
    ) -> Result<bool, Refusal> {
        let mut answer = false;
        // SAFETY: the slices last for the call, and each number that it writes is a handle.
        Refusal::of(self.read(|mesh| unsafe {
            dcel_is_border_loop(
                mesh,
                border_loop.as_ptr().cast(),
                border_loop.len(),
                vertex,
                &mut answer,
            )
        }))?;
        Ok(answer)
    }

    pub(crate) fn is_ring(
        &self,
        border_loop: &[FixedDirectedEdgeHandle],
        edges: &[FixedUndirectedEdgeHandle],
        faces: &[FixedFaceHandle<InnerTag>],
    ) -> Result<bool, Refusal> {
        let mut answer = false;
        // SAFETY: the slices last for the call, and each number that it writes is a handle.
        Refusal::of(self.read(|mesh| unsafe {
            dcel_is_ring(
                mesh,
                border_loop.as_ptr().cast(),
                border_loop.len(),
                edges.as_ptr().cast(),
                edges.len(),
                faces.as_ptr().cast(),
                faces.len(),
                &mut answer,
            )
        }))?;
        Ok(answer)
    }

    pub(crate) fn is_edge_strip(&self, strip: &[FixedDirectedEdgeHandle]) -> Result<bool, Refusal> {
        let mut answer = false;
        // SAFETY: the slices last for the call, and each number that it writes is a handle.
        Refusal::of(self.read(|mesh| unsafe {
            dcel_is_edge_strip(mesh, strip.as_ptr().cast(), strip.len(), &mut answer)
        }))?;
        Ok(answer)
    }

    pub(crate) fn is_listed(
        &self,
        edges: &[FixedUndirectedEdgeHandle],
        faces: &[FixedFaceHandle<InnerTag>],
    ) -> Result<bool, Refusal> {
        let mut answer = false;
        // SAFETY: the slices last for the call, and each number that it writes is a handle.
        Refusal::of(self.read(|mesh| unsafe {
            dcel_is_listed(
                mesh,
                edges.as_ptr().cast(),
                edges.len(),
                faces.as_ptr().cast(),
                faces.len(),
                &mut answer,
            )
        }))?;
        Ok(answer)
    }

    pub(crate) fn can_isolate_vertex_and_fill_hole(
        &self,
        border_loop: &[FixedDirectedEdgeHandle],
        vertex: u32,
    ) -> Result<bool, Refusal> {
        let mut answer = false;
        // SAFETY: the slices last for the call, and each number that it writes is a handle.
        Refusal::of(self.read(|mesh| unsafe {
            dcel_can_isolate_vertex_and_fill_hole(
                mesh,
                border_loop.as_ptr().cast(),
                border_loop.len(),
                vertex,
                &mut answer,
            )
        }))?;
        Ok(answer)
    }

    pub(crate) fn can_remesh_edge_ring(
        &self,
        border_loop: &[FixedDirectedEdgeHandle],
        edges: &[FixedUndirectedEdgeHandle],
        faces: &[FixedFaceHandle<InnerTag>],
    ) -> Result<bool, Refusal> {
        let mut answer = false;
        // SAFETY: the slices last for the call, and each number that it writes is a handle.
        Refusal::of(self.read(|mesh| unsafe {
            dcel_can_remesh_edge_ring(
                mesh,
                border_loop.as_ptr().cast(),
                border_loop.len(),
                edges.as_ptr().cast(),
                edges.len(),
                faces.as_ptr().cast(),
                faces.len(),
                &mut answer,
            )
        }))?;
        Ok(answer)
    }

    pub(crate) fn can_disconnect_edge_strip(
        &self,
        strip: &[FixedDirectedEdgeHandle],
    ) -> Result<bool, Refusal> {
        let mut answer = false;
        // SAFETY: the slices last for the call, and each number that it writes is a handle.
        Refusal::of(self.read(|mesh| unsafe {
            dcel_can_disconnect_edge_strip(mesh, strip.as_ptr().cast(), strip.len(), &mut answer)
        }))?;
        Ok(answer)
    }
}
