//! Meshes and walks that several tests want.

#![allow(dead_code, reason = "each test uses some of it")]

use dcel::handles::*;
use dcel::operations::*;
use dcel::{Dcel, Refusal};

pub fn v(number: usize) -> FixedVertexHandle {
    FixedVertexHandle::new(number)
}

pub fn e(number: usize) -> FixedDirectedEdgeHandle {
    FixedDirectedEdgeHandle::new(number)
}

pub fn u(number: usize) -> FixedUndirectedEdgeHandle {
    FixedUndirectedEdgeHandle::new(number)
}

pub fn f(number: usize) -> FixedFaceHandle<InnerTag> {
    FixedFaceHandle::new(number)
}

pub fn numbers<Type: DelaunayElementType, InnerOuter: InnerOuterMarker>(
    handles: impl IntoIterator<Item = FixedHandleImpl<Type, InnerOuter>>,
) -> Vec<usize> {
    handles.into_iter().map(|handle| handle.index()).collect()
}

/// Vertices 0, 1 and 2, with vertex 3 in the triangle.
pub fn round() -> Dcel<usize> {
    let mut dcel = new_triangle([0, 1, 2]).unwrap();
    let vertex = append_unconnected_vertex(&mut dcel, 3).unwrap();
    insert_into_triangle(&mut dcel, vertex, f(1)).unwrap();
    dcel
}

/// A path from vertex 0 by 1, 2 and so on, with as many vertices.
pub fn path(vertices: usize) -> Dcel<usize> {
    let mut dcel = new_with_fixed_vertices((0..vertices).collect(), v(0), v(1)).unwrap();
    for vertex in 2..vertices {
        extend_line(&mut dcel, v(vertex - 1), v(vertex)).unwrap();
    }
    dcel
}

/// The border loop of a vertex that lies inside triangles.
pub fn border_loop<V, DE, UE, F>(
    vertex: VertexHandle<'_, V, DE, UE, F>,
) -> Vec<FixedDirectedEdgeHandle> {
    vertex
        .out_edges()
        .rev()
        .map(|edge| edge.next().fix())
        .collect()
}

/// Takes a vertex out that lies inside triangles, and returns its datum.
pub fn take_out<V, DE, UE, F>(
    dcel: &mut Dcel<V, DE, UE, F>,
    vertex: FixedVertexHandle,
) -> Result<V, Refusal> {
    let border = border_loop(dcel.vertex(vertex));
    let mut isolated = isolate_vertex_and_fill_hole(dcel, &border, vertex)?;
    cleanup_isolated_vertex(dcel, &mut isolated)?;
    Ok(swap_remove_vertex(dcel, vertex)?.removed_vertex)
}

/// Numbers that look random, the same on every machine.
pub struct Draws(pub u64);

impl Draws {
    pub fn below(&mut self, bound: usize) -> usize {
        self.0 = self
            .0
            .wrapping_mul(6_364_136_223_846_793_005)
            .wrapping_add(1_442_695_040_888_963_407);
        (self.0 >> 33) as usize % bound
    }
}
