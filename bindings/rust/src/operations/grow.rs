//! Edits that add elements. New half edges, edges and faces have default data.

use crate::handles::{FixedDirectedEdgeHandle, FixedFaceHandle, FixedVertexHandle, InnerTag};
use crate::{Dcel, Refusal, Refused};

/// Adds a vertex without an edge.
///
/// # Errors
///
/// [`Refusal::NoRoom`] and [`Refusal::OutOfMemory`]. The datum comes back.
///
/// ```
/// use dcel::operations::append_unconnected_vertex;
///
/// let mut dcel = dcel::Dcel::<char>::new()?;
/// let vertex = append_unconnected_vertex(&mut dcel, 'a')?;
/// assert_eq!(dcel.vertex_data(vertex), &'a');
/// # Ok::<(), dcel::Refusal>(())
/// ```
#[inline]
pub fn append_unconnected_vertex<V, DE, UE, F>(
    dcel: &mut Dcel<V, DE, UE, F>,
    vertex: V,
) -> Result<FixedVertexHandle, Refused<V>> {
    let key = match dcel.vertices.try_insert(vertex) {
        Ok(key) => key,
        Err(back) => {
            let why = Refusal::OutOfMemory;
            return Err(Refused { why, back });
        }
    };
    match dcel.mesh.append_unconnected_vertex(key) {
        Ok(number) => Ok(FixedVertexHandle::of(number)),
        Err(why) => Err(Refused {
            why,
            back: dcel.vertices.remove(key),
        }),
    }
}

/// Makes the first edge, between two vertices.
///
/// # Errors
///
/// [`Refusal::NoSuchVertex`], [`Refusal::GivenUp`], [`Refusal::SameVertex`],
/// [`Refusal::EdgesStand`], [`Refusal::NoRoom`] and [`Refusal::OutOfMemory`].
///
/// ```
/// use dcel::operations::{append_unconnected_vertex, setup_initial_two_vertices};
///
/// let mut dcel = dcel::Dcel::<char>::new()?;
/// let a = append_unconnected_vertex(&mut dcel, 'a')?;
/// let b = append_unconnected_vertex(&mut dcel, 'b')?;
/// setup_initial_two_vertices(&mut dcel, a, b)?;
/// assert!(dcel.get_edge_from_neighbors(b, a).is_some());
/// # Ok::<(), dcel::Refusal>(())
/// ```
pub fn setup_initial_two_vertices<V, DE, UE, F>(
    dcel: &mut Dcel<V, DE, UE, F>,
    first_vertex: FixedVertexHandle,
    second_vertex: FixedVertexHandle,
) -> Result<(), Refusal> {
    dcel.mesh
        .setup_initial_two_vertices(first_vertex.number(), second_vertex.number())
}

/// Lengthens the line that ends at a vertex to another, and returns that.
///
/// # Errors
///
/// [`Refusal::NoSuchVertex`], [`Refusal::GivenUp`], [`Refusal::SameVertex`],
/// [`Refusal::VertexInUse`], [`Refusal::NotLineEnd`], [`Refusal::NoRoom`] and
/// [`Refusal::OutOfMemory`].
///
/// ```
/// use dcel::handles::FixedVertexHandle;
/// use dcel::operations::{extend_line, new_with_fixed_vertices};
/// use dcel::Dcel;
///
/// let [a, b, c] = [0, 1, 2].map(FixedVertexHandle::new);
/// let mut dcel: Dcel<_> = new_with_fixed_vertices(vec!['a', 'b', 'c'], a, b)?;
/// extend_line(&mut dcel, b, c)?;
/// assert!(dcel.get_edge_from_neighbors(b, c).is_some());
/// # Ok::<(), dcel::Refusal>(())
/// ```
pub fn extend_line<V, DE, UE, F>(
    dcel: &mut Dcel<V, DE, UE, F>,
    end_vertex: FixedVertexHandle,
    new_vertex: FixedVertexHandle,
) -> Result<FixedVertexHandle, Refusal> {
    dcel.mesh
        .extend_line(end_vertex.number(), new_vertex.number())?;
    Ok(new_vertex)
}

/// Puts a vertex into the middle of an edge with one face on both sides, and returns the two parts
/// of the half edge, along it. The first keeps its number.
///
/// # Errors
///
/// [`Refusal::NoSuchVertex`], [`Refusal::NoSuchEdge`], [`Refusal::GivenUp`],
/// [`Refusal::VertexInUse`], [`Refusal::NotBridge`], [`Refusal::NoRoom`] and
/// [`Refusal::OutOfMemory`].
///
/// ```
/// use dcel::handles::{FixedDirectedEdgeHandle, FixedVertexHandle};
/// use dcel::operations::{new_with_fixed_vertices, split_edge_when_all_vertices_on_line};
/// use dcel::Dcel;
///
/// let [a, b, c] = [0, 1, 2].map(FixedVertexHandle::new);
/// let mut dcel: Dcel<_> = new_with_fixed_vertices(vec!['a', 'b', 'c'], a, b)?;
/// let edge = FixedDirectedEdgeHandle::new(0);
/// let [first, second] = split_edge_when_all_vertices_on_line(&mut dcel, edge, c)?;
/// assert_eq!((first, dcel.directed_edge(first).to().fix()), (edge, c));
/// assert_eq!(dcel.directed_edge(second).to().fix(), b);
/// # Ok::<(), dcel::Refusal>(())
/// ```
pub fn split_edge_when_all_vertices_on_line<V, DE, UE, F>(
    dcel: &mut Dcel<V, DE, UE, F>,
    edge: FixedDirectedEdgeHandle,
    new_vertex: FixedVertexHandle,
) -> Result<[FixedDirectedEdgeHandle; 2], Refusal> {
    let second = dcel
        .mesh
        .split_edge_when_all_vertices_on_line(edge.number(), new_vertex.number())?;
    Ok([edge, FixedDirectedEdgeHandle::of(second)])
}

/// Closes a triangle of a half edge of the outer face and the next one, and returns the half of the
/// new edge that lies outside.
///
/// # Errors
///
/// [`Refusal::NoSuchEdge`], [`Refusal::GivenUp`], [`Refusal::NotOuter`], [`Refusal::WouldLoop`],
/// [`Refusal::NoRoom`] and [`Refusal::OutOfMemory`].
///
/// ```
/// use dcel::handles::{FixedDirectedEdgeHandle, FixedVertexHandle};
/// use dcel::operations::*;
/// use dcel::Dcel;
///
/// let [a, b, c] = [0, 1, 2].map(FixedVertexHandle::new);
/// let mut dcel: Dcel<_> = new_with_fixed_vertices(vec!['a', 'b', 'c'], a, b)?;
/// extend_line(&mut dcel, b, c)?;
/// let edge = FixedDirectedEdgeHandle::new(0);
/// let outside = create_single_face_between_edge_and_next(&mut dcel, edge)?;
/// assert!(dcel.directed_edge(outside).is_outer_edge());
/// assert_eq!(dcel.directed_edge(edge).opposite_vertex().unwrap().data(), &'c');
/// # Ok::<(), dcel::Refusal>(())
/// ```
pub fn create_single_face_between_edge_and_next<V, DE, UE, F>(
    dcel: &mut Dcel<V, DE, UE, F>,
    edge: FixedDirectedEdgeHandle,
) -> Result<FixedDirectedEdgeHandle, Refusal> {
    dcel.mesh
        .create_single_face_between_edge_and_next(edge.number())
        .map(FixedDirectedEdgeHandle::of)
}

/// Puts a triangle of a half edge and a vertex on the face of the half edge, and returns the
/// vertex.
///
/// # Errors
///
/// [`Refusal::NoSuchVertex`], [`Refusal::NoSuchEdge`], [`Refusal::GivenUp`],
/// [`Refusal::VertexInUse`], [`Refusal::NoRoom`] and [`Refusal::OutOfMemory`].
///
/// ```
/// use dcel::handles::FixedDirectedEdgeHandle;
/// use dcel::operations::*;
/// use dcel::Dcel;
///
/// let mut dcel: Dcel<_> = new_triangle(['a', 'b', 'c'])?;
/// let vertex = append_unconnected_vertex(&mut dcel, 'd')?;
/// let edge = FixedDirectedEdgeHandle::new(0);
/// create_new_face_adjacent_to_edge(&mut dcel, edge, vertex)?;
/// assert_eq!(dcel.directed_edge(edge).opposite_vertex().unwrap().data(), &'d');
/// # Ok::<(), dcel::Refusal>(())
/// ```
pub fn create_new_face_adjacent_to_edge<V, DE, UE, F>(
    dcel: &mut Dcel<V, DE, UE, F>,
    edge: FixedDirectedEdgeHandle,
    new_vertex: FixedVertexHandle,
) -> Result<FixedVertexHandle, Refusal> {
    dcel.mesh
        .create_new_face_adjacent_to_edge(edge.number(), new_vertex.number())?;
    Ok(new_vertex)
}

/// Cuts a triangle into three at a vertex, and returns that. The triangle's number and datum stay
/// with the part at its anchor.
///
/// # Errors
///
/// [`Refusal::NoSuchVertex`], [`Refusal::NoSuchFace`], [`Refusal::GivenUp`],
/// [`Refusal::VertexInUse`], [`Refusal::NotTriangle`], [`Refusal::NoRoom`] and
/// [`Refusal::OutOfMemory`].
///
/// ```
/// use dcel::operations::{append_unconnected_vertex, insert_into_triangle, new_triangle};
/// use dcel::Dcel;
///
/// let mut dcel: Dcel<_> = new_triangle(['a', 'b', 'c'])?;
/// let vertex = append_unconnected_vertex(&mut dcel, 'd')?;
/// let face = dcel.inner_faces().next().unwrap().fix();
/// insert_into_triangle(&mut dcel, vertex, face)?;
/// assert_eq!(dcel.vertex(vertex).out_edges().count(), 3);
/// # Ok::<(), dcel::Refusal>(())
/// ```
#[inline]
pub fn insert_into_triangle<V, DE, UE, F>(
    dcel: &mut Dcel<V, DE, UE, F>,
    vertex: FixedVertexHandle,
    face: FixedFaceHandle<InnerTag>,
) -> Result<FixedVertexHandle, Refusal> {
    dcel.mesh
        .insert_into_triangle(vertex.number(), face.number())?;
    Ok(vertex)
}

/// Puts a vertex into the middle of an edge and joins it to the corner of the half edge's triangle,
/// and returns the two parts of the half edge, along it. The first keeps its number.
///
/// # Errors
///
/// [`Refusal::NoSuchVertex`], [`Refusal::NoSuchEdge`], [`Refusal::GivenUp`],
/// [`Refusal::VertexInUse`], [`Refusal::NotTriangle`], [`Refusal::NoRoom`] and
/// [`Refusal::OutOfMemory`].
///
/// ```
/// use dcel::handles::FixedDirectedEdgeHandle;
/// use dcel::operations::{append_unconnected_vertex, new_triangle, split_half_edge};
/// use dcel::Dcel;
///
/// let mut dcel: Dcel<_> = new_triangle(['a', 'b', 'c'])?;
/// let vertex = append_unconnected_vertex(&mut dcel, 'd')?;
/// let edge = FixedDirectedEdgeHandle::new(1);
/// let [first, second] = split_half_edge(&mut dcel, edge, vertex)?;
/// assert_eq!((first, dcel.directed_edge(first).to().data()), (edge, &'d'));
/// assert_eq!(dcel.directed_edge(second).to().data(), &'a');
/// assert_eq!(dcel.vertex(vertex).out_edges().count(), 3);
/// # Ok::<(), dcel::Refusal>(())
/// ```
pub fn split_half_edge<V, DE, UE, F>(
    dcel: &mut Dcel<V, DE, UE, F>,
    edge: FixedDirectedEdgeHandle,
    new_vertex: FixedVertexHandle,
) -> Result<[FixedDirectedEdgeHandle; 2], Refusal> {
    let second = dcel
        .mesh
        .split_half_edge(edge.number(), new_vertex.number())?;
    Ok([edge, FixedDirectedEdgeHandle::of(second)])
}

/// Puts a vertex into the middle of an edge and joins it to the corners of the triangles on both
/// sides, and returns the two parts of the half edge, along it. The first keeps its number.
///
/// # Errors
///
/// As [`split_half_edge`].
///
/// ```
/// use dcel::handles::FixedDirectedEdgeHandle;
/// use dcel::operations::{append_unconnected_vertex, new_triangle, split_edge};
/// use dcel::Dcel;
///
/// let mut dcel: Dcel<_> = new_triangle(['a', 'b', 'c'])?;
/// let vertex = append_unconnected_vertex(&mut dcel, 'd')?;
/// let [first, second] = split_edge(&mut dcel, FixedDirectedEdgeHandle::new(1), vertex)?;
/// assert_eq!(dcel.directed_edge(first).to(), dcel.directed_edge(second).from());
/// assert_eq!(dcel.vertex(vertex).out_edges().count(), 4);
/// # Ok::<(), dcel::Refusal>(())
/// ```
pub fn split_edge<V, DE, UE, F>(
    dcel: &mut Dcel<V, DE, UE, F>,
    edge: FixedDirectedEdgeHandle,
    new_vertex: FixedVertexHandle,
) -> Result<[FixedDirectedEdgeHandle; 2], Refusal> {
    let second = dcel.mesh.split_edge(edge.number(), new_vertex.number())?;
    Ok([edge, FixedDirectedEdgeHandle::of(second)])
}
