//! New meshes.

use super::grow::setup_initial_two_vertices;
use crate::handles::FixedVertexHandle;
use crate::{Dcel, Refusal, Refused};

/// Makes a mesh of the outer face alone.
///
/// # Errors
///
/// [`Refusal::OutOfMemory`].
///
/// ```
/// let dcel: dcel::Dcel<char> = dcel::operations::new()?;
/// assert_eq!((dcel.num_vertices(), dcel.num_faces()), (0, 1));
/// # Ok::<(), dcel::Refusal>(())
/// ```
pub fn new<V, DE: Default, UE: Default, F: Default>() -> Result<Dcel<V, DE, UE, F>, Refusal> {
    Dcel::new()
}

/// Makes a mesh of one triangle, counterclockwise: vertices 0, 1 and 2 with these data, edges 0 to
/// 2 and face 1.
///
/// # Errors
///
/// [`Refusal::OutOfMemory`]. The data come back.
///
/// ```
/// use dcel::{Dcel, operations::new_triangle};
///
/// let dcel: Dcel<_> = new_triangle(['a', 'b', 'c'])?;
/// assert!(dcel.outer_face().directed_edges().map(|edge| *edge.from().data()).eq(['a', 'b', 'c']));
/// # Ok::<(), dcel::Refusal>(())
/// ```
pub fn new_triangle<V, DE: Default, UE: Default, F: Default>(
    data: [V; 3],
) -> Result<Dcel<V, DE, UE, F>, Refused<[V; 3]>> {
    match Dcel::new() {
        Ok(mut dcel) => {
            dcel.replace_by_triangle(data)?;
            Ok(dcel)
        }
        Err(why) => Err(Refused { why, back: data }),
    }
}

/// Makes a mesh of vertices with these data, and an edge between two of them.
///
/// # Errors
///
/// As [`setup_initial_two_vertices`], and [`Refusal::OutOfMemory`]. The data come back.
///
/// ```
/// use dcel::handles::FixedVertexHandle;
/// use dcel::{Dcel, operations::new_with_fixed_vertices};
///
/// let [first, second] = [2, 0].map(FixedVertexHandle::new);
/// let dcel: Dcel<_> = new_with_fixed_vertices(vec!['a', 'b', 'c'], first, second)?;
/// let edge = dcel.directed_edges().next().unwrap();
/// assert_eq!(edge.vertices().map(|vertex| *vertex.data()), ['c', 'a']);
/// # Ok::<(), dcel::Refusal>(())
/// ```
pub fn new_with_fixed_vertices<V, DE: Default, UE: Default, F: Default>(
    mut vertices: Vec<V>,
    first_vertex: FixedVertexHandle,
    second_vertex: FixedVertexHandle,
) -> Result<Dcel<V, DE, UE, F>, Refused<Vec<V>>> {
    match without_values(vertices.len(), first_vertex, second_vertex) {
        Ok(mut dcel) => {
            dcel.vertices.insert_all(&mut vertices);
            Ok(dcel)
        }
        Err(why) => Err(Refused {
            why,
            back: vertices,
        }),
    }
}

/// Makes the same mesh, whose vertices have the keys of values that are still to be put in.
fn without_values<V, DE: Default, UE: Default, F: Default>(
    count: usize,
    first_vertex: FixedVertexHandle,
    second_vertex: FixedVertexHandle,
) -> Result<Dcel<V, DE, UE, F>, Refusal> {
    let mut dcel = Dcel::new()?;
    for key in dcel.vertices.try_keys(count)? {
        dcel.mesh.append_unconnected_vertex(key)?;
    }
    setup_initial_two_vertices(&mut dcel, first_vertex, second_vertex)?;
    Ok(dcel)
}
