//! Meshes that are given, by their links or their faces.

use super::faults::{FacesError, LinksError};
use crate::ffi::{Fault, HalfEdgeEntry, Mesh};
use crate::handles::FixedVertexHandle;
use crate::slab::{Slab, Values, no_memory};
use crate::{Dcel, Refusal};
use std::error::Error;
use std::fmt;

/// The reason why no mesh was made, with the values that were given for it.
///
/// ```
/// use dcel::handles::FixedVertexHandle;
/// use dcel::operations::{FacesError, RefusedFaces, from_faces};
///
/// let face = [0, 1].map(FixedVertexHandle::new);
/// let refused: RefusedFaces<_> = from_faces::<_, (), (), (), _>(vec!['a', 'b'], [face]).unwrap_err();
/// assert_eq!((refused.reason, refused.back), (FacesError::FewCorners(0), vec!['a', 'b']));
/// ```
#[derive(Clone, PartialEq, Eq, Debug)]
pub struct RefusedGiven<E, T> {
    /// The reason.
    pub reason: E,

    /// The values.
    pub back: T,
}

impl<E: fmt::Display, T> fmt::Display for RefusedGiven<E, T> {
    fn fmt(&self, f: &mut fmt::Formatter<'_>) -> fmt::Result {
        self.reason.fmt(f)
    }
}

impl<E: fmt::Debug + fmt::Display, T: fmt::Debug> Error for RefusedGiven<E, T> {}

/// Why links were refused, with the values of vertices and of faces.
pub type RefusedLinks<V, F> = RefusedGiven<LinksError, (Vec<V>, Vec<F>)>;

/// Why faces were refused, with the values of vertices.
pub type RefusedFaces<V> = RefusedGiven<FacesError, Vec<V>>;

/// Makes the mesh with these links, and these values of its vertices and faces, face 0 first.
///
/// Half edges stand at their numbers, and their `prev` isn't read. Each vertex and each face is
/// anchored at its half edge with the greatest number.
///
/// # Errors
///
/// [`LinksError::Links`] if no mesh has these links, with the first thing that is wrong with them,
/// and [`LinksError::OutOfMemory`]. The values come back.
///
/// ```
/// use dcel::Dcel;
/// use dcel::operations::{LinksError, LinksFault, from_links, new_triangle};
///
/// let dcel: Dcel<_> = new_triangle(['a', 'b', 'c'])?;
/// let links = dcel.links();
/// let mut half_edges: Vec<_> = links.directed_edges().filter_map(|edge| links.get(edge)).collect();
/// let made: Dcel<_, (), (), _> = from_links(&half_edges, vec![1, 2, 3], vec!["out", "in"]).unwrap();
/// assert_eq!(made.vertices().map(|vertex| *vertex.data()).collect::<Vec<_>>(), [1, 2, 3]);
/// assert_eq!(made.outer_face().data(), &"out");
///
/// half_edges[1].next = half_edges[3].next;
/// let refused = from_links::<_, (), (), _>(&half_edges, vec![1, 2, 3], vec!["out", "in"]).unwrap_err();
/// assert_eq!(refused.reason, LinksError::Links(LinksFault::TwoLeadTo(1)));
/// assert_eq!(refused.back.0, [1, 2, 3]);
/// # Ok::<(), dcel::Refusal>(())
/// ```
pub fn from_links<V, DE: Default, UE: Default, F: Default>(
    half_edges: &[HalfEdgeEntry],
    mut vertices: Vec<V>,
    mut faces: Vec<F>,
) -> Result<Dcel<V, DE, UE, F>, RefusedLinks<V, F>> {
    match made_of_links(half_edges, &mut vertices, &mut faces) {
        Ok(dcel) => Ok(dcel),
        Err(fault) => Err(RefusedGiven {
            reason: LinksError::of(fault),
            back: (vertices, faces),
        }),
    }
}

/// Makes the mesh, and takes the values only when it is made.
fn made_of_links<V, DE: Default, UE: Default, F: Default>(
    half_edges: &[HalfEdgeEntry],
    vertices: &mut Vec<V>,
    faces: &mut Vec<F>,
) -> Result<Dcel<V, DE, UE, F>, Option<Fault>> {
    let (mut vertex_values, mut face_values) = (Slab::new(), Values::default());
    let vertex_keys = vertex_values.try_keys(vertices.len()).map_err(no_fault)?;
    let face_keys = face_values.try_keys(faces.len()).map_err(no_fault)?;
    let mesh = Mesh::from_links(half_edges, &vertex_keys, &face_keys)?;
    vertex_values.insert_all(vertices);
    face_values.insert_all(faces);
    Ok(of_mesh(mesh, vertex_values, face_values))
}

/// Makes the mesh of faces, each the list of its corners, counterclockwise, with these values of
/// its vertices.
///
/// The faces keep their order, from number 1 on; face 0, the outer one, is what they leave: of a
/// closed surface, leave one face out. The vertices keep their numbers, and a vertex need not be a
/// corner. The edges are numbered in the order in which their first sides come, and such a side is
/// the even half edge.
///
/// # Errors
///
/// A [`FacesError`]; the values come back. Then no mesh in which no two edges join the same two
/// vertices has these faces, unless memory ran out or there are too many corners, or, after
/// [`FacesError::BorderTwice`], only one whose outer face passes that vertex twice.
///
/// ```
/// use dcel::Dcel;
/// use dcel::handles::FixedVertexHandle;
/// use dcel::operations::{FacesError, from_faces};
///
/// let faces = [[0, 1, 2], [2, 1, 3]].map(|face| face.map(FixedVertexHandle::new));
/// let dcel: Dcel<_> = from_faces(vec!['a', 'b', 'c', 'd'], faces).unwrap();
/// assert_eq!((dcel.num_undirected_edges(), dcel.num_faces()), (5, 3));
///
/// let refused = from_faces::<_, (), (), (), _>(vec!['a', 'b', 'c'], faces).unwrap_err();
/// assert_eq!(refused.reason, FacesError::NoVertex(1, 3));
/// assert_eq!(refused.back, ['a', 'b', 'c']);
/// ```
pub fn from_faces<V, DE: Default, UE: Default, F: Default, C: AsRef<[FixedVertexHandle]>>(
    mut vertices: Vec<V>,
    faces: impl IntoIterator<Item = C>,
) -> Result<Dcel<V, DE, UE, F>, RefusedFaces<V>> {
    match made_of_faces(&mut vertices, faces) {
        Ok(dcel) => Ok(dcel),
        Err(fault) => Err(RefusedGiven {
            reason: FacesError::of(fault),
            back: vertices,
        }),
    }
}

/// Makes the mesh, and takes the values only when it is made.
fn made_of_faces<V, DE: Default, UE: Default, F: Default, C: AsRef<[FixedVertexHandle]>>(
    vertices: &mut Vec<V>,
    faces: impl IntoIterator<Item = C>,
) -> Result<Dcel<V, DE, UE, F>, Option<Fault>> {
    let (corners, counts) = corners_of(faces).map_err(no_fault)?;
    let mut values = Slab::new();
    let keys = values.try_keys(vertices.len()).map_err(no_fault)?;
    let mesh = Mesh::from_faces(&keys, &corners, &counts)?;
    values.insert_all(vertices);
    Ok(of_mesh(mesh, values, Values::default()))
}

/// Returns the corners of all faces in one row, and how many each has.
fn corners_of<C: AsRef<[FixedVertexHandle]>>(
    faces: impl IntoIterator<Item = C>,
) -> Result<(Vec<FixedVertexHandle>, Vec<u32>), Refusal> {
    let (mut corners, mut counts) = (Vec::new(), Vec::new());
    for face in faces {
        let face = face.as_ref();
        corners.try_reserve(face.len()).map_err(no_memory)?;
        counts.try_reserve(1).map_err(no_memory)?;
        corners.extend_from_slice(face);
        counts.push(face.len() as u32);
    }
    Ok((corners, counts))
}

/// Tells no fault where there was no memory.
fn no_fault(_: Refusal) -> Option<Fault> {
    None
}

fn of_mesh<V, DE: Default, UE: Default, F>(
    mesh: Mesh,
    vertices: Slab<V>,
    faces: Values<F>,
) -> Dcel<V, DE, UE, F> {
    Dcel {
        mesh,
        vertices,
        directed_edges: Values::default(),
        undirected_edges: Values::default(),
        faces,
    }
}
