//! The mesh.

mod conditions;
mod data;
mod elements;
mod whole;

use crate::ffi::Mesh;
use crate::refusal::Refusal;
use crate::slab::{Slab, Values};
use std::fmt;

/// A half-edge mesh on the sphere, with a value for each vertex, half edge, edge and face.
///
/// It is always a sound map on the sphere: the operations that would break it are refused. Its
/// links lie in the memory of C's `malloc`, and its values here. What isn't written yet of half
/// edges, edges and faces is one default value for each of these kinds, made with the mesh. So a
/// type whose values change by `&`, such as `Cell`, should be written by `.._data_mut` before it is
/// changed so. If the `drop` of a value panics while several are dropped, others may leak.
///
/// A mesh may go to another thread, but no two threads use one at a time: it is `Send`, and not
/// `Sync`. Threads share its [`Links`](crate::Links).
///
/// ```
/// fn is_send<T: Send>() {}
/// is_send::<dcel::Dcel<String>>();
/// ```
///
/// ```compile_fail,E0277
/// fn is_sync<T: Sync>() {}
/// is_sync::<dcel::Dcel<String>>();
/// ```
pub struct Dcel<V, DE = (), UE = (), F = ()> {
    pub(crate) mesh: Mesh,
    pub(crate) vertices: Slab<V>,
    pub(crate) directed_edges: Values<DE>,
    pub(crate) undirected_edges: Values<UE>,
    pub(crate) faces: Values<F>,
}

/// How far the removal of a mesh has come.
///
/// ```
/// assert_eq!(dcel::Dcel::<()>::default().removal_state(), dcel::RemovalState::Closed);
/// ```
#[derive(Clone, Copy, PartialEq, Eq, Hash, Debug)]
pub enum RemovalState {
    /// No removal is open.
    Closed,

    /// One is open: what it has given up is still stored, and to be cleaned up.
    Isolated,

    /// One is open: the edges and faces that it has given up are gone, and its vertex is still to
    /// be taken out.
    Cleaned,
}

impl<V, DE: Default, UE: Default, F: Default> Dcel<V, DE, UE, F> {
    /// Makes a mesh of the outer face alone. [`Default`] makes one too, and panics without memory.
    ///
    /// # Errors
    ///
    /// [`Refusal::OutOfMemory`].
    ///
    /// ```
    /// let dcel = dcel::Dcel::<char>::new()?;
    /// assert_eq!((dcel.num_vertices(), dcel.num_faces()), (0, 1));
    /// # Ok::<(), dcel::Refusal>(())
    /// ```
    pub fn new() -> Result<Self, Refusal> {
        Ok(Self {
            mesh: Mesh::new()?,
            vertices: Slab::new(),
            directed_edges: Values::default(),
            undirected_edges: Values::default(),
            faces: Values::default(),
        })
    }
}

impl<V, DE: Default, UE: Default, F: Default> Default for Dcel<V, DE, UE, F> {
    /// Makes a mesh of the outer face alone. Panics if there is no memory.
    fn default() -> Self {
        Self::new().expect("there is memory for a mesh")
    }
}

/// How many elements there are, with those that a removal has given up.
impl<V, DE, UE, F> Dcel<V, DE, UE, F> {
    /// Returns how many vertices there are.
    ///
    /// ```
    /// use dcel::{Dcel, operations::new_triangle};
    ///
    /// let dcel: Dcel<_> = new_triangle(['a', 'b', 'c'])?;
    /// assert_eq!(dcel.num_vertices(), 3);
    /// # Ok::<(), dcel::Refusal>(())
    /// ```
    #[inline]
    pub fn num_vertices(&self) -> usize {
        self.mesh.num_vertices()
    }

    /// Returns how many half edges there are, twice as many as edges.
    ///
    /// ```
    /// use dcel::{Dcel, operations::new_triangle};
    ///
    /// let dcel: Dcel<_> = new_triangle(['a', 'b', 'c'])?;
    /// assert_eq!(dcel.num_directed_edges(), 6);
    /// # Ok::<(), dcel::Refusal>(())
    /// ```
    #[inline]
    pub fn num_directed_edges(&self) -> usize {
        self.mesh.num_directed_edges()
    }

    /// Returns how many edges there are.
    ///
    /// ```
    /// use dcel::{Dcel, operations::new_triangle};
    ///
    /// let dcel: Dcel<_> = new_triangle(['a', 'b', 'c'])?;
    /// assert_eq!(dcel.num_undirected_edges(), 3);
    /// # Ok::<(), dcel::Refusal>(())
    /// ```
    #[inline]
    pub fn num_undirected_edges(&self) -> usize {
        self.mesh.num_undirected_edges()
    }

    /// Returns how many faces there are, with the outer one.
    ///
    /// ```
    /// use dcel::{Dcel, operations::new_triangle};
    ///
    /// let dcel: Dcel<_> = new_triangle(['a', 'b', 'c'])?;
    /// assert_eq!(dcel.num_faces(), 2);
    /// # Ok::<(), dcel::Refusal>(())
    /// ```
    #[inline]
    pub fn num_faces(&self) -> usize {
        self.mesh.num_faces()
    }
}

impl<V, DE, UE, F> fmt::Debug for Dcel<V, DE, UE, F> {
    /// Writes the counts alone.
    fn fmt(&self, f: &mut fmt::Formatter<'_>) -> fmt::Result {
        f.debug_struct("Dcel")
            .field("vertices", &self.num_vertices())
            .field("undirected_edges", &self.num_undirected_edges())
            .field("faces", &self.num_faces())
            .finish_non_exhaustive()
    }
}
