//! The calls of the library, as `bindings/c/dcel.h` declares them, and the one place with `unsafe`.
//! `tools/bind` makes `declarations` and `calls` of that header.
//!
//! Elements are numbers here, and what the mesh keeps of their data are keys. All that the library
//! leaves to its caller holds by types: a [`Mesh`] is made and freed once, nothing else writes to
//! it or copies it, no two calls work on it at a time, and slices are live and apart from each
//! other.

#[rustfmt::skip]
mod calls;
#[rustfmt::skip]
mod declarations;
mod triangulation;

use crate::handles::{
    FixedDirectedEdgeHandle, FixedFaceHandle, FixedUndirectedEdgeHandle, FixedVertexHandle,
    InnerTag, PossiblyOuterTag,
};
use crate::refusal::Refusal;
#[cfg(test)]
pub(crate) use declarations::STATUS_NAMES;
use declarations::*;
pub(crate) use declarations::{Fault, Legalized, NO_LINK, Opened, Removed};
pub(crate) use declarations::{Point, Position, Refinement};
pub(crate) use declarations::{ended, fault_kind, place, removal_state, status};
use std::cell::UnsafeCell;
use std::ptr;
pub(crate) use triangulation::NotAdded;
pub use triangulation::{Constrained, Kept, Triangulation};

/// The links of a half edge: C's `dcel_half_edge`.
///
/// [`Links`](crate::Links) gives it.
#[repr(C)]
#[derive(Clone, Copy, PartialEq, Eq, Debug)]
pub struct HalfEdgeEntry {
    /// The half edge after it on its face.
    pub next: FixedDirectedEdgeHandle,

    /// The half edge before it on its face.
    pub prev: FixedDirectedEdgeHandle,

    /// The vertex where it starts.
    pub origin: FixedVertexHandle,

    /// Its face.
    pub face: FixedFaceHandle<PossiblyOuterTag>,
}

impl HalfEdgeEntry {
    /// What the library gives for a half edge that isn't live.
    const NONE: Self = Self {
        next: FixedDirectedEdgeHandle::of(NO_LINK),
        prev: FixedDirectedEdgeHandle::of(NO_LINK),
        origin: FixedVertexHandle::of(NO_LINK),
        face: FixedFaceHandle::of(NO_LINK),
    };
}

/// A mesh of the library, open from its making to its end.
pub(crate) struct Mesh(UnsafeCell<RawMesh>);

// SAFETY: the library has proved that a mesh may go to another thread between two calls.
unsafe impl Send for Mesh {}

impl Mesh {
    /// Makes a mesh of the outer face alone.
    pub(crate) fn new() -> Result<Self, Refusal> {
        let mut mesh = Self::none();
        Refusal::of(dcel_new(mesh.0.get_mut()))?;
        Ok(mesh)
    }

    /// Makes an equal mesh.
    pub(crate) fn try_clone(&self) -> Result<Self, Refusal> {
        let mut mesh = Self::none();
        Refusal::of(self.read(|from| dcel_clone(from, mesh.0.get_mut())))?;
        Ok(mesh)
    }

    /// Makes the mesh of what is given. The error is a fault, or None if there was no memory.
    fn given(make: impl FnOnce(&mut RawMesh, &mut Fault) -> u32) -> Result<Self, Option<Fault>> {
        let (mut mesh, mut fault) = (Self::none(), Fault::default());
        match make(mesh.0.get_mut(), &mut fault) {
            status::DONE => Ok(mesh),
            status::FAULTY => Err(Some(fault)),
            _ => Err(None),
        }
    }

    /// Returns the links of all half edges, each at its number.
    pub(crate) fn half_edges(&self) -> Vec<HalfEdgeEntry> {
        let mut half_edges = vec![HalfEdgeEntry::NONE; self.num_directed_edges()];
        let needed = self.directed_edges(&mut half_edges);
        debug_assert_eq!(needed, Ok(half_edges.len() as u64));
        half_edges
    }

    /// Makes the mesh anew, of what a triangulation has. The error says that there was no memory.
    ///
    /// It takes the mesh as a call does that reads it: nothing lends links or elements of a mesh.
    pub(crate) fn renew(
        &self,
        half_edges: &[HalfEdgeEntry],
        vertices: &[u64],
        faces: &[u64],
    ) -> Result<(), Refusal> {
        let mut fault = Fault::default();
        // SAFETY: the slices last for the call, and each number that it writes is a handle.
        let status = self.read(|mesh| unsafe {
            dcel_from_links(
                mesh,
                half_edges.as_ptr(),
                half_edges.len(),
                vertices.as_ptr(),
                vertices.len(),
                faces.as_ptr(),
                faces.len(),
                &mut fault,
            )
        });
        debug_assert_ne!(status, status::FAULTY);
        Refusal::of(status)
    }

    fn none() -> Self {
        Self(UnsafeCell::new(RawMesh {
            at: ptr::null_mut(),
            is_open: false,
        }))
    }

    /// Lends the mesh to one call, which leaves it as it was.
    #[inline(always)]
    fn read<R>(&self, call: impl FnOnce(&mut RawMesh) -> R) -> R {
        // SAFETY: nothing else leads there now. It is lent by this function and by `&mut self`
        // alone, no call of this module begins within another on the same mesh, and a `Mesh` isn't
        // `Sync`.
        call(unsafe { &mut *self.0.get() })
    }

    /// Lends the mesh to one call, which may change it.
    #[inline(always)]
    fn edit(&mut self, call: impl FnOnce(&mut RawMesh) -> u32) -> Result<(), Refusal> {
        Refusal::of(call(self.0.get_mut()))
    }
}

/// Makes methods that read and write the keys of a kind of elements. Reading one gives None, and
/// writing one does nothing, if there is no such element.
macro_rules! keys {
    ($($read:ident = $data:ident, $write:ident = $update:ident;)*) => {
        impl Mesh {$(
            #[inline]
            pub(crate) fn $read(&self, number: u32) -> Option<u64> {
                self.$data(number).ok()
            }

            #[inline]
            pub(crate) fn $write(&mut self, number: u32, key: u64) {
                let written = self.$update(number, key);
                debug_assert!(written.is_ok());
            }
        )*}
    };
}

keys! {
    vertex_key = vertex_data, set_vertex_key = update_vertex;
    directed_edge_key = directed_edge_data, set_directed_edge_key = update_directed_edge;
    undirected_edge_key = undirected_edge_data, set_undirected_edge_key = update_undirected_edge;
    face_key = face_data, set_face_key = update_face;
}

impl Removed {
    /// Returns the old number of the vertex that was moved into the place, if one was.
    pub(crate) fn moved(&self) -> Option<u32> {
        found(self.moved)
    }
}

/// Returns the number that a call has found, if it has found one.
#[inline]
fn found(number: u64) -> Option<u32> {
    (number != NONE).then_some(number as u32)
}

impl Drop for Mesh {
    fn drop(&mut self) {
        dcel_free(self.0.get_mut());
    }
}
