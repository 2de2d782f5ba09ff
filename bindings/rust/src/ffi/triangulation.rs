//! The calls on triangulations, with constraints or without.

#![allow(
    private_interfaces,
    reason = "outside of the crate nobody names what is kept"
)]

use super::declarations::*;
use super::{HalfEdgeEntry, found};
use crate::refusal::Refusal;
use crate::slab::no_memory;
use std::cell::UnsafeCell;
use std::ptr;

/// A triangulation of the library, of either kind, open from its making to its end. Points are in
/// range.
pub trait Kept: Sized {
    /// Makes a triangulation of no points.
    fn new() -> Result<Self, Refusal>;

    /// Makes an equal triangulation.
    fn try_clone(&self) -> Result<Self, Refusal>;

    fn num_vertices(&self) -> usize;

    fn num_edges(&self) -> usize;

    fn num_triangles(&self) -> usize;

    fn is_whole(&self) -> bool;

    /// Makes it whole. Points stay, and no vertex gets another number.
    fn finish(&self) -> Result<(), Refusal>;

    /// Inserts a point. Returns its vertex, also if memory ran out before the triangulation was
    /// whole.
    fn insert(&mut self, point: Point) -> Result<u32, Refusal>;

    /// Inserts points, and puts their vertices into a list of as many. The error says that memory
    /// or numbers ran out; then some points are inserted.
    fn insert_all(&mut self, points: &[Point], vertices: &mut [u32]) -> Result<(), Refusal>;

    /// Removes a vertex. Returns the old number of the vertex that has its number now, also if
    /// memory ran out before the triangulation was whole.
    fn remove(&mut self, vertex: u32) -> Result<Option<u32>, Refusal>;

    /// Returns where a point is, in a triangulation that is whole.
    fn locate(&self, point: Point) -> Position;

    /// Returns the links of all half edges, each at its number.
    fn half_edges(&self) -> Vec<HalfEdgeEntry>;
}

/// Makes the type of a kind, and its calls.
macro_rules! kept {
    (
        $(#[$says:meta])* $kind:ident of $raw:ident;
        $new:ident, $free:ident, $clone:ident, $num_vertices:ident, $num_edges:ident,
        $num_triangles:ident, $is_whole:ident, $finish:ident, $insert:ident, $insert_all:ident,
        $remove:ident, $locate:ident, $directed_edges:ident
    ) => {
        $(#[$says])*
        pub struct $kind(UnsafeCell<$raw>);

        // SAFETY: the library has proved that a triangulation may go to another thread between two
        // calls.
        unsafe impl Send for $kind {}

        impl $kind {
            fn none() -> Self {
                Self(UnsafeCell::new($raw {
                    at: ptr::null_mut(),
                    is_open: false,
                }))
            }

            /// Lends the triangulation to one call.
            #[inline(always)]
            fn lend<R>(&self, call: impl FnOnce(&mut $raw) -> R) -> R {
                // SAFETY: nothing else leads there now. It is lent by this function and by
                // `&mut self` alone, no call of this module begins within another on the same
                // triangulation, and none of the types is `Sync`.
                call(unsafe { &mut *self.0.get() })
            }
        }

        impl Kept for $kind {
            fn new() -> Result<Self, Refusal> {
                let mut made = Self::none();
                Refusal::of($new(made.0.get_mut()))?;
                Ok(made)
            }

            fn try_clone(&self) -> Result<Self, Refusal> {
                let mut made = Self::none();
                Refusal::of(self.lend(|from| $clone(from, made.0.get_mut())))?;
                Ok(made)
            }

            fn num_vertices(&self) -> usize {
                self.lend(|it| $num_vertices(it)) as usize
            }

            fn num_edges(&self) -> usize {
                self.lend(|it| $num_edges(it)) as usize
            }

            fn num_triangles(&self) -> usize {
                self.lend(|it| $num_triangles(it)) as usize
            }

            fn is_whole(&self) -> bool {
                self.lend(|it| $is_whole(it))
            }

            fn finish(&self) -> Result<(), Refusal> {
                Refusal::of(self.lend(|it| $finish(it)))
            }

            fn insert(&mut self, point: Point) -> Result<u32, Refusal> {
                let mut vertex = 0;
                let status = $insert(self.0.get_mut(), point, &mut vertex);
                inserted(self, status, vertex)
            }

            fn insert_all(&mut self, points: &[Point], vertices: &mut [u32]) -> Result<(), Refusal> {
                let mut row = 0;
                // SAFETY: the slices last for the call.
                let status = unsafe {
                    $insert_all(
                        self.0.get_mut(),
                        points.as_ptr(),
                        points.len(),
                        vertices.as_mut_ptr(),
                        vertices.len(),
                        &mut row,
                    )
                };
                match status {
                    status::UNFINISHED => Err(Refusal::OutOfMemory),
                    status => Refusal::of(status),
                }
            }

            fn remove(&mut self, vertex: u32) -> Result<Option<u32>, Refusal> {
                let mut moved = NONE;
                match $remove(self.0.get_mut(), vertex, &mut moved) {
                    status::UNFINISHED => Ok(found(moved)),
                    status => Refusal::of(status).map(|()| found(moved)),
                }
            }

            fn locate(&self, point: Point) -> Position {
                let mut position = Position::default();
                let status = self.lend(|it| $locate(it, point, &mut position));
                debug_assert_eq!(status, status::DONE);
                position
            }

            fn half_edges(&self) -> Vec<HalfEdgeEntry> {
                let mut half_edges = vec![HalfEdgeEntry::NONE; 2 * self.num_edges()];
                let mut needed = 0;
                // SAFETY: the slice lasts for the call, and each number that it writes is a handle.
                let status = self.lend(|it| unsafe {
                    $directed_edges(it, half_edges.as_mut_ptr(), half_edges.len(), &mut needed)
                });
                debug_assert_eq!((status, needed), (status::DONE, half_edges.len() as u64));
                half_edges
            }
        }

        impl Drop for $kind {
            fn drop(&mut self) {
                $free(self.0.get_mut());
            }
        }
    };
}

kept! {
    /// A triangulation without constraints.
    Triangulation of RawTriangulation;
    dcel_triangulation_new, dcel_triangulation_free, dcel_triangulation_clone,
    dcel_triangulation_num_vertices, dcel_triangulation_num_edges,
    dcel_triangulation_num_triangles, dcel_triangulation_is_whole, dcel_triangulation_finish,
    dcel_triangulation_insert, dcel_triangulation_insert_all, dcel_triangulation_remove,
    dcel_triangulation_locate, dcel_triangulation_directed_edges
}

kept! {
    /// A triangulation with constraints.
    Constrained of RawConstrained;
    dcel_constrained_new, dcel_constrained_free, dcel_constrained_clone,
    dcel_constrained_num_vertices, dcel_constrained_num_edges, dcel_constrained_num_triangles,
    dcel_constrained_is_whole, dcel_constrained_finish, dcel_constrained_insert,
    dcel_constrained_insert_all, dcel_constrained_remove, dcel_constrained_locate,
    dcel_constrained_directed_edges
}

/// Returns the vertex that an insertion tells, or the last one where memory ran out before the
/// triangulation was whole.
fn inserted(kept: &impl Kept, status: u32, vertex: u32) -> Result<u32, Refusal> {
    if status == status::UNFINISHED {
        return Ok(kept.num_vertices() as u32 - 1);
    }
    Refusal::of(status)?;
    Ok(vertex)
}

impl Triangulation {
    /// Inserts a point as `insert` does, by a walk from a vertex.
    pub(crate) fn insert_with_hint(&mut self, point: Point, hint: u32) -> Result<u32, Refusal> {
        let mut vertex = 0;
        let it = self.0.get_mut();
        let status = dcel_triangulation_insert_with_hint(it, point, hint, &mut vertex);
        inserted(self, status, vertex)
    }

    /// Returns where a point is, as `locate` does, by a walk from a vertex.
    pub(crate) fn locate_with_hint(&self, point: Point, hint: u32) -> Position {
        let mut position = Position::default();
        let status =
            self.lend(|it| dcel_triangulation_locate_with_hint(it, point, hint, &mut position));
        debug_assert_eq!(status, status::DONE);
        position
    }

    /// Returns a vertex that is nearest to a point, in a triangulation that is whole.
    pub(crate) fn nearest(&self, point: Point) -> Option<u32> {
        let mut vertex = u32::MAX;
        let status = self.lend(|it| dcel_triangulation_nearest(it, point, &mut vertex));
        debug_assert_eq!(status, status::DONE);
        (vertex != u32::MAX).then_some(vertex)
    }
}

/// Why a segment isn't made a constraint.
pub(crate) enum NotAdded {
    NoSuchVertex,
    Crosses,
    OutOfMemory,
}

impl Constrained {
    /// Makes one of a triangulation that is whole, with the same numbers and no constraint.
    pub(crate) fn of(triangulation: &Triangulation) -> Result<Self, Refusal> {
        let mut made = Self::none();
        let to = made.0.get_mut();
        Refusal::of(triangulation.lend(|from| dcel_constrained_from_triangulation(from, to)))?;
        Ok(made)
    }

    pub(crate) fn num_constraints(&self) -> usize {
        self.lend(|it| dcel_constrained_num_constraints(it)) as usize
    }

    /// Returns whether a segment crosses no constraint, in a triangulation that is whole.
    pub(crate) fn can_add_constraint(&self, from: u32, to: u32) -> bool {
        let mut answer = false;
        let status = self.lend(|it| dcel_constrained_can_add_constraint(it, from, to, &mut answer));
        debug_assert_eq!(status, status::DONE);
        answer
    }

    /// Returns whether an edge is a constraint then that wasn't.
    pub(crate) fn add_constraint(&mut self, from: u32, to: u32) -> Result<bool, NotAdded> {
        let mut added = false;
        match dcel_constrained_add_constraint(self.0.get_mut(), from, to, &mut added) {
            status::DONE => Ok(added),
            status::NO_SUCH_VERTEX => Err(NotAdded::NoSuchVertex),
            status::CROSSES => Err(NotAdded::Crosses),
            _ => Err(NotAdded::OutOfMemory),
        }
    }

    /// Returns whether the edge was a constraint.
    pub(crate) fn remove_constraint(&mut self, edge: u32) -> Result<bool, Refusal> {
        let mut was = false;
        let status = dcel_constrained_remove_constraint(self.0.get_mut(), edge, &mut was);
        Refusal::of(status).map(|()| was)
    }

    pub(crate) fn is_constraint(&self, edge: u32) -> bool {
        self.lend(|it| dcel_constrained_is_constraint(it, edge))
    }

    pub(crate) fn exists_constraint(&self, from: u32, to: u32) -> bool {
        self.lend(|it| dcel_constrained_exists_constraint(it, from, to))
    }

    /// Puts how deep each triangle is into a list of as many.
    pub(crate) fn regions(&self, depths: &mut [u32]) -> Result<(), Refusal> {
        let mut needed = 0;
        // SAFETY: the slice lasts for the call.
        let status = self.lend(|it| unsafe {
            dcel_constrained_regions(it, depths.as_mut_ptr(), depths.len(), &mut needed)
        });
        Refusal::of(status)
    }

    /// Adds vertices, and returns whether each triangle is as asked then, and how many corners between
    /// two constraints are smaller. The error says that memory or numbers ran out; then some vertices
    /// are added.
    pub(crate) fn refine(&mut self, mut wanted: Refinement) -> Result<(bool, u64), Refusal> {
        let (mut added, mut excepted, mut reached) = (0, 0, false);
        let it = self.0.get_mut();
        match dcel_constrained_refine(it, &mut wanted, &mut added, &mut excepted, &mut reached) {
            status::UNFINISHED => Err(Refusal::OutOfMemory),
            status => Refusal::of(status).map(|()| (reached, excepted)),
        }
    }

    /// Returns the points of all vertices, each at its number.
    pub(crate) fn points(&self) -> Result<Vec<Point>, Refusal> {
        let (mut points, mut needed) = (Vec::new(), 0);
        points
            .try_reserve_exact(self.num_vertices())
            .map_err(no_memory)?;
        points.resize(self.num_vertices(), Point::default());
        // SAFETY: the slice lasts for the call.
        let status = self.lend(|it| unsafe {
            dcel_constrained_points(it, points.as_mut_ptr(), points.len(), &mut needed)
        });
        Refusal::of(status).map(|()| points)
    }
}
