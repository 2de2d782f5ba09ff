//! Delaunay triangulations of points, with constraints or without, and with the names of `spade`.
//!
//! Coordinates are whole numbers from -2^53 to 2^53, and a triangulation is exactly Delaunay of
//! them; a [`Grid`] makes whole numbers of floats. Where spade panics there is an error, and a call
//! that is refused changes nothing, but where its text says so. Of equal points there is one vertex,
//! with the value of the last one.
//!
//! ```
//! use dcel::delaunay::{DelaunayTriangulation, Point2, PositionInTriangulation};
//!
//! let points = [(0, 0), (4, 0), (0, 3), (5, 5), (2, 2)].map(|(x, y)| Point2::new(x, y));
//! let mut triangulation = DelaunayTriangulation::bulk_load(points.to_vec())?;
//! assert_eq!((triangulation.num_vertices(), triangulation.num_inner_faces()), (5, 4));
//!
//! let near = triangulation.nearest_neighbor(Point2::new(5, 0)).unwrap();
//! assert_eq!(near.position(), Point2::new(4, 0));
//! let vertex = near.fix();
//! triangulation.remove(vertex)?;
//! let position = triangulation.locate(Point2::new(4, 0));
//! assert!(matches!(position, PositionInTriangulation::OutsideOfConvexHull(_)));
//! # Ok::<(), Box<dyn std::error::Error>>(())
//! ```
//!
//! A [`Triangulation`] dereferences to its mesh, a [`Dcel`], so it has that one's lists, elements
//! and steps. The mesh is made anew when it is first read after a change, in linear time: insert
//! much, then walk. Changes, counts, constraints, [`locate`](Triangulation::locate),
//! [`vertex_data`](Triangulation::vertex_data) and
//! [`nearest_vertex`](DelaunayTriangulation::nearest_vertex) don't read it.
//!
//! In a [`ConstrainedDelaunayTriangulation`] some edges are constraints, and stay:
//!
//! ```
//! use dcel::delaunay::{ConstrainedDelaunayTriangulation, ConstraintError, Point2};
//!
//! let points = [(0, 0), (4, 0), (4, 4), (0, 4), (3, 2)].map(|(x, y)| Point2::new(x, y));
//! let outline = [[0, 1], [1, 4], [4, 2], [2, 3], [3, 0]];
//! let mut triangulation =
//!     ConstrainedDelaunayTriangulation::bulk_load_cdt(points.to_vec(), outline.to_vec())?;
//! assert_eq!(triangulation.num_constraints(), 5);
//!
//! let regions = triangulation.regions();
//! let inside = triangulation.inner_faces().filter(|face| regions[face.fix().index()] == 1);
//! assert_eq!(inside.count(), 3);
//!
//! let [a, b] = [points[0], Point2::new(5, 2)].map(|point| triangulation.insert(point));
//! assert_eq!(triangulation.add_constraint(a?, b?), Err(ConstraintError::Crosses));
//! # Ok::<(), Box<dyn std::error::Error>>(())
//! ```

mod constrained;
mod errors;
mod grid;
mod kind;
mod point;
mod queries;
mod refinement;

pub use errors::{ConstraintError, InsertionError, LoadError};
pub use grid::Grid;
pub use kind::{Constrained, Kind, Unconstrained};
pub use point::{HasPosition, Point2};
pub use queries::PositionInTriangulation;
pub use refinement::{AngleLimit, RefinementParameters, RefinementResult};

use crate::Dcel;
use crate::ffi::{Kept, Mesh, Point, place};
use crate::handles::FixedVertexHandle;
use crate::operations::RemovalResult;
use crate::refusal::Refusal;
use crate::slab::no_memory;
use std::cell::Cell;
use std::fmt;
use std::ops::Deref;

/// The Delaunay triangulation of points, each with a value. [`Triangulation`] has most methods.
pub type DelaunayTriangulation<V> = Triangulation<V, Unconstrained>;

/// The Delaunay triangulation of points, each with a value, but for edges that are constraints: no
/// point that a triangle sees, past no constraint, is inside its circle.
///
/// A constraint that a point is inserted on becomes two, and those that end at a vertex are removed
/// with it. [`Triangulation`] has what both kinds have.
pub type ConstrainedDelaunayTriangulation<V> = Triangulation<V, Constrained>;

/// A triangulation of either [`Kind`]: a [`DelaunayTriangulation`] or a
/// [`ConstrainedDelaunayTriangulation`].
///
/// It is `Send`, and not `Sync`, as its mesh.
pub struct Triangulation<V, K: Kind> {
    kept: K::Kept,
    /// The keys of the values, by vertex.
    keys: Vec<u64>,
    /// The values, and the mesh as it was when it was last read.
    dcel: Dcel<V>,
    is_stale: Cell<bool>,
}

impl<V: HasPosition, K: Kind> Triangulation<V, K> {
    /// Makes a triangulation of no points. [`Default`] makes one too, and panics without memory.
    ///
    /// # Errors
    ///
    /// [`Refusal::OutOfMemory`].
    ///
    /// ```
    /// use dcel::delaunay::{DelaunayTriangulation, Point2};
    ///
    /// let triangulation = DelaunayTriangulation::<Point2>::new()?;
    /// assert_eq!(triangulation.num_vertices(), 0);
    /// # Ok::<(), dcel::Refusal>(())
    /// ```
    pub fn new() -> Result<Self, Refusal> {
        Ok(Self {
            kept: K::Kept::new()?,
            keys: Vec::new(),
            dcel: Dcel::new()?,
            is_stale: Cell::new(false),
        })
    }

    /// Makes the triangulation of points, faster than by insertions. It numbers the vertices in an
    /// order of its own.
    ///
    /// # Errors
    ///
    /// [`InsertionError`]. The values are dropped then.
    ///
    /// ```
    /// use dcel::delaunay::{DelaunayTriangulation, InsertionError, Point2};
    ///
    /// let far = vec![Point2::new(0, 0), Point2::new(1 << 54, 0)];
    /// let refused = DelaunayTriangulation::bulk_load(far).unwrap_err();
    /// assert_eq!(refused, InsertionError::OutOfRange);
    /// ```
    pub fn bulk_load(elements: Vec<V>) -> Result<Self, InsertionError> {
        Ok(Self::load(elements)?.0)
    }

    /// Makes the triangulation of points. Returns it with the vertex of each.
    fn load(elements: Vec<V>) -> Result<(Self, Vec<u32>), InsertionError> {
        let mut made = Self::new()?;
        let (mut points, mut vertices) = (Vec::new(), Vec::new());
        points
            .try_reserve_exact(elements.len())
            .map_err(no_memory)?;
        for element in &elements {
            points.push(element.position().in_range()?);
        }
        vertices
            .try_reserve_exact(points.len())
            .map_err(no_memory)?;
        vertices.resize(points.len(), 0);
        made.reserve(points.len())?;
        made.kept.insert_all(&points, &mut vertices)?;
        made.is_stale.set(true);
        made.keys.resize(made.kept.num_vertices(), 0);
        for (vertex, element) in vertices.iter().zip(elements) {
            made.put(*vertex, element);
        }
        Ok((made, vertices))
    }

    /// Inserts a point, and returns its vertex: a new one, which has the next number, or the one
    /// that is there already, whose value is replaced.
    ///
    /// # Errors
    ///
    /// [`InsertionError`]. The value is dropped then.
    ///
    /// ```
    /// use dcel::delaunay::{DelaunayTriangulation, Point2};
    ///
    /// let mut triangulation = DelaunayTriangulation::new()?;
    /// let first = triangulation.insert((Point2::new(1, 2), "a"))?;
    /// assert_eq!(triangulation.insert((Point2::new(1, 2), "b"))?, first);
    /// assert_eq!(triangulation.vertex(first).data().1, "b");
    /// # Ok::<(), Box<dyn std::error::Error>>(())
    /// ```
    pub fn insert(&mut self, vertex: V) -> Result<FixedVertexHandle, InsertionError> {
        self.insert_by(vertex, |kept, point| kept.insert(point))
    }

    fn insert_by(
        &mut self,
        value: V,
        insert: impl FnOnce(&mut K::Kept, Point) -> Result<u32, Refusal>,
    ) -> Result<FixedVertexHandle, InsertionError> {
        let point = value.position().in_range()?;
        self.reserve(1)?;
        let vertex = insert(&mut self.kept, point)?;
        self.is_stale.set(true);
        if vertex as usize == self.keys.len() {
            self.keys.push(0);
        }
        self.put(vertex, value);
        Ok(FixedVertexHandle::of(vertex))
    }

    /// Removes a vertex, and returns its value. The last vertex gets its number.
    ///
    /// # Errors
    ///
    /// [`Refusal::NoSuchVertex`], [`Refusal::NoRoom`] and [`Refusal::OutOfMemory`], which may leave
    /// edges flipped, and constraints that end at the vertex removed.
    ///
    /// ```
    /// use dcel::Refusal;
    /// use dcel::delaunay::{DelaunayTriangulation, Point2};
    ///
    /// let mut triangulation = DelaunayTriangulation::new()?;
    /// let first = triangulation.insert(Point2::new(1, 2)).unwrap();
    /// let last = triangulation.insert(Point2::new(3, 4)).unwrap();
    /// let removed = triangulation.remove(first)?;
    /// assert_eq!(removed.removed_vertex, Point2::new(1, 2));
    /// assert_eq!(removed.swapped_in_vertex, Some(last));
    /// assert_eq!(triangulation.remove(last), Err(Refusal::NoSuchVertex));
    /// # Ok::<(), Refusal>(())
    /// ```
    pub fn remove(&mut self, vertex: FixedVertexHandle) -> Result<RemovalResult<V>, Refusal> {
        let removed = self.kept.remove(vertex.number());
        if removed != Err(Refusal::NoSuchVertex) {
            self.is_stale.set(true);
        }
        let moved = removed?;
        let key = self.keys.swap_remove(vertex.index());
        Ok(RemovalResult {
            removed_vertex: self.dcel.vertices.remove(key),
            swapped_in_vertex: moved.map(FixedVertexHandle::of),
        })
    }

    /// Removes the vertex at a point, and returns its value, or `None` if none is there.
    ///
    /// # Errors
    ///
    /// As [`remove`](Self::remove), but for [`Refusal::NoSuchVertex`].
    ///
    /// ```
    /// use dcel::delaunay::{DelaunayTriangulation, Point2};
    ///
    /// let mut triangulation = DelaunayTriangulation::new()?;
    /// triangulation.insert(Point2::new(1, 2))?;
    /// assert_eq!(triangulation.locate_and_remove(Point2::new(1, 2))?, Some(Point2::new(1, 2)));
    /// assert_eq!(triangulation.locate_and_remove(Point2::new(1, 2))?, None);
    /// # Ok::<(), Box<dyn std::error::Error>>(())
    /// ```
    pub fn locate_and_remove(&mut self, point: Point2) -> Result<Option<V>, Refusal> {
        let Ok(in_range) = point.in_range() else {
            return Ok(None); // there is no vertex out there
        };
        let position = self.try_whole()?.locate(in_range);
        if position.kind != place::ON_VERTEX {
            return Ok(None);
        }
        let removed = self.remove(FixedVertexHandle::of(position.number))?;
        Ok(Some(removed.removed_vertex))
    }

    /// Makes room for more vertices' values and keys.
    fn reserve(&mut self, more: usize) -> Result<(), Refusal> {
        self.keys.try_reserve(more).map_err(no_memory)?;
        self.dcel.vertices.try_reserve(more)
    }

    /// Sets the value of a vertex, for which there is room.
    fn put(&mut self, vertex: u32, value: V) {
        match &mut self.keys[vertex as usize] {
            key @ 0 => *key = self.dcel.vertices.insert(value),
            key => *self.dcel.vertices.get_mut(*key) = value,
        }
    }
}

impl<V: HasPosition> DelaunayTriangulation<V> {
    /// Inserts a point as [`insert`](Self::insert) does, by a walk that begins at a vertex: the
    /// nearer it is, the shorter is the walk. If there is no such vertex, it begins where that of
    /// `insert` does.
    ///
    /// # Errors
    ///
    /// [`InsertionError`]. The value is dropped then.
    ///
    /// ```
    /// use dcel::delaunay::{DelaunayTriangulation, Point2};
    ///
    /// let mut triangulation = DelaunayTriangulation::new()?;
    /// let mut last = triangulation.insert(Point2::new(0, 0))?;
    /// for x in 1..100 {
    ///     last = triangulation.insert_with_hint(Point2::new(x, x * x), last)?;
    /// }
    /// assert_eq!(triangulation.num_inner_faces(), 98);
    /// # Ok::<(), Box<dyn std::error::Error>>(())
    /// ```
    pub fn insert_with_hint(
        &mut self,
        vertex: V,
        hint: FixedVertexHandle,
    ) -> Result<FixedVertexHandle, InsertionError> {
        self.insert_by(vertex, |kept, point| {
            kept.insert_with_hint(point, hint.number())
        })
    }
}

impl<V, K: Kind> Triangulation<V, K> {
    /// Returns the triangulation, whole: edges may be left to flip where memory ran out.
    fn try_whole(&self) -> Result<&K::Kept, Refusal> {
        if !self.kept.is_whole() {
            self.kept.finish()?;
            self.is_stale.set(true);
        }
        Ok(&self.kept)
    }

    /// Does the same, and panics if there is no memory for that.
    fn whole(&self) -> &K::Kept {
        self.try_whole().expect(MEMORY)
    }

    /// Returns the mesh, which is made anew if it has changed. Panics if there is no memory for
    /// that.
    ///
    /// Vertices, half edges, edges and faces have the numbers that the triangulation's calls use.
    ///
    /// ```
    /// use dcel::delaunay::{DelaunayTriangulation, Point2};
    ///
    /// let mut triangulation = DelaunayTriangulation::new()?;
    /// for (x, y) in [(0, 0), (2, 0), (0, 2)] {
    ///     triangulation.insert(Point2::new(x, y))?;
    /// }
    /// assert!(triangulation.dcel().sanity_check());
    /// # Ok::<(), Box<dyn std::error::Error>>(())
    /// ```
    pub fn dcel(&self) -> &Dcel<V> {
        let kept = self.whole();
        if self.is_stale.get() {
            let (half_edges, faces) = (kept.half_edges(), vec![0; kept.num_triangles() + 1]);
            let mesh: &Mesh = &self.dcel.mesh;
            mesh.renew(&half_edges, &self.keys, &faces).expect(MEMORY);
            self.is_stale.set(false);
        }
        &self.dcel
    }

    /// Returns the mesh with the values of the vertices. Panics if there is no memory for it.
    ///
    /// ```
    /// use dcel::delaunay::{DelaunayTriangulation, Point2};
    ///
    /// let mut triangulation = DelaunayTriangulation::new()?;
    /// triangulation.insert((Point2::new(0, 0), 'a'))?;
    /// assert_eq!(triangulation.into_dcel().vertices().next().unwrap().data().1, 'a');
    /// # Ok::<(), Box<dyn std::error::Error>>(())
    /// ```
    pub fn into_dcel(self) -> Dcel<V> {
        self.dcel();
        self.dcel
    }
}

impl<V: Clone, K: Kind> Triangulation<V, K> {
    /// Makes an equal triangulation with clones of all values. [`Clone`] makes one too, and panics
    /// without memory.
    ///
    /// # Errors
    ///
    /// [`Refusal::OutOfMemory`].
    ///
    /// ```
    /// use dcel::delaunay::{DelaunayTriangulation, Point2};
    ///
    /// let triangulation = DelaunayTriangulation::bulk_load(vec![Point2::new(1, 2)])?;
    /// assert_eq!(triangulation.try_clone()?.num_vertices(), 1);
    /// # Ok::<(), Box<dyn std::error::Error>>(())
    /// ```
    pub fn try_clone(&self) -> Result<Self, Refusal> {
        let mut keys = Vec::new();
        keys.try_reserve_exact(self.keys.len()).map_err(no_memory)?;
        keys.extend_from_slice(&self.keys);
        Ok(Self {
            kept: self.kept.try_clone()?,
            keys,
            dcel: self.dcel.try_clone()?,
            is_stale: Cell::new(true),
        })
    }
}

const MEMORY: &str = "there is memory for the triangulation's mesh";

impl<V, K: Kind> Deref for Triangulation<V, K> {
    type Target = Dcel<V>;

    /// Returns the mesh, as [`dcel`](Triangulation::dcel).
    fn deref(&self) -> &Dcel<V> {
        self.dcel()
    }
}

impl<V: HasPosition, K: Kind> Default for Triangulation<V, K> {
    /// Makes a triangulation of no points. Panics if there is no memory.
    fn default() -> Self {
        Self::new().expect("there is memory for a triangulation")
    }
}

impl<V: Clone, K: Kind> Clone for Triangulation<V, K> {
    /// Makes an equal triangulation with clones of all values. Panics if there is no memory.
    fn clone(&self) -> Self {
        self.try_clone()
            .expect("there is memory for a triangulation")
    }
}

impl<V, K: Kind> fmt::Debug for Triangulation<V, K> {
    /// Writes the counts alone.
    fn fmt(&self, f: &mut fmt::Formatter<'_>) -> fmt::Result {
        f.debug_struct(K::NAME)
            .field("vertices", &self.kept.num_vertices())
            .field("inner_faces", &self.kept.num_triangles())
            .finish_non_exhaustive()
    }
}
