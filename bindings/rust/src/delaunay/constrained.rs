//! Constraints.

use super::queries::{is_behind, side};
use super::{
    ConstrainedDelaunayTriangulation, ConstraintError, DelaunayTriangulation, HasPosition,
    LoadError, MEMORY,
};
use crate::ffi::{self, Kept};
use crate::handles::{FixedDirectedEdgeHandle, FixedUndirectedEdgeHandle, FixedVertexHandle};
use crate::refusal::Refusal;
use std::cell::Cell;

impl<V: HasPosition> ConstrainedDelaunayTriangulation<V> {
    /// Makes the triangulation of points and of edges between them, by their places in the list.
    /// Each edge is a constraint, or several if it passes through points. Edges may meet in points
    /// and overlap. It numbers the vertices in an order of its own.
    ///
    /// # Errors
    ///
    /// [`LoadError`], with the place of the edge that crosses one before it, or that has an end
    /// which is no place. The values are dropped then.
    ///
    /// ```
    /// use dcel::delaunay::{ConstrainedDelaunayTriangulation, Point2};
    ///
    /// let points = [(0, 0), (9, 1), (4, 4), (5, -4)].map(|(x, y)| Point2::new(x, y));
    /// let edges = vec![[0, 1]];
    /// let triangulation =
    ///     ConstrainedDelaunayTriangulation::bulk_load_cdt(points.to_vec(), edges)?;
    /// let [from, to] = [0, 1].map(|place| triangulation.locate_vertex(points[place]).unwrap());
    /// assert!(triangulation.exists_constraint(from.fix(), to.fix()));
    /// # Ok::<(), Box<dyn std::error::Error>>(())
    /// ```
    pub fn bulk_load_cdt(vertices: Vec<V>, edges: Vec<[usize; 2]>) -> Result<Self, LoadError> {
        Self::load_cdt(vertices, &edges, Err)
    }

    /// Does the same, but leaves out edges that cross one before them, and hands each to
    /// `on_conflict_found`.
    ///
    /// # Errors
    ///
    /// [`LoadError`], as [`bulk_load_cdt`](Self::bulk_load_cdt), but for edges that cross others.
    ///
    /// ```
    /// use dcel::delaunay::{ConstrainedDelaunayTriangulation, Point2};
    ///
    /// let points = [(0, 0), (2, 2), (2, 0), (0, 2)].map(|(x, y)| Point2::new(x, y));
    /// let mut conflicts = Vec::new();
    /// let triangulation = ConstrainedDelaunayTriangulation::try_bulk_load_cdt(
    ///     points.to_vec(),
    ///     vec![[0, 1], [2, 3]],
    ///     |edge| conflicts.push(edge),
    /// )?;
    /// assert_eq!((triangulation.num_constraints(), conflicts), (1, vec![[2, 3]]));
    /// # Ok::<(), Box<dyn std::error::Error>>(())
    /// ```
    pub fn try_bulk_load_cdt(
        vertices: Vec<V>,
        edges: Vec<[usize; 2]>,
        mut on_conflict_found: impl FnMut([usize; 2]),
    ) -> Result<Self, LoadError> {
        Self::load_cdt(vertices, &edges, |error| match error {
            LoadError {
                why: ConstraintError::Crosses,
                edge: Some(edge),
            } => {
                on_conflict_found(edges[edge]);
                Ok(())
            }
            _ => Err(error),
        })
    }

    /// Makes the triangulation of points and of edges. What is wrong with an edge is handed on,
    /// which may pass it.
    fn load_cdt(
        vertices: Vec<V>,
        edges: &[[usize; 2]],
        mut refused: impl FnMut(LoadError) -> Result<(), LoadError>,
    ) -> Result<Self, LoadError> {
        let (mut made, vertices) = Self::load(vertices)?;
        for (place, edge) in edges.iter().enumerate() {
            let added = match edge.map(|end| vertices.get(end)) {
                [Some(from), Some(to)] => made.kept.add_constraint(*from, *to).map_err(Into::into),
                _ => Err(ConstraintError::NoSuchVertex),
            };
            if let Err(why) = added {
                let edge = Some(place);
                refused(LoadError { why, edge })?;
            }
        }
        Ok(made)
    }

    /// Inserts the points of both values, and makes the segment between them a constraint, or
    /// several if it passes through vertices. Returns whether an edge is a constraint then that
    /// wasn't.
    ///
    /// # Errors
    ///
    /// [`ConstraintError`]. Points that were inserted before stay.
    ///
    /// ```
    /// use dcel::delaunay::{ConstrainedDelaunayTriangulation, Point2};
    ///
    /// let mut triangulation = ConstrainedDelaunayTriangulation::new()?;
    /// assert!(triangulation.add_constraint_edge(Point2::new(0, 0), Point2::new(4, 1))?);
    /// assert!(!triangulation.add_constraint_edge(Point2::new(4, 1), Point2::new(0, 0))?);
    /// # Ok::<(), Box<dyn std::error::Error>>(())
    /// ```
    pub fn add_constraint_edge(&mut self, from: V, to: V) -> Result<bool, ConstraintError> {
        let from = self.insert(from)?;
        let to = self.insert(to)?;
        self.add_constraint(from, to)
    }

    /// Inserts points, and makes the segments from each to the next constraints, and if it is
    /// closed that from the last to the first.
    ///
    /// # Errors
    ///
    /// [`ConstraintError`]. The points and constraints before that stay.
    ///
    /// ```
    /// use dcel::delaunay::{ConstrainedDelaunayTriangulation, Point2};
    ///
    /// let mut triangulation = ConstrainedDelaunayTriangulation::new()?;
    /// let corners = [(0, 0), (4, 0), (4, 4), (0, 4)].map(|(x, y)| Point2::new(x, y));
    /// triangulation.add_constraint_edges(corners, true)?;
    /// assert_eq!(triangulation.num_constraints(), 4);
    /// # Ok::<(), Box<dyn std::error::Error>>(())
    /// ```
    pub fn add_constraint_edges(
        &mut self,
        vertices: impl IntoIterator<Item = V>,
        closed: bool,
    ) -> Result<(), ConstraintError> {
        let mut ends: Option<[FixedVertexHandle; 2]> = None; // the first and the last
        for value in vertices {
            let vertex = self.insert(value)?;
            if let Some([_, last]) = ends {
                self.add_constraint(last, vertex)?;
            }
            ends = Some([ends.map_or(vertex, |[first, _]| first), vertex]);
        }
        if let Some([first, last]) = ends.filter(|_| closed) {
            self.add_constraint(last, first)?;
        }
        Ok(())
    }
}

impl<V: HasPosition> ConstrainedDelaunayTriangulation<V> {
    /// Adds a constraint as [`add_constraint`](Self::add_constraint) does, and returns the half
    /// edges that lead along it, also those that were constraints before. There is none if the
    /// segment crosses a constraint, or leads from a vertex to itself. It reads the mesh.
    ///
    /// # Errors
    ///
    /// [`ConstraintError::NoSuchVertex`] and [`ConstraintError::OutOfMemory`].
    ///
    /// ```
    /// use dcel::delaunay::{ConstrainedDelaunayTriangulation, Point2};
    ///
    /// let mut triangulation = ConstrainedDelaunayTriangulation::new()?;
    /// let [a, b, c, d] = [(0, 0), (2, 2), (1, 1), (0, 2)]
    ///     .map(|(x, y)| triangulation.insert(Point2::new(x, y)).unwrap());
    /// let edges = triangulation.try_add_constraint(a, b)?;
    /// let ends = edges.iter().map(|edge| triangulation.directed_edge(*edge).to().fix());
    /// assert!(ends.eq([c, b]));
    /// let far = triangulation.insert(Point2::new(3, 1))?;
    /// assert!(triangulation.try_add_constraint(d, far)?.is_empty());
    /// # Ok::<(), Box<dyn std::error::Error>>(())
    /// ```
    pub fn try_add_constraint(
        &mut self,
        from: FixedVertexHandle,
        to: FixedVertexHandle,
    ) -> Result<Vec<FixedDirectedEdgeHandle>, ConstraintError> {
        match self.add_constraint(from, to) {
            Ok(_) => Ok(self.edges_along(from, to)),
            Err(ConstraintError::Crosses) => Ok(Vec::new()),
            Err(error) => Err(error),
        }
    }

    /// Lists the half edges that lead from one vertex to another one, all of them on the segment.
    fn edges_along(
        &self,
        from: FixedVertexHandle,
        to: FixedVertexHandle,
    ) -> Vec<FixedDirectedEdgeHandle> {
        let (mut edges, mut vertex) = (Vec::new(), self.vertex(from));
        let end = self.vertex(to).position();
        while vertex.fix() != to {
            let segment = [vertex.position(), end];
            let is_along = |point| side(segment, point) == 0 && !is_behind(segment, point);
            let mut out = vertex.out_edges();
            let edge = out.find(|edge| is_along(edge.to().position()));
            let edge = edge.expect("constraints lead along the segment");
            edges.push(edge.fix());
            vertex = edge.to();
        }
        edges
    }
}

impl<V> ConstrainedDelaunayTriangulation<V> {
    /// Makes one of a triangulation without constraints. Handles of vertices stay. [`From`] makes
    /// one too, and panics without memory.
    ///
    /// # Errors
    ///
    /// [`Refusal::OutOfMemory`]. The values are dropped then.
    ///
    /// ```
    /// use dcel::delaunay::*;
    ///
    /// let points = [(0, 0), (9, 1), (4, 4)].map(|(x, y)| Point2::new(x, y));
    /// let triangulation = DelaunayTriangulation::bulk_load(points.to_vec())?;
    /// let made = ConstrainedDelaunayTriangulation::from_triangulation(triangulation)?;
    /// assert_eq!((made.num_inner_faces(), made.num_constraints()), (1, 0));
    /// # Ok::<(), Box<dyn std::error::Error>>(())
    /// ```
    pub fn from_triangulation(triangulation: DelaunayTriangulation<V>) -> Result<Self, Refusal> {
        triangulation.kept.finish()?;
        Ok(Self {
            kept: ffi::Constrained::of(&triangulation.kept)?,
            keys: triangulation.keys,
            dcel: triangulation.dcel,
            is_stale: Cell::new(true),
        })
    }

    /// Returns whether the segment between two vertices crosses no constraint. One that ends on it,
    /// or is on it, doesn't cross it. It is false if there is no such vertex.
    ///
    /// ```
    /// use dcel::delaunay::{ConstrainedDelaunayTriangulation, Point2};
    ///
    /// let mut triangulation = ConstrainedDelaunayTriangulation::new()?;
    /// let [a, b, c, d] = [(0, 0), (2, 2), (2, 0), (0, 2)]
    ///     .map(|(x, y)| triangulation.insert(Point2::new(x, y)).unwrap());
    /// assert!(triangulation.add_constraint(a, b)?);
    /// assert!(triangulation.can_add_constraint(c, a) && !triangulation.can_add_constraint(c, d));
    /// # Ok::<(), Box<dyn std::error::Error>>(())
    /// ```
    pub fn can_add_constraint(&self, from: FixedVertexHandle, to: FixedVertexHandle) -> bool {
        let kept = self.whole();
        kept.can_add_constraint(from.number(), to.number())
    }

    /// Makes the segment between two vertices a constraint, or several if it passes through
    /// vertices. Returns whether an edge is a constraint then that wasn't. Between a vertex and
    /// itself there is none.
    ///
    /// # Errors
    ///
    /// [`ConstraintError::NoSuchVertex`], [`ConstraintError::Crosses`], where spade panics, and
    /// [`ConstraintError::OutOfMemory`].
    ///
    /// ```
    /// use dcel::delaunay::{ConstrainedDelaunayTriangulation, ConstraintError, Point2};
    ///
    /// let mut triangulation = ConstrainedDelaunayTriangulation::new()?;
    /// let [a, b, c, d] = [(0, 0), (2, 2), (2, 0), (0, 2)]
    ///     .map(|(x, y)| triangulation.insert(Point2::new(x, y)).unwrap());
    /// assert!(triangulation.add_constraint(a, b)?);
    /// assert!(!triangulation.add_constraint(b, a)?);
    /// assert_eq!(triangulation.add_constraint(c, d), Err(ConstraintError::Crosses));
    /// # Ok::<(), Box<dyn std::error::Error>>(())
    /// ```
    pub fn add_constraint(
        &mut self,
        from: FixedVertexHandle,
        to: FixedVertexHandle,
    ) -> Result<bool, ConstraintError> {
        self.is_stale.set(true);
        Ok(self.kept.add_constraint(from.number(), to.number())?)
    }

    /// Makes an edge no constraint any more, and returns whether it was one. Any edge may be given.
    ///
    /// # Errors
    ///
    /// [`Refusal::OutOfMemory`]. The edge may be no constraint then.
    ///
    /// ```
    /// use dcel::delaunay::{ConstrainedDelaunayTriangulation, Point2};
    ///
    /// let mut triangulation = ConstrainedDelaunayTriangulation::new()?;
    /// triangulation.add_constraint_edge(Point2::new(0, 0), Point2::new(4, 1))?;
    /// let edge = triangulation.undirected_edges().next().unwrap().fix();
    /// assert!(triangulation.is_constraint_edge(edge));
    /// assert!(triangulation.remove_constraint_edge(edge)?);
    /// assert!(!triangulation.remove_constraint_edge(edge)?);
    /// # Ok::<(), Box<dyn std::error::Error>>(())
    /// ```
    pub fn remove_constraint_edge(
        &mut self,
        edge: FixedUndirectedEdgeHandle,
    ) -> Result<bool, Refusal> {
        self.is_stale.set(true);
        self.kept.remove_constraint(edge.number())
    }

    /// Returns whether an edge is a constraint. Any edge may be given.
    ///
    /// ```
    /// use dcel::delaunay::{ConstrainedDelaunayTriangulation, Point2};
    ///
    /// let points = [(0, 0), (4, 0), (0, 3)].map(|(x, y)| Point2::new(x, y)).to_vec();
    /// let triangulation = ConstrainedDelaunayTriangulation::bulk_load_cdt(points, vec![[0, 1]])?;
    /// let edges = triangulation.undirected_edges();
    /// let mut constraints = edges.filter(|edge| triangulation.is_constraint_edge(edge.fix()));
    /// assert_eq!(constraints.next().unwrap().length_2(), 16);
    /// assert!(constraints.next().is_none());
    /// # Ok::<(), Box<dyn std::error::Error>>(())
    /// ```
    pub fn is_constraint_edge(&self, edge: FixedUndirectedEdgeHandle) -> bool {
        self.whole().is_constraint(edge.number())
    }

    /// Returns whether an edge between two vertices is a constraint.
    ///
    /// ```
    /// use dcel::delaunay::{ConstrainedDelaunayTriangulation, Point2};
    ///
    /// let mut triangulation = ConstrainedDelaunayTriangulation::new()?;
    /// let [a, b, c] = [(0, 0), (2, 2), (1, 1)]
    ///     .map(|(x, y)| triangulation.insert(Point2::new(x, y)).unwrap());
    /// triangulation.add_constraint(a, b)?;
    /// assert!(triangulation.exists_constraint(c, b) && !triangulation.exists_constraint(a, b));
    /// # Ok::<(), Box<dyn std::error::Error>>(())
    /// ```
    pub fn exists_constraint(&self, from: FixedVertexHandle, to: FixedVertexHandle) -> bool {
        self.kept.exists_constraint(from.number(), to.number())
    }

    /// Returns how many edges are constraints. It looks at each edge.
    ///
    /// ```
    /// use dcel::delaunay::{ConstrainedDelaunayTriangulation, Point2};
    ///
    /// let triangulation = ConstrainedDelaunayTriangulation::<Point2>::new()?;
    /// assert_eq!(triangulation.num_constraints(), 0);
    /// # Ok::<(), dcel::Refusal>(())
    /// ```
    pub fn num_constraints(&self) -> usize {
        self.kept.num_constraints()
    }

    /// Returns how deep each face is, by its index: how many constraints a way to it from the outer
    /// face crosses at least, which is 0 for that one. Panics if there is no memory.
    ///
    /// Where constraints are the borders of polygons and of their holes, no two of which have an
    /// edge in common, it is 1 in a polygon, 2 in a hole of it, and so on.
    ///
    /// ```
    /// use dcel::delaunay::{ConstrainedDelaunayTriangulation, Point2};
    ///
    /// let points = [(0, 0), (9, 0), (9, 9), (3, 1), (8, 1), (8, 6)];
    /// let points = points.map(|(x, y)| Point2::new(x, y)).to_vec();
    /// let edges = vec![[0, 1], [1, 2], [2, 0], [3, 4], [4, 5], [5, 3]];
    /// let triangulation = ConstrainedDelaunayTriangulation::bulk_load_cdt(points, edges)?;
    /// let mut regions = triangulation.regions();
    /// regions.sort();
    /// assert_eq!(regions, [0, 1, 1, 1, 1, 1, 1, 2]);
    /// # Ok::<(), Box<dyn std::error::Error>>(())
    /// ```
    pub fn regions(&self) -> Vec<u32> {
        let kept = self.whole();
        let mut regions = vec![0; kept.num_triangles() + 1];
        kept.regions(&mut regions[1..]).expect(MEMORY);
        regions
    }
}

impl<V> From<DelaunayTriangulation<V>> for ConstrainedDelaunayTriangulation<V> {
    /// Makes one without constraints. Panics if there is no memory.
    fn from(triangulation: DelaunayTriangulation<V>) -> Self {
        Self::from_triangulation(triangulation).expect(MEMORY)
    }
}
