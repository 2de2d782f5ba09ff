//! What a triangulation has, and where points are in it.

use super::{DelaunayTriangulation, HasPosition, Kind, Point2, Triangulation};
use crate::ffi::{Kept, Point, Position, place};
use crate::handles::{
    FixedDirectedEdgeHandle, FixedFaceHandle, FixedVertexHandle, InnerTag, VertexHandle,
};
use crate::iterators::HullIterator;

/// Where a point is.
///
/// ```
/// use dcel::delaunay::{DelaunayTriangulation, Point2, PositionInTriangulation};
///
/// let triangulation = DelaunayTriangulation::<Point2>::new()?;
/// let position = triangulation.locate(Point2::new(0, 0));
/// assert_eq!(position, PositionInTriangulation::NoTriangulation);
/// # Ok::<(), dcel::Refusal>(())
/// ```
#[derive(Clone, Copy, PartialEq, Eq, Hash, Debug)]
pub enum PositionInTriangulation {
    /// At a vertex.
    OnVertex(FixedVertexHandle),

    /// Strictly between the ends of an edge, of which this is either half.
    OnEdge(FixedDirectedEdgeHandle),

    /// Strictly inside a triangle.
    OnFace(FixedFaceHandle<InnerTag>),

    /// Outside, strictly on the left of a half edge of the outer face; or, while all points are on
    /// one line, on it and beyond the vertex that this half edge starts at.
    OutsideOfConvexHull(FixedDirectedEdgeHandle),

    /// There is no edge, and no vertex there.
    NoTriangulation,
}

/// Counts, which don't read the mesh.
///
/// ```
/// use dcel::delaunay::{DelaunayTriangulation, Point2};
///
/// let points = [(0, 0), (3, 0), (0, 4), (3, 4), (9, 9)].map(|(x, y)| Point2::new(x, y));
/// let triangulation = DelaunayTriangulation::bulk_load(points.to_vec())?;
/// assert_eq!(triangulation.num_vertices(), 5);
/// assert_eq!(triangulation.num_undirected_edges(), 8);
/// assert_eq!(triangulation.num_directed_edges(), 16);
/// assert_eq!((triangulation.num_inner_faces(), triangulation.num_all_faces()), (4, 5));
/// assert!(!triangulation.all_vertices_on_line());
/// # Ok::<(), Box<dyn std::error::Error>>(())
/// ```
impl<V, K: Kind> Triangulation<V, K> {
    /// Returns how many vertices there are.
    pub fn num_vertices(&self) -> usize {
        self.kept.num_vertices()
    }

    /// Returns how many edges there are.
    pub fn num_undirected_edges(&self) -> usize {
        self.kept.num_edges()
    }

    /// Returns how many half edges there are, twice as many as edges.
    pub fn num_directed_edges(&self) -> usize {
        2 * self.kept.num_edges()
    }

    /// Returns how many triangles there are.
    pub fn num_inner_faces(&self) -> usize {
        self.kept.num_triangles()
    }

    /// Returns how many faces there are, with the outer one.
    pub fn num_all_faces(&self) -> usize {
        self.kept.num_triangles() + 1
    }

    /// Returns whether all points are on one line, or there are none.
    pub fn all_vertices_on_line(&self) -> bool {
        self.kept.num_triangles() == 0
    }

    /// Returns the value of a vertex, without reading the mesh. Panics if there is no such vertex.
    ///
    /// ```
    /// use dcel::delaunay::{DelaunayTriangulation, Point2};
    ///
    /// let mut triangulation = DelaunayTriangulation::new()?;
    /// let vertex = triangulation.insert((Point2::new(1, 2), 'a'))?;
    /// assert_eq!(triangulation.vertex_data(vertex).1, 'a');
    /// # Ok::<(), Box<dyn std::error::Error>>(())
    /// ```
    pub fn vertex_data(&self, handle: FixedVertexHandle) -> &V {
        match self.keys.get(handle.index()) {
            Some(key) => self.dcel.vertices.get(*key),
            None => panic!("there is no vertex {}", handle.index()),
        }
    }

    /// Lists the half edges of the outer face, clockwise around the triangulation as spade does.
    ///
    /// ```
    /// use dcel::delaunay::{DelaunayTriangulation, Point2};
    ///
    /// let points = [(0, 0), (4, 0), (0, 3), (1, 1)].map(|(x, y)| Point2::new(x, y));
    /// let triangulation = DelaunayTriangulation::bulk_load(points.to_vec())?;
    /// let hull: Vec<_> = triangulation.convex_hull().map(|edge| edge.from().position()).collect();
    /// assert!(hull.len() == 3 && !hull.contains(&points[3]));
    /// # Ok::<(), Box<dyn std::error::Error>>(())
    /// ```
    pub fn convex_hull(&self) -> HullIterator<'_, V, (), (), ()> {
        HullIterator::new(self.dcel())
    }
}

/// Queries, of any points, also those out of range.
impl<V: HasPosition, K: Kind> Triangulation<V, K> {
    /// Returns where a point is, by a walk from where the last insertion ended.
    ///
    /// ```
    /// use dcel::delaunay::{DelaunayTriangulation, Point2, PositionInTriangulation};
    ///
    /// let corners = [(0, 0), (4, 0), (0, 4)].map(|(x, y)| Point2::new(x, y));
    /// let triangulation = DelaunayTriangulation::bulk_load(corners.to_vec())?;
    /// let face = triangulation.inner_faces().next().unwrap().fix();
    /// assert_eq!(triangulation.locate(Point2::new(1, 1)), PositionInTriangulation::OnFace(face));
    /// let position = triangulation.locate(Point2::new(2, 2));
    /// assert!(matches!(position, PositionInTriangulation::OnEdge(_)));
    /// # Ok::<(), Box<dyn std::error::Error>>(())
    /// ```
    pub fn locate(&self, point: Point2) -> PositionInTriangulation {
        self.locate_by(point, |kept, point| kept.locate(point))
    }

    fn locate_by(
        &self,
        point: Point2,
        locate: impl FnOnce(&K::Kept, Point) -> Position,
    ) -> PositionInTriangulation {
        use PositionInTriangulation::*;
        let Ok(in_range) = point.in_range() else {
            return self.locate_far(point);
        };
        let Position { kind, number } = locate(self.whole(), in_range);
        match kind {
            place::ON_FACE => OnFace(FixedFaceHandle::of(number + 1)),
            place::ON_EDGE => OnEdge(FixedDirectedEdgeHandle::of(number)),
            place::ON_VERTEX => OnVertex(FixedVertexHandle::of(number)),
            place::OUTSIDE => OutsideOfConvexHull(FixedDirectedEdgeHandle::of(number)),
            place::BEYOND_LINE => match self.vertex_out_edge(FixedVertexHandle::of(number)) {
                Some(edge) => OutsideOfConvexHull(edge),
                None => NoTriangulation,
            },
            _ => NoTriangulation,
        }
    }

    /// Returns where a point out of range is: outside of all points.
    fn locate_far(&self, point: Point2) -> PositionInTriangulation {
        let mut hull = self.convex_hull();
        let sees = hull.find(|edge| side(edge.positions(), point) > 0);
        let ends = || {
            let mut edges = self.convex_hull();
            edges.find(|edge| edge.prev() == edge.rev() && is_behind(edge.positions(), point))
        };
        match sees.or_else(ends) {
            Some(edge) => PositionInTriangulation::OutsideOfConvexHull(edge.fix()),
            None => PositionInTriangulation::NoTriangulation,
        }
    }

    /// Returns the vertex at a point, or `None` if none is there.
    ///
    /// ```
    /// use dcel::delaunay::{DelaunayTriangulation, Point2};
    ///
    /// let mut triangulation = DelaunayTriangulation::new()?;
    /// triangulation.insert((Point2::new(1, 2), 'a'))?;
    /// assert_eq!(triangulation.locate_vertex(Point2::new(1, 2)).unwrap().data().1, 'a');
    /// assert!(triangulation.locate_vertex(Point2::new(0, 0)).is_none());
    /// # Ok::<(), Box<dyn std::error::Error>>(())
    /// ```
    pub fn locate_vertex(&self, point: Point2) -> Option<VertexHandle<'_, V>> {
        match self.locate(point) {
            PositionInTriangulation::OnVertex(vertex) => Some(self.vertex(vertex)),
            _ => None,
        }
    }
}

/// Queries that ask for a triangulation without constraints.
impl<V: HasPosition> DelaunayTriangulation<V> {
    /// Returns where a point is as [`locate`](Self::locate) does, by a walk from a vertex: the
    /// nearer it is, the shorter is the walk. If there is no such vertex, it begins where that of
    /// `locate` does.
    ///
    /// ```
    /// use dcel::delaunay::{DelaunayTriangulation, Point2, PositionInTriangulation};
    ///
    /// let mut triangulation = DelaunayTriangulation::new()?;
    /// let vertex = triangulation.insert(Point2::new(1, 2))?;
    /// let position = triangulation.locate_with_hint(Point2::new(1, 2), vertex);
    /// assert_eq!(position, PositionInTriangulation::OnVertex(vertex));
    /// # Ok::<(), Box<dyn std::error::Error>>(())
    /// ```
    pub fn locate_with_hint(
        &self,
        point: Point2,
        hint: FixedVertexHandle,
    ) -> PositionInTriangulation {
        self.locate_by(point, |kept, point| {
            kept.locate_with_hint(point, hint.number())
        })
    }

    /// Returns a vertex that no other one is nearer to a point than, or `None` if there is none.
    ///
    /// ```
    /// use dcel::delaunay::{DelaunayTriangulation, Point2};
    ///
    /// let points = [(0, 0), (4, 0), (0, 3)].map(|(x, y)| Point2::new(x, y));
    /// let triangulation = DelaunayTriangulation::bulk_load(points.to_vec())?;
    /// let near = triangulation.nearest_neighbor(Point2::new(9, 1)).unwrap();
    /// assert_eq!(near.position(), points[1]);
    /// # Ok::<(), Box<dyn std::error::Error>>(())
    /// ```
    pub fn nearest_neighbor(&self, point: Point2) -> Option<VertexHandle<'_, V>> {
        Some(self.vertex(self.nearest_vertex(point)?))
    }

    /// Returns the number of such a vertex, without reading the mesh.
    ///
    /// ```
    /// use dcel::delaunay::{DelaunayTriangulation, Point2};
    ///
    /// let mut triangulation = DelaunayTriangulation::<Point2>::new()?;
    /// for x in [0, 3, 1, 9, 5] {
    ///     let point = Point2::new(x, x * x);
    ///     if let Some(near) = triangulation.nearest_vertex(point) {
    ///         assert!(triangulation.vertex_data(near).distance_2(point) > 1);
    ///     }
    ///     triangulation.insert(point)?;
    /// }
    /// # Ok::<(), Box<dyn std::error::Error>>(())
    /// ```
    pub fn nearest_vertex(&self, point: Point2) -> Option<FixedVertexHandle> {
        if let Ok(in_range) = point.in_range() {
            return Some(FixedVertexHandle::of(self.whole().nearest(in_range)?));
        }
        let vertices = (0..self.keys.len()).map(FixedVertexHandle::new);
        vertices.min_by_key(|vertex| self.vertex_data(*vertex).position().distance_2(point))
    }
}

/// Returns twice the area of the triangle of two points in range and any third one, below 0 if that
/// is on the right of the two.
pub(super) fn side([from, to]: [Point2; 2], point: Point2) -> i128 {
    let [ax, ay] = [to.x - from.x, to.y - from.y].map(i128::from);
    let bx = i128::from(point.x) - i128::from(from.x);
    let by = i128::from(point.y) - i128::from(from.y);
    ax * by - ay * bx
}

/// Returns whether a point on the line through two others is behind the first of them.
pub(super) fn is_behind([from, to]: [Point2; 2], point: Point2) -> bool {
    let [ax, ay] = [to.x - from.x, to.y - from.y].map(i128::from);
    let bx = i128::from(point.x) - i128::from(from.x);
    let by = i128::from(point.y) - i128::from(from.y);
    ax * bx + ay * by < 0
}
