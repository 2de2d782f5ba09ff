//! Points, and what has one.

use super::InsertionError;
use crate::ffi::Point;
use crate::handles::{
    DirectedEdgeHandle, FaceHandle, InnerTag, UndirectedEdgeHandle, VertexHandle,
};

/// The greatest coordinate.
const MOST: u64 = 1 << 53;

/// A point with whole coordinates, of which triangulations take those from -2^53 to 2^53.
///
/// ```
/// use dcel::delaunay::Point2;
///
/// assert_eq!(Point2::new(3, -4), Point2 { x: 3, y: -4 });
/// ```
#[derive(Clone, Copy, PartialEq, Eq, PartialOrd, Ord, Hash, Debug, Default)]
pub struct Point2 {
    /// To the right.
    pub x: i64,

    /// Up.
    pub y: i64,
}

impl Point2 {
    /// Makes the point with these coordinates.
    ///
    /// ```
    /// assert_eq!(dcel::delaunay::Point2::new(3, -4).y, -4);
    /// ```
    pub const fn new(x: i64, y: i64) -> Self {
        Self { x, y }
    }

    /// Returns the square of the distance to another point, each coordinate any number.
    ///
    /// ```
    /// use dcel::delaunay::Point2;
    ///
    /// assert_eq!(Point2::new(1, 2).distance_2(Point2::new(4, -2)), 25);
    /// ```
    pub fn distance_2(self, other: Self) -> u128 {
        let [x, y] = [self.x.abs_diff(other.x), self.y.abs_diff(other.y)].map(u128::from);
        (x * x).saturating_add(y * y)
    }

    /// Returns it as the library takes it.
    pub(super) fn in_range(self) -> Result<Point, InsertionError> {
        if self.x.unsigned_abs().max(self.y.unsigned_abs()) > MOST {
            return Err(InsertionError::OutOfRange);
        }
        Ok(Point {
            x: self.x,
            y: self.y,
        })
    }
}

impl From<[i64; 2]> for Point2 {
    fn from([x, y]: [i64; 2]) -> Self {
        Self { x, y }
    }
}

/// A value of a vertex, which says where that is. It is asked for when the vertex is inserted, and
/// must be the same afterwards.
///
/// ```
/// use dcel::delaunay::{HasPosition, Point2};
///
/// struct City(Point2, &'static str);
///
/// impl HasPosition for City {
///     fn position(&self) -> Point2 {
///         self.0
///     }
/// }
/// ```
pub trait HasPosition {
    /// Returns where it is.
    fn position(&self) -> Point2;
}

impl HasPosition for Point2 {
    fn position(&self) -> Point2 {
        *self
    }
}

impl<T> HasPosition for (Point2, T) {
    fn position(&self) -> Point2 {
        self.0
    }
}

/// ```
/// use dcel::delaunay::{DelaunayTriangulation, Point2};
///
/// let corners = [(0, 0), (3, 0), (0, 4)].map(|(x, y)| Point2::new(x, y));
/// let triangulation = DelaunayTriangulation::bulk_load(corners.to_vec())?;
/// assert!(triangulation.vertices().all(|vertex| corners.contains(&vertex.position())));
/// # Ok::<(), Box<dyn std::error::Error>>(())
/// ```
impl<V: HasPosition, DE, UE, F> VertexHandle<'_, V, DE, UE, F> {
    /// Returns where the vertex is.
    pub fn position(&self) -> Point2 {
        self.data().position()
    }
}

/// ```
/// use dcel::delaunay::{DelaunayTriangulation, Point2};
///
/// let corners = [(0, 0), (3, 0), (0, 4)].map(|(x, y)| Point2::new(x, y));
/// let triangulation = DelaunayTriangulation::bulk_load(corners.to_vec())?;
/// let [from, to] = triangulation.directed_edges().next().unwrap().positions();
/// assert!(corners.contains(&from) && corners.contains(&to) && from != to);
/// # Ok::<(), Box<dyn std::error::Error>>(())
/// ```
impl<V: HasPosition, DE, UE, F> DirectedEdgeHandle<'_, V, DE, UE, F> {
    /// Returns where the half edge starts and ends. Panics if it isn't live.
    pub fn positions(&self) -> [Point2; 2] {
        [self.from().position(), self.to().position()]
    }
}

/// ```
/// use dcel::delaunay::{DelaunayTriangulation, Point2};
///
/// let corners = [(0, 0), (3, 0), (0, 4)].map(|(x, y)| Point2::new(x, y));
/// let triangulation = DelaunayTriangulation::bulk_load(corners.to_vec())?;
/// assert_eq!(triangulation.undirected_edges().map(|edge| edge.length_2()).max(), Some(25));
/// # Ok::<(), Box<dyn std::error::Error>>(())
/// ```
impl<V: HasPosition, DE, UE, F> UndirectedEdgeHandle<'_, V, DE, UE, F> {
    /// Returns where the edge ends. Panics if it isn't live.
    pub fn positions(&self) -> [Point2; 2] {
        self.as_directed().positions()
    }

    /// Returns the square of its length. Panics if it isn't live.
    pub fn length_2(&self) -> u128 {
        let [from, to] = self.positions();
        from.distance_2(to)
    }
}

/// ```
/// use dcel::delaunay::{DelaunayTriangulation, Point2};
///
/// let corners = [(0, 0), (3, 0), (0, 4)].map(|(x, y)| Point2::new(x, y));
/// let triangulation = DelaunayTriangulation::bulk_load(corners.to_vec())?;
/// let mut found = triangulation.inner_faces().next().unwrap().positions();
/// found.sort();
/// assert_eq!(found, [corners[0], corners[2], corners[1]]);
/// # Ok::<(), Box<dyn std::error::Error>>(())
/// ```
impl<V: HasPosition, DE, UE, F> FaceHandle<'_, InnerTag, V, DE, UE, F> {
    /// Returns where the corners of the triangle are, counterclockwise. Panics if it isn't live.
    pub fn positions(&self) -> [Point2; 3] {
        self.vertices().map(|vertex| vertex.position())
    }
}
