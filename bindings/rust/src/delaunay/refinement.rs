//! Refinement.

use super::{ConstrainedDelaunayTriangulation, HasPosition, Point2};
use crate::ffi::{self, Kept};
use crate::handles::{FixedFaceHandle, InnerTag};
use crate::refusal::Refusal;
use crate::slab::no_memory;

/// The greatest number of which a tangent is a fraction.
const MOST: f64 = u16::MAX as f64;

/// A smallest angle.
///
/// It is rounded up, by at most three thousandths of a degree. One that no triangle keeps may be
/// given, and isn't reached.
///
/// ```
/// use dcel::delaunay::AngleLimit;
///
/// assert_eq!(AngleLimit::from_deg(30.0), AngleLimit::from_radius_to_shortest_edge_ratio(1.0));
/// assert_ne!(AngleLimit::from_deg(20.0), AngleLimit::from_deg(20.01));
/// ```
#[derive(Clone, Copy, PartialEq, Eq, Debug)]
pub struct AngleLimit {
    // Its tangent.
    rise: u16,
    run: u16,
}

impl AngleLimit {
    /// Makes a limit of so many degrees. Up to 20.7 it is mostly reached, above 34 rarely, and
    /// above 60 never; nor is NaN. From 0 down every triangle has it.
    ///
    /// ```
    /// use dcel::delaunay::AngleLimit;
    ///
    /// let limit = AngleLimit::from_deg(20.7);
    /// assert_eq!(limit, AngleLimit::from_deg(20.7001));
    /// ```
    pub fn from_deg(degree: f64) -> Self {
        Self::from_tangent(match degree {
            ..=0.0 => 0.0,
            45.0 => 1.0,
            0.0..90.0 => degree.to_radians().tan(),
            _ => f64::INFINITY,
        })
    }

    /// Makes a limit of the radius of a triangle's circle, divided by its shortest edge: 1 is an
    /// angle of 30 degrees, and what is less a larger one. That below a half is never reached, and
    /// nor is NaN.
    ///
    /// ```
    /// use dcel::delaunay::AngleLimit;
    ///
    /// let limit = AngleLimit::from_radius_to_shortest_edge_ratio(f64::INFINITY);
    /// assert_eq!(limit, AngleLimit::from_deg(0.0));
    /// ```
    pub fn from_radius_to_shortest_edge_ratio(ratio: f64) -> Self {
        Self::from_tangent(if ratio > 0.5 {
            let sine = 0.5 / ratio;
            sine / (1.0 - sine * sine).sqrt()
        } else {
            f64::INFINITY
        })
    }

    /// Makes the limit of a tangent that is 0 or more, rounded up.
    fn from_tangent(tangent: f64) -> Self {
        const MORE: f64 = 1.0 + 4.0 * f64::EPSILON; // as the tangent is rounded
        if tangent <= 1.0 {
            Self {
                rise: (tangent * MOST * MORE).ceil() as u16, // at most the greatest one
                run: u16::MAX,
            }
        } else {
            Self {
                rise: u16::MAX,
                run: (MOST / (tangent * MORE)) as u16,
            }
        }
    }
}

/// What a refinement is to reach, and where it gives up.
///
/// [`new`](Self::new) asks for angles of 30 degrees in all triangles, and allows ten times as many
/// new vertices as there are vertices.
///
/// ```
/// use dcel::delaunay::{AngleLimit, RefinementParameters};
///
/// let parameters = RefinementParameters::new()
///     .with_angle_limit(AngleLimit::from_deg(25.0))
///     .with_max_allowed_area(100.0)
///     .with_max_additional_vertices(5000)
///     .exclude_outer_faces(true);
/// assert_ne!(parameters, RefinementParameters::default());
/// ```
#[derive(Clone, Copy, PartialEq, Debug)]
pub struct RefinementParameters {
    angle_limit: AngleLimit,
    max_allowed_area: Option<f64>,
    max_additional_vertices: Option<usize>,
    exclude_outer_faces: bool,
}

impl RefinementParameters {
    /// Makes the parameters that the type tells.
    ///
    /// ```
    /// use dcel::delaunay::RefinementParameters;
    ///
    /// assert_eq!(RefinementParameters::new(), RefinementParameters::default());
    /// ```
    pub fn new() -> Self {
        Self {
            angle_limit: AngleLimit::from_deg(30.0),
            max_allowed_area: None,
            max_additional_vertices: None,
            exclude_outer_faces: false,
        }
    }

    /// Sets the smallest angle, but for angles between two constraints.
    ///
    /// ```
    /// use dcel::delaunay::{AngleLimit, RefinementParameters};
    ///
    /// let any = RefinementParameters::new().with_angle_limit(AngleLimit::from_deg(0.0));
    /// assert_ne!(any, RefinementParameters::new());
    /// ```
    pub fn with_angle_limit(mut self, angle_limit: AngleLimit) -> Self {
        self.angle_limit = angle_limit;
        self
    }

    /// Sets the largest area, in squares of the coordinates' unit: of points on a
    /// [`Grid`](super::Grid) that is its step. An area that isn't above 0 is never reached.
    ///
    /// ```
    /// use dcel::delaunay::{Grid, RefinementParameters};
    ///
    /// let grid = Grid::new(1.0 / 4096.0).unwrap();
    /// let tenth = 0.1 / (grid.step() * grid.step());
    /// let parameters = RefinementParameters::new().with_max_allowed_area(tenth);
    /// assert_ne!(parameters, RefinementParameters::new());
    /// ```
    pub fn with_max_allowed_area(mut self, max_allowed_area: f64) -> Self {
        self.max_allowed_area = Some(max_allowed_area);
        self
    }

    /// Sets how many vertices may be added.
    ///
    /// ```
    /// use dcel::delaunay::RefinementParameters;
    ///
    /// let none = RefinementParameters::new().with_max_additional_vertices(0);
    /// assert_ne!(none, RefinementParameters::new());
    /// ```
    pub fn with_max_additional_vertices(mut self, max_additional_vertices: usize) -> Self {
        self.max_additional_vertices = Some(max_additional_vertices);
        self
    }

    /// Sets whether only triangles inside are refined: those of which a way from the outer face
    /// crosses an odd number of constraints at least.
    ///
    /// ```
    /// use dcel::delaunay::RefinementParameters;
    ///
    /// let inside = RefinementParameters::new().exclude_outer_faces(true);
    /// assert_ne!(inside, RefinementParameters::new());
    /// ```
    pub fn exclude_outer_faces(mut self, exclude: bool) -> Self {
        self.exclude_outer_faces = exclude;
        self
    }

    /// Returns them as the library takes them, for a triangulation with so many vertices.
    fn wanted(&self, vertices: usize) -> ffi::Refinement {
        // Twice the area rounded down, and from 2^127 on any.
        let doubled = self
            .max_allowed_area
            .map_or(u128::MAX, |it| (2.0 * it) as u128);
        let most = self.max_additional_vertices;
        ffi::Refinement {
            max_doubled_area_high: (doubled >> 64) as u64,
            max_doubled_area_low: doubled as u64,
            max_additional_vertices: most.unwrap_or(vertices.saturating_mul(10)) as u64,
            rise: self.angle_limit.rise,
            run: self.angle_limit.run,
            inside: self.exclude_outer_faces,
        }
    }
}

impl Default for RefinementParameters {
    /// Makes the parameters that the type tells.
    fn default() -> Self {
        Self::new()
    }
}

/// What a refinement came to.
#[derive(Clone, PartialEq, Eq, Debug)]
pub struct RefinementResult {
    /// The inner faces that weren't to be refined, as they are now.
    pub excluded_faces: Vec<FixedFaceHandle<InnerTag>>,

    /// Whether each triangle that was to be refined is as asked, exactly.
    pub refinement_complete: bool,

    /// How many corners between two constraints are smaller than asked. Spade doesn't report it.
    pub excepted_corners: usize,
}

impl<V: HasPosition + From<Point2>> ConstrainedDelaunayTriangulation<V> {
    /// Adds vertices until triangles are as asked, or as many are added as allowed, or none is found
    /// that would help. Handles of vertices stay, and a constraint on which vertices are added
    /// becomes several.
    ///
    /// A constraint is split only at points between its ends that have whole coordinates: multiply
    /// all by a power of two first, as 4096. A side of the hull that is no constraint isn't split.
    ///
    /// # Errors
    ///
    /// [`Refusal::NoRoom`] and [`Refusal::OutOfMemory`]. Nothing is added then.
    ///
    /// ```
    /// use dcel::delaunay::*;
    ///
    /// let points = [(0, 0), (9, 0), (9, 1), (0, 1)];
    /// let points = points.map(|(x, y)| Point2::new(4096 * x, 4096 * y)).to_vec();
    /// let edges = vec![[0, 1], [1, 2], [2, 3], [3, 0]];
    /// let mut triangulation = ConstrainedDelaunayTriangulation::bulk_load_cdt(points, edges)?;
    /// let result = triangulation.refine(RefinementParameters::new())?;
    /// assert!(result.refinement_complete && result.excepted_corners == 0);
    /// assert!(triangulation.num_vertices() > 10);
    /// # Ok::<(), Box<dyn std::error::Error>>(())
    /// ```
    pub fn refine(
        &mut self,
        parameters: RefinementParameters,
    ) -> Result<RefinementResult, Refusal> {
        let before = self.kept.num_vertices();
        let mut kept = self.kept.try_clone()?;
        let (refinement_complete, excepted) = kept.refine(parameters.wanted(before))?;
        let mut excluded_faces = Vec::new();
        if parameters.exclude_outer_faces {
            excluded_faces = outside(&kept)?;
        }
        let points = kept.points()?;
        let added = &points[before..];
        self.reserve(added.len())?;
        let mut values = Vec::new();
        values.try_reserve_exact(added.len()).map_err(no_memory)?;
        values.extend(added.iter().map(|it| V::from(Point2::new(it.x, it.y))));
        self.kept = kept;
        self.is_stale.set(true);
        for value in values {
            self.keys.push(self.dcel.vertices.insert(value));
        }
        Ok(RefinementResult {
            excluded_faces,
            refinement_complete,
            excepted_corners: excepted as usize,
        })
    }
}

/// Lists the inner faces of even depth.
fn outside(kept: &ffi::Constrained) -> Result<Vec<FixedFaceHandle<InnerTag>>, Refusal> {
    let (mut depths, mut faces) = (Vec::new(), Vec::new());
    depths
        .try_reserve_exact(kept.num_triangles())
        .map_err(no_memory)?;
    depths.resize(kept.num_triangles(), 0);
    kept.regions(&mut depths)?;
    let count = depths.iter().filter(|it| *it % 2 == 0).count();
    faces.try_reserve_exact(count).map_err(no_memory)?;
    let even = (1..).zip(&depths).filter(|(_, it)| *it % 2 == 0);
    faces.extend(even.map(|(face, _)| FixedFaceHandle::of(face)));
    Ok(faces)
}
