//! Floats as whole numbers.

use super::{InsertionError, Point2};

/// The greatest number of steps from 0.
const MOST: f64 = (1u64 << 53) as f64;

/// The multiples of a step, on which coordinates become whole numbers: as many steps.
///
/// The step is a power of two, so that a multiple of it is exactly a float, and what was on the
/// grid comes back unchanged.
///
/// ```
/// use dcel::delaunay::{Grid, Point2};
///
/// let grid = Grid::new(0.25).unwrap();
/// assert_eq!(grid.snap([1.5, -3.1])?, Point2::new(6, -12));
/// assert_eq!(grid.back(Point2::new(6, -12)), [1.5, -3.0]);
/// # Ok::<(), dcel::delaunay::InsertionError>(())
/// ```
#[derive(Clone, Copy, PartialEq, Debug)]
pub struct Grid {
    step: f64,
}

impl Grid {
    /// Makes the grid with this step, or returns `None` if it isn't a power of two.
    ///
    /// ```
    /// use dcel::delaunay::Grid;
    ///
    /// assert_eq!(Grid::new(0.25).unwrap().step(), 0.25);
    /// assert_eq!(Grid::new(0.1), None);
    /// ```
    pub fn new(step: f64) -> Option<Grid> {
        let bits = step.to_bits();
        let fraction = bits & ((1 << 52) - 1);
        let is_power = match bits >> 52 {
            0 => fraction.is_power_of_two(),
            1..0x7ff => fraction == 0,
            _ => false, // below 0, infinite or no number
        };
        is_power.then_some(Grid { step })
    }

    /// Returns the step, in the unit of the coordinates.
    pub const fn step(&self) -> f64 {
        self.step
    }

    /// Returns the finest grid on which these points are in range, at most 2^53 steps from 0, or
    /// `None` if a coordinate is infinite or no number.
    ///
    /// A coordinate moves by at most 2^-53 of the greatest one.
    ///
    /// ```
    /// use dcel::delaunay::Grid;
    ///
    /// let grid = Grid::fit([[0.1, 0.2], [1.0, 0.5]]).unwrap();
    /// assert_eq!(grid.step(), 2f64.powi(-53));
    /// assert_eq!(Grid::fit([[f64::NAN, 0.0]]), None);
    /// ```
    pub fn fit(points: impl IntoIterator<Item = [f64; 2]>) -> Option<Grid> {
        let mut most = 0f64;
        for it in points.into_iter().flatten() {
            if !it.is_finite() {
                return None;
            }
            most = most.max(it.abs());
        }
        let mut step = f64::from_bits(1);
        while most / step > MOST {
            step *= 2.0;
        }
        Some(Grid { step })
    }

    /// Returns the nearest point of the grid, by steps. Of two that are equally near it is the
    /// even one.
    ///
    /// # Errors
    ///
    /// [`InsertionError::NotANumber`], and [`InsertionError::OutOfRange`] beyond 2^53 steps.
    ///
    /// ```
    /// use dcel::delaunay::{Grid, InsertionError};
    ///
    /// let grid = Grid::new(1.0).unwrap();
    /// assert_eq!(grid.snap([0.0, f64::NAN]), Err(InsertionError::NotANumber));
    /// assert_eq!(grid.snap([1e16, 0.0]), Err(InsertionError::OutOfRange));
    /// ```
    pub fn snap(&self, point: [f64; 2]) -> Result<Point2, InsertionError> {
        let [x, y] = point.map(|it| (it / self.step).round_ties_even());
        if x.is_nan() || y.is_nan() {
            return Err(InsertionError::NotANumber);
        }
        if x.abs().max(y.abs()) > MOST {
            return Err(InsertionError::OutOfRange);
        }
        Ok(Point2::new(x as i64, y as i64))
    }

    /// Returns where a point of the grid is, whose coordinates are steps, up to 2^53.
    ///
    /// ```
    /// use dcel::delaunay::{Grid, Point2};
    ///
    /// assert_eq!(Grid::new(0.5).unwrap().back(Point2::new(3, 4)), [1.5, 2.0]);
    /// ```
    pub fn back(&self, point: Point2) -> [f64; 2] {
        [point.x, point.y].map(|it| it as f64 * self.step)
    }
}
