//! Why a point wasn't inserted, or a constraint not added.

use crate::ffi::NotAdded;
use crate::refusal::Refusal;
use std::error::Error;
use std::fmt;

/// Why a point wasn't inserted. Nothing has changed.
///
/// ```
/// use dcel::delaunay::InsertionError;
///
/// assert_eq!(InsertionError::NotANumber.to_string(), "a coordinate is no number");
/// ```
#[derive(Clone, Copy, PartialEq, Eq, Hash, Debug)]
pub enum InsertionError {
    /// A coordinate is below -2^53 or above 2^53, in steps of the grid if there is one.
    OutOfRange,

    /// A coordinate is NaN.
    NotANumber,

    /// There are 2^31 vertices, edges or faces.
    TooManyPoints,

    /// There was no memory.
    OutOfMemory,
}

impl fmt::Display for InsertionError {
    fn fmt(&self, f: &mut fmt::Formatter<'_>) -> fmt::Result {
        f.write_str(match self {
            Self::OutOfRange => "a coordinate is below -2^53 or above 2^53",
            Self::NotANumber => "a coordinate is no number",
            Self::TooManyPoints => "there are too many points",
            Self::OutOfMemory => "there was no memory",
        })
    }
}

impl Error for InsertionError {}

impl From<Refusal> for InsertionError {
    /// Insertions are refused for numbers or for memory.
    fn from(refusal: Refusal) -> Self {
        match refusal {
            Refusal::NoRoom => Self::TooManyPoints,
            _ => Self::OutOfMemory,
        }
    }
}

/// Why a constraint wasn't added.
///
/// ```
/// use dcel::delaunay::ConstraintError;
///
/// assert_eq!(ConstraintError::Crosses.to_string(), "it crosses a constraint");
/// ```
#[derive(Clone, Copy, PartialEq, Eq, Hash, Debug)]
pub enum ConstraintError {
    /// There is no vertex at an end.
    NoSuchVertex,

    /// It crosses a constraint, in a point that is no vertex.
    Crosses,

    /// A point wasn't inserted: a coordinate is below -2^53 or above 2^53.
    OutOfRange,

    /// A point wasn't inserted: there are 2^31 vertices, edges or faces.
    TooManyPoints,

    /// There was no memory. Parts of the segment may be constraints.
    OutOfMemory,
}

impl fmt::Display for ConstraintError {
    fn fmt(&self, f: &mut fmt::Formatter<'_>) -> fmt::Result {
        f.write_str(match self {
            Self::NoSuchVertex => "there is no vertex at an end",
            Self::Crosses => "it crosses a constraint",
            Self::OutOfRange => "a coordinate is below -2^53 or above 2^53",
            Self::TooManyPoints => "there are too many points",
            Self::OutOfMemory => "there was no memory",
        })
    }
}

impl Error for ConstraintError {}

impl From<InsertionError> for ConstraintError {
    fn from(error: InsertionError) -> Self {
        match error {
            InsertionError::OutOfRange | InsertionError::NotANumber => Self::OutOfRange,
            InsertionError::TooManyPoints => Self::TooManyPoints,
            InsertionError::OutOfMemory => Self::OutOfMemory,
        }
    }
}

impl From<NotAdded> for ConstraintError {
    fn from(why: NotAdded) -> Self {
        match why {
            NotAdded::NoSuchVertex => Self::NoSuchVertex,
            NotAdded::Crosses => Self::Crosses,
            NotAdded::OutOfMemory => Self::OutOfMemory,
        }
    }
}

/// Why no triangulation was made of points and edges between them.
///
/// ```
/// use dcel::delaunay::{ConstrainedDelaunayTriangulation, ConstraintError, LoadError, Point2};
///
/// let points = [(0, 0), (2, 2), (2, 0), (0, 2)].map(|(x, y)| Point2::new(x, y)).to_vec();
/// let refused = ConstrainedDelaunayTriangulation::bulk_load_cdt(points, vec![[0, 1], [2, 3]]);
/// let error = refused.unwrap_err();
/// assert_eq!(error, LoadError { why: ConstraintError::Crosses, edge: Some(1) });
/// assert_eq!(error.to_string(), "edge 1: it crosses a constraint");
/// ```
#[derive(Clone, Copy, PartialEq, Eq, Hash, Debug)]
pub struct LoadError {
    /// What is wrong.
    pub why: ConstraintError,

    /// The place of the edge that isn't a constraint, in the list. `None` if a point isn't inserted.
    pub edge: Option<usize>,
}

impl fmt::Display for LoadError {
    fn fmt(&self, f: &mut fmt::Formatter<'_>) -> fmt::Result {
        match self.edge {
            Some(edge) => write!(f, "edge {edge}: {}", self.why),
            None => self.why.fmt(f),
        }
    }
}

impl Error for LoadError {}

impl From<InsertionError> for LoadError {
    fn from(error: InsertionError) -> Self {
        Self {
            why: error.into(),
            edge: None,
        }
    }
}
