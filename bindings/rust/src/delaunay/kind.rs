//! The kinds of triangulations.

use crate::ffi::{self, Kept};

/// A kind of triangulations: [`Unconstrained`] or [`Constrained`].
pub trait Kind: Sealed {}

/// The kind of [`DelaunayTriangulation`](super::DelaunayTriangulation).
#[derive(Clone, Copy, Debug)]
pub enum Unconstrained {}

/// The kind of [`ConstrainedDelaunayTriangulation`](super::ConstrainedDelaunayTriangulation).
#[derive(Clone, Copy, Debug)]
pub enum Constrained {}

/// What only this crate can say of a kind.
pub trait Sealed {
    /// What the library keeps.
    type Kept: Kept;

    /// The name of its triangulations.
    const NAME: &'static str;
}

impl Kind for Unconstrained {}

impl Sealed for Unconstrained {
    type Kept = ffi::Triangulation;
    const NAME: &'static str = "DelaunayTriangulation";
}

impl Kind for Constrained {}

impl Sealed for Constrained {
    type Kept = ffi::Constrained;
    const NAME: &'static str = "ConstrainedDelaunayTriangulation";
}
