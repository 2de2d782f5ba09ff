//! Flips.

use crate::ffi::ended;
use crate::handles::FixedUndirectedEdgeHandle;
use crate::{Dcel, Refusal};

/// Turns an edge between two triangles clockwise, so that it joins their other corners.
///
/// # Errors
///
/// [`Refusal::NoSuchEdge`], [`Refusal::GivenUp`], [`Refusal::NotTriangle`] if a side isn't one, and
/// [`Refusal::WouldLoop`] if the other corners are one vertex.
///
/// ```
/// use dcel::operations::{append_unconnected_vertex, flip_cw, insert_into_triangle, new_triangle};
/// use dcel::Dcel;
///
/// let mut dcel: Dcel<_> = new_triangle(['a', 'b', 'c'])?;
/// let vertex = append_unconnected_vertex(&mut dcel, 'd')?;
/// let face = dcel.inner_faces().next().unwrap().fix();
/// insert_into_triangle(&mut dcel, vertex, face)?;
/// let edge = dcel.undirected_edges().next().unwrap();
/// assert_eq!(edge.vertices().map(|vertex| *vertex.data()), ['a', 'b']);
///
/// let edge = edge.fix();
/// flip_cw(&mut dcel, edge)?;
/// let ends = dcel.undirected_edge(edge).vertices().map(|vertex| *vertex.data());
/// assert_eq!(ends, ['c', 'd']);
/// # Ok::<(), dcel::Refusal>(())
/// ```
#[inline]
pub fn flip_cw<V, DE, UE, F>(
    dcel: &mut Dcel<V, DE, UE, F>,
    edge: FixedUndirectedEdgeHandle,
) -> Result<(), Refusal> {
    dcel.mesh.flip_cw(edge.number())
}

/// How a legalization ended, and how many flips it made.
///
/// ```
/// assert_eq!(dcel::operations::Legalized::Stopped { flips: 3 }.flips(), 3);
/// ```
#[derive(Clone, Copy, PartialEq, Eq, Hash, Debug)]
pub enum Legalized {
    /// Nothing is left to flip of the list, and of what came to lie beside a flipped edge.
    Done {
        /// How many flips were made.
        flips: usize,
    },

    /// As many flips were made as are allowed, and another one is due.
    Stopped {
        /// How many flips were made.
        flips: usize,
    },

    /// The list of edges found no memory to grow, and another flip is due.
    OutOfMemory {
        /// How many flips were made.
        flips: usize,
    },
}

impl Legalized {
    /// Returns how many flips were made.
    ///
    /// ```
    /// assert_eq!(dcel::operations::Legalized::Done { flips: 3 }.flips(), 3);
    /// ```
    pub fn flips(self) -> usize {
        match self {
            Self::Done { flips } | Self::Stopped { flips } | Self::OutOfMemory { flips } => flips,
        }
    }
}

/// Takes these edges from the last on, and after each flip first those beside it. It flips one that
/// can be flipped and whose lesser opposite corner is below its lesser end.
///
/// What was flipped stays so, however it ends.
///
/// # Errors
///
/// [`Refusal::NoSuchEdge`], and [`Refusal::OutOfMemory`] if the list finds no memory at all.
///
/// ```
/// use dcel::Dcel;
/// use dcel::operations::*;
///
/// let mut dcel: Dcel<_> = new_triangle(['a', 'b', 'c'])?;
/// let vertex = append_unconnected_vertex(&mut dcel, 'd')?;
/// let face = dcel.inner_faces().next().unwrap().fix();
/// insert_into_triangle(&mut dcel, vertex, face)?;
/// let edges: Vec<_> = dcel.undirected_edges().map(|edge| edge.fix()).collect();
/// flip_cw(&mut dcel, edges[0])?; // from 0 and 1 to 2 and 3
/// assert_eq!(legalize_by_number(&mut dcel, 0, &edges)?, Legalized::Stopped { flips: 0 });
/// assert!(matches!(legalize_by_number(&mut dcel, 100, &edges)?, Legalized::Done { flips: 1.. }));
/// # Ok::<(), dcel::Refusal>(())
/// ```
pub fn legalize_by_number<V, DE, UE, F>(
    dcel: &mut Dcel<V, DE, UE, F>,
    max_flips: usize,
    edges: &[FixedUndirectedEdgeHandle],
) -> Result<Legalized, Refusal> {
    let legalized = dcel.mesh.legalize_by_number(max_flips as u64, edges)?;
    let flips = legalized.flips as usize;
    Ok(match legalized.ended {
        ended::LEGALIZED => Legalized::Done { flips },
        ended::STOPPED => Legalized::Stopped { flips },
        _ => Legalized::OutOfMemory { flips },
    })
}
