//! A half-edge mesh on the sphere, with the names of `spade`'s layer of that kind, and Delaunay
//! triangulations of points on it.
//!
//! The mesh lies in a static library that is proved: it is always a sound map on the sphere, and
//! each edit does what it says, or is refused and changes nothing. This crate keeps your values,
//! and gives the calls their types.
//!
//! ```
//! use dcel::operations::{append_unconnected_vertex, flip_cw, insert_into_triangle, new_triangle};
//! use dcel::{Dcel, Refusal};
//!
//! let mut dcel: Dcel<_> = new_triangle(["a", "b", "c"])?;
//! let face = dcel.inner_faces().next().unwrap().fix();
//! let vertex = append_unconnected_vertex(&mut dcel, "d")?;
//! insert_into_triangle(&mut dcel, vertex, face)?;
//!
//! let ends = |dcel: &Dcel<_>| -> Vec<&str> {
//!     dcel.vertex(vertex).out_edges().map(|edge| *edge.to().data()).collect()
//! };
//! assert_eq!(ends(&dcel), ["a", "c", "b"]);
//!
//! let edge = dcel.vertex(vertex).out_edge().unwrap().as_undirected().fix();
//! flip_cw(&mut dcel, edge)?;
//! assert_eq!(ends(&dcel), ["b", "c"]);
//! # Ok::<(), Refusal>(())
//! ```
//!
//! - [`delaunay`] has Delaunay triangulations, with the names of `spade`.
//! - [`Dcel`] is the mesh, with counts, elements, data, and a test of what each edit asks.
//! - [`operations`] has the edits. Each takes any numbers and returns a [`Refusal`] if it can't be
//!   done.
//! - [`handles`] are numbers of elements, and borrowed elements with their steps; [`iterators`]
//!   list them.
//! - [`Links`] are the links of all half edges, taken out once: for walks over much of the mesh,
//!   and for several threads.
//!
//! A borrowed element that is stepped from must be live: a step from any other panics, and so does
//! reading the datum of a number that is out of range. What an open removal has given up is still
//! counted, but not live.

#![deny(unsafe_code)]

mod dcel;
pub mod delaunay;
#[allow(unsafe_code)]
mod ffi;
pub mod handles;
pub mod iterators;
mod links;
pub mod operations;
mod refusal;
mod slab;

pub use dcel::{Dcel, RemovalState};
pub use ffi::HalfEdgeEntry;
pub use links::Links;
pub use refusal::{Refusal, Refused};

/// Runs the examples of the folder's page.
#[cfg(doctest)]
#[doc = include_str!("../README.md")]
struct Readme;
