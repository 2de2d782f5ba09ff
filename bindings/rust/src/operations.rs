//! Edits of a mesh.
//!
//! Each takes any numbers. It does what it says, or it is refused and changes nothing. New elements
//! get the next numbers; only removals give other elements new ones. Two edits:
//!
//! ```text
//! insert_into_triangle                 flip_cw
//!
//!      c              c                     c                  c
//!     / \            /|\                   / \                /|\
//!    /   \          / | \                 /   \              / | \
//!   /     \   -->  / .v. \               a --> b     -->     a  |  b
//!  /       \      /.'   '.\               \   /              \ | /
//! a ------- b    a ------- b               \ /                \v/
//!                                           d                  d
//! ```
//!
//! In the project's repository, docs/PICTURES.md draws most edits, with numbers, and docs/MODEL.md
//! says what links and anchors each leaves.
//!
//! A vertex is taken out in three steps: a removal is opened, by [`isolate_vertex_and_fill_hole`],
//! [`remesh_edge_ring`] or [`disconnect_edge_strip`]; it is cleaned up, by
//! [`cleanup_isolated_vertex`]; and it is closed, by [`swap_remove_vertex`]. The last element of a
//! kind gets the number that is freed.
//!
//! ```
//! use dcel::Dcel;
//! use dcel::operations::*;
//!
//! let mut dcel: Dcel<_> = new_triangle(['a', 'b', 'c'])?;
//! let vertex = append_unconnected_vertex(&mut dcel, 'd')?;
//! let face = dcel.inner_faces().next().unwrap().fix();
//! insert_into_triangle(&mut dcel, vertex, face)?;
//!
//! let spokes = dcel.vertex(vertex).out_edges();
//! let border: Vec<_> = spokes.rev().map(|edge| edge.next().fix()).collect();
//! let mut isolated = isolate_vertex_and_fill_hole(&mut dcel, &border, vertex)?;
//! cleanup_isolated_vertex(&mut dcel, &mut isolated)?;
//! assert_eq!(swap_remove_vertex(&mut dcel, vertex)?.removed_vertex, 'd');
//! assert_eq!((dcel.num_vertices(), dcel.num_faces()), (3, 2));
//! # Ok::<(), dcel::Refusal>(())
//! ```

mod faults;
mod flip;
mod given;
mod grow;
mod new;
mod remove;
mod results;

pub use faults::{FacesError, LinksError, LinksFault};
pub use flip::{Legalized, flip_cw, legalize_by_number};
pub use given::{RefusedFaces, RefusedGiven, RefusedLinks, from_faces, from_links};
pub use grow::{
    append_unconnected_vertex, create_new_face_adjacent_to_edge,
    create_single_face_between_edge_and_next, extend_line, insert_into_triangle,
    setup_initial_two_vertices, split_edge, split_edge_when_all_vertices_on_line, split_half_edge,
};
pub use new::{new, new_triangle, new_with_fixed_vertices};
pub use remove::{
    cleanup_isolated_vertex, disconnect_edge_strip, isolate_vertex_and_fill_hole, remesh_edge_ring,
    remove_when_degenerate, swap_remove_vertex,
};
pub use results::{IsolateVertexResult, RemovalResult};
