//! Each refusal, after which the mesh is as it was.

mod common;

use common::*;
use dcel::operations::*;
use dcel::{Dcel, Refusal};

/// Expects a call to be refused without effect.
#[track_caller]
fn refused<T: std::fmt::Debug + PartialEq>(
    dcel: &mut Dcel<usize>,
    why: Refusal,
    call: impl FnOnce(&mut Dcel<usize>) -> Result<T, Refusal>,
) {
    let (links, state) = (dcel.links(), dcel.removal_state());
    let data: Vec<usize> = dcel.vertices().map(|vertex| *vertex.data()).collect();
    assert_eq!(call(dcel), Err(why));
    assert_eq!((dcel.links(), dcel.removal_state()), (links, state));
    assert!(dcel.vertices().map(|vertex| *vertex.data()).eq(data));
}

#[test]
fn numbers_out_of_range() {
    let mut dcel = round();
    refused(&mut dcel, Refusal::NoSuchVertex, |dcel| {
        extend_line(dcel, v(0), v(9))
    });
    refused(&mut dcel, Refusal::NoSuchVertex, |dcel| {
        swap_remove_vertex(dcel, v(4))
    });
    refused(&mut dcel, Refusal::NoSuchVertex, |dcel| {
        remove_when_degenerate(dcel, v(4))
    });
    refused(&mut dcel, Refusal::NoSuchVertex, |dcel| {
        dcel.swap_vertices(v(0), v(4))
    });
    refused(&mut dcel, Refusal::NoSuchEdge, |dcel| flip_cw(dcel, u(6)));
    refused(&mut dcel, Refusal::NoSuchEdge, |dcel| {
        legalize_by_number(dcel, 1, &[u(6)])
    });
    refused(&mut dcel, Refusal::NoSuchEdge, |dcel| {
        disconnect_edge_strip(dcel, &[e(12)])
    });
    append_unconnected_vertex(&mut dcel, 4).unwrap();
    refused(&mut dcel, Refusal::NoSuchEdge, |dcel| {
        split_edge(dcel, e(12), v(4))
    });
    refused(&mut dcel, Refusal::NoSuchFace, |dcel| {
        insert_into_triangle(dcel, v(4), f(4))
    });
    refused(&mut dcel, Refusal::NoSuchFace, |dcel| {
        insert_into_triangle(dcel, v(4), f(0))
    });
    refused(&mut dcel, Refusal::NoSuchFace, |dcel| {
        remesh_edge_ring(dcel, &[], &[], &[f(0)])
    });
}

#[test]
fn elements_in_the_way() {
    let mut dcel = round();
    refused(&mut dcel, Refusal::VertexInUse, |dcel| {
        insert_into_triangle(dcel, v(3), f(1))
    });
    refused(&mut dcel, Refusal::VertexInUse, |dcel| {
        swap_remove_vertex(dcel, v(0))
    });
    refused(&mut dcel, Refusal::EdgesStand, |dcel| {
        setup_initial_two_vertices(dcel, v(0), v(1))
    });
    refused(&mut dcel, Refusal::SameVertex, |dcel| {
        setup_initial_two_vertices(dcel, v(0), v(0))
    });
    refused(&mut dcel, Refusal::NotPath, |dcel| {
        remove_when_degenerate(dcel, v(0))
    });
    refused(&mut dcel, Refusal::NotOuter, |dcel| {
        create_single_face_between_edge_and_next(dcel, e(6))
    });
    append_unconnected_vertex(&mut dcel, 4).unwrap();
    refused(&mut dcel, Refusal::NotLineEnd, |dcel| {
        extend_line(dcel, v(0), v(4))
    });
    refused(&mut dcel, Refusal::NotBridge, |dcel| {
        split_edge_when_all_vertices_on_line(dcel, e(0), v(4))
    });
}

#[test]
fn faces_that_are_no_triangles() {
    let mut dcel = path(3);
    append_unconnected_vertex(&mut dcel, 3).unwrap();
    refused(&mut dcel, Refusal::NotTriangle, |dcel| flip_cw(dcel, u(0)));
    refused(&mut dcel, Refusal::NotTriangle, |dcel| {
        split_edge(dcel, e(0), v(3))
    });
    refused(&mut dcel, Refusal::NotTriangle, |dcel| {
        split_half_edge(dcel, e(0), v(3))
    });
    let turning = dcel
        .directed_edges()
        .find(|edge| edge.next() == edge.rev())
        .unwrap()
        .fix();
    refused(&mut dcel, Refusal::WouldLoop, |dcel| {
        create_single_face_between_edge_and_next(dcel, turning)
    });
}

#[test]
fn removals_that_are_none() {
    let mut dcel = round();
    let border = border_loop(dcel.vertex(v(3)));
    refused(&mut dcel, Refusal::BadRing, |dcel| {
        isolate_vertex_and_fill_hole(dcel, &border[1..], v(3))
    });
    refused(&mut dcel, Refusal::BadRing, |dcel| {
        isolate_vertex_and_fill_hole(dcel, &border, v(2))
    });
    refused(&mut dcel, Refusal::BadRing, |dcel| {
        remesh_edge_ring(dcel, &border, &[], &[])
    });
    refused(&mut dcel, Refusal::BadStrip, |dcel| {
        disconnect_edge_strip(dcel, &border)
    });

    let mut isolated = isolate_vertex_and_fill_hole(&mut dcel, &border, v(3)).unwrap();
    refused(&mut dcel, Refusal::RemovalOpen, |dcel| {
        isolate_vertex_and_fill_hole(dcel, &border, v(0))
    });
    refused(&mut dcel, Refusal::RemovalOpen, |dcel| {
        swap_remove_vertex(dcel, v(0))
    });
    refused(&mut dcel, Refusal::GivenUp, |dcel| flip_cw(dcel, u(3)));
    refused(&mut dcel, Refusal::GivenUp, |dcel| {
        dcel.swap_vertices(v(0), v(3))
    });
    let mut wrong = isolated.clone();
    wrong.edges_to_remove.pop();
    refused(&mut dcel, Refusal::WrongLists, |dcel| {
        cleanup_isolated_vertex(dcel, &mut wrong)
    });
    wrong.edges_to_remove = vec![u(6), u(1 << 31)];
    refused(&mut dcel, Refusal::NoSuchEdge, |dcel| {
        cleanup_isolated_vertex(dcel, &mut wrong)
    });
    cleanup_isolated_vertex(&mut dcel, &mut isolated).unwrap();
    refused(&mut dcel, Refusal::NoRemoval, |dcel| {
        let mut none = isolated.clone();
        none.edges_to_remove.clear();
        none.faces_to_remove.clear();
        cleanup_isolated_vertex(dcel, &mut none)
    });
    refused(&mut dcel, Refusal::RemovalOpen, |dcel| {
        swap_remove_vertex(dcel, v(0))
    });
}

#[test]
fn refused_data_come_back() {
    let refused =
        new_with_fixed_vertices::<_, (), (), ()>(vec!["a".to_string()], v(0), v(1)).unwrap_err();
    assert_eq!(refused.why, Refusal::NoSuchVertex);
    assert_eq!(refused.back, ["a"]);
    assert_eq!(refused.to_string(), Refusal::NoSuchVertex.to_string());
}

#[test]
fn room_that_isn_t_there() {
    let mut dcel = round();
    refused(&mut dcel, Refusal::NoRoom, |dcel| {
        dcel.reserve_capacity(1 << 32, 0, 0)
    });
    assert!(dcel.has_room((1 << 32) - 4, 0, 0) && !dcel.has_room((1 << 32) - 3, 0, 0));
}

#[test]
fn refusals_are_errors_with_names() {
    let error: Box<dyn std::error::Error> = Refusal::BadRing.into();
    assert_eq!(
        error.to_string(),
        "the half edges aren't the ring that was asked for"
    );
    for (number, refusal) in (1..).zip(Refusal::ALL) {
        assert_eq!(refusal.number(), number);
        assert_eq!(refusal.name(), format!("{refusal:?}"));
    }
}

#[test]
fn tests_tell_what_edits_ask() {
    let mut dcel = round();
    assert!(!dcel.can_setup_initial_two_vertices(v(0), v(1)));
    append_unconnected_vertex(&mut dcel, 4).unwrap();
    assert!(
        dcel.can_insert_into_triangle(v(4), f(1)) && !dcel.can_insert_into_triangle(v(4), f(0))
    );
    assert!(dcel.can_split_edge(e(0), v(4)) && dcel.can_split_half_edge(e(0), v(4)));
    assert!(dcel.can_create_new_face_adjacent_to_edge(e(0), v(4)));
    assert!(!dcel.can_split_edge_when_all_vertices_on_line(e(0), v(4)) && !dcel.is_bridge(e(0)));
    assert!(!dcel.can_extend_line(v(0), v(4)) && !dcel.is_line_end(v(0)));
    assert!(dcel.is_unconnected(v(4)) && !dcel.is_unconnected(v(0)));
    assert!(!dcel.can_remove_degenerate(v(4)) && dcel.can_swap_remove(v(4)));
    assert!(dcel.can_close_outside(e(0)) && !dcel.can_close_outside(e(1)));
    assert!(dcel.is_triangle(f(1)) && !dcel.is_triangle(f(9)));
    assert!(dcel.can_flip(u(0)) && !dcel.can_flip(u(9)));

    let mut line = path(2);
    assert!(line.is_bridge(e(0)) && line.is_line_end(v(0)) && line.can_remove_degenerate(v(0)));
    append_unconnected_vertex(&mut line, 2).unwrap();
    assert!(
        line.can_extend_line(v(0), v(2))
            && line.can_split_edge_when_all_vertices_on_line(e(0), v(2))
    );
}
