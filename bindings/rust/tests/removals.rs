//! Removals in their stages, and vertices that come out of lines.

mod common;

use common::*;
use dcel::operations::*;
use dcel::{Dcel, RemovalState};

#[test]
fn a_removal_in_stages() {
    let mut dcel = round();
    let border = border_loop(dcel.vertex(v(3)));
    assert_eq!(dcel.is_border_loop(&border, v(3)), Ok(true));
    assert_eq!(
        dcel.can_isolate_vertex_and_fill_hole(&border, v(3)),
        Ok(true)
    );

    let mut isolated = isolate_vertex_and_fill_hole(&mut dcel, &border, v(3)).unwrap();
    assert_eq!(dcel.removal_state(), RemovalState::Isolated);
    assert_eq!(numbers(isolated.edges_to_remove.iter().copied()), [3, 4, 5]);
    assert_eq!(isolated.faces_to_remove.len(), 3);
    assert!(isolated.new_edges.is_empty());
    assert_eq!(isolated.smallest_new_edge, u(6));
    assert_eq!(dcel.is_listed(&isolated), Ok(true));
    assert_eq!(dcel.num_vertices(), 4);
    assert!(!dcel.is_live_vertex(v(3)) && dcel.get_vertex(v(3)).is_some());
    assert!(!dcel.is_live_edge(u(3)) && dcel.get_undirected_edge(u(3)).is_none());
    assert!(!dcel.is_live_face(f(1)) && dcel.get_face(f(1)).is_none());
    assert_eq!(numbers(dcel.live_faces().map(|face| face.fix())), [0, 4]);
    assert_eq!(numbers(dcel.live_inner_faces().map(|face| face.fix())), [4]);
    assert_eq!(
        numbers(dcel.live_directed_edges().map(|edge| edge.fix())),
        [0, 1, 2, 3, 4, 5]
    );
    assert_eq!(
        numbers(dcel.live_undirected_edges().rev().map(|edge| edge.fix())),
        [2, 1, 0]
    );
    assert_eq!(dcel.vertex(v(3)).out_edges().count(), 0);

    cleanup_isolated_vertex(&mut dcel, &mut isolated).unwrap();
    assert_eq!(dcel.removal_state(), RemovalState::Cleaned);
    assert!(isolated.faces_to_remove.is_sorted());
    assert!(dcel.can_swap_remove(v(3)) && !dcel.can_swap_remove(v(0)));

    let removed = swap_remove_vertex(&mut dcel, v(3)).unwrap();
    assert_eq!(
        removed,
        RemovalResult {
            removed_vertex: 3,
            swapped_in_vertex: None
        }
    );
    assert_eq!(dcel.removal_state(), RemovalState::Closed);
    assert!(dcel.sanity_check());
}

#[test]
fn a_wider_hole_is_filled_by_new_edges() {
    let mut dcel = round();
    let edge = dcel.get_edge_from_neighbors(v(0), v(3)).unwrap().fix();
    let vertex = append_unconnected_vertex(&mut dcel, 4).unwrap();
    split_edge(&mut dcel, edge, vertex).unwrap();
    let before = dcel.num_undirected_edges();
    let border = border_loop(dcel.vertex(vertex));
    let isolated = isolate_vertex_and_fill_hole(&mut dcel, &border, vertex).unwrap();
    assert_eq!(numbers(isolated.new_edges.iter().copied()), [before]);
    assert_eq!(isolated.smallest_new_edge, u(before));
    assert!(isolated.is_new_edge(u(before)) && !isolated.is_new_edge(u(before - 1)));
    let new = dcel.undirected_edge(u(before));
    assert_eq!(
        new.as_directed().to(),
        dcel.directed_edge(*border.last().unwrap()).from()
    );
}

#[test]
fn a_ring_names_what_lies_inside() {
    let mut dcel = round();
    let border = border_loop(dcel.vertex(v(3)));
    let edges: Vec<_> = dcel
        .vertex(v(3))
        .out_edges()
        .map(|edge| edge.as_undirected().fix())
        .collect();
    let faces = [f(3), f(1), f(2)];
    assert_eq!(dcel.is_ring(&border, &edges, &faces), Ok(true));
    assert_eq!(dcel.is_ring(&border, &edges[1..], &faces), Ok(false));
    let mut opened = remesh_edge_ring(&mut dcel, &border, &edges, &faces).unwrap();
    assert_eq!(opened.edges_to_remove, edges);
    assert_eq!(opened.faces_to_remove, faces);
    cleanup_isolated_vertex(&mut dcel, &mut opened).unwrap();
    assert_eq!(
        swap_remove_vertex(&mut dcel, v(3)).unwrap().removed_vertex,
        3
    );
    assert!(dcel.sanity_check());
}

#[test]
fn a_region_gives_up_no_vertex() {
    let mut dcel = round();
    let edge = dcel.vertex(v(3)).out_edge().unwrap();
    let ring: Vec<_> = [
        edge.rev().prev(),
        edge.rev().next(),
        edge.prev(),
        edge.next(),
    ]
    .map(|side| side.fix())
    .into();
    let faces = [edge, edge.rev()].map(|half| half.face().fix().as_inner().unwrap());
    let edges = [edge.as_undirected().fix()];
    assert_eq!(dcel.can_remesh_edge_ring(&ring, &edges, &faces), Ok(true));
    let mut opened = remesh_edge_ring(&mut dcel, &ring, &edges, &faces).unwrap();
    assert_eq!(opened.new_edges.len(), 1);
    cleanup_isolated_vertex(&mut dcel, &mut opened).unwrap();
    assert_eq!(dcel.removal_state(), RemovalState::Closed);
    assert_eq!(
        (
            dcel.num_vertices(),
            dcel.num_undirected_edges(),
            dcel.num_faces()
        ),
        (4, 6, 4)
    );
}

#[test]
fn a_strip_is_cut_off() {
    let mut dcel: Dcel<_> = new_triangle([0, 1, 2]).unwrap();
    let vertex = append_unconnected_vertex(&mut dcel, 3).unwrap();
    create_new_face_adjacent_to_edge(&mut dcel, e(0), vertex).unwrap();
    let outer = dcel
        .vertex(vertex)
        .out_edges()
        .find(|edge| edge.is_outer_edge())
        .unwrap();
    let strip = [outer.ccw(), outer].map(|edge| edge.next().fix());
    assert_eq!(dcel.is_edge_strip(&strip), Ok(true));
    assert_eq!(dcel.can_disconnect_edge_strip(&strip[1..]), Ok(false));

    let mut opened = disconnect_edge_strip(&mut dcel, &strip).unwrap();
    assert_eq!(
        (opened.edges_to_remove.len(), opened.faces_to_remove.len()),
        (2, 1)
    );
    assert_eq!(
        (opened.new_edges.len(), opened.smallest_new_edge),
        (0, u(0))
    );
    cleanup_isolated_vertex(&mut dcel, &mut opened).unwrap();
    assert_eq!(
        swap_remove_vertex(&mut dcel, vertex)
            .unwrap()
            .removed_vertex,
        3
    );
    assert!(dcel.sanity_check());
    assert_eq!(
        (
            dcel.num_vertices(),
            dcel.num_undirected_edges(),
            dcel.num_faces()
        ),
        (3, 3, 2)
    );
}

#[test]
fn the_last_vertex_gets_the_free_number() {
    let mut dcel = round();
    append_unconnected_vertex(&mut dcel, 4).unwrap();
    let removed = {
        let border = border_loop(dcel.vertex(v(3)));
        let mut isolated = isolate_vertex_and_fill_hole(&mut dcel, &border, v(3)).unwrap();
        cleanup_isolated_vertex(&mut dcel, &mut isolated).unwrap();
        swap_remove_vertex(&mut dcel, v(3)).unwrap()
    };
    assert_eq!(removed.swapped_in_vertex, Some(v(4)));
    assert_eq!(dcel.vertex_data(v(3)), &4);
    assert!(dcel.is_unconnected(v(3)));
}

#[test]
fn each_vertex_comes_out_of_a_line() {
    for length in 2..6 {
        for gone in 0..length {
            let mut dcel = path(length);
            assert!(dcel.can_remove_degenerate(v(gone)));
            let removed = remove_when_degenerate(&mut dcel, v(gone)).unwrap();
            assert_eq!(removed.removed_vertex, gone);
            assert_eq!(
                removed.swapped_in_vertex,
                (gone != length - 1).then(|| v(length - 1))
            );
            assert!(dcel.sanity_check());
            assert_eq!(
                (dcel.num_vertices(), dcel.num_undirected_edges()),
                (length - 1, length - 2)
            );
            assert_eq!(
                walk(&dcel),
                (0..length)
                    .filter(|datum| *datum != gone)
                    .collect::<Vec<_>>()
            );
        }
    }
}

/// The data along a path, from the lesser end on.
fn walk(dcel: &Dcel<usize>) -> Vec<usize> {
    let Some(end) = dcel
        .vertices()
        .filter(|vertex| dcel.is_line_end(vertex.fix()))
        .min_by_key(|vertex| vertex.data())
    else {
        return dcel.vertices().map(|vertex| *vertex.data()).collect();
    };
    let mut data = vec![*end.data()];
    let mut edge = end.out_edge().unwrap();
    loop {
        data.push(*edge.to().data());
        if edge.next() == edge.rev() {
            return data;
        }
        edge = edge.next();
    }
}

#[test]
fn the_only_vertex_comes_out() {
    let mut dcel = Dcel::<_>::default();
    append_unconnected_vertex(&mut dcel, 'a').unwrap();
    assert_eq!(
        remove_when_degenerate(&mut dcel, v(0))
            .unwrap()
            .removed_vertex,
        'a'
    );
    assert_eq!(dcel.num_vertices(), 0);
    assert!(dcel.sanity_check());
}
