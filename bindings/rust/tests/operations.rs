//! Edits, and the meshes that they leave.

mod common;

use common::*;
use dcel::operations::*;
use dcel::{Dcel, RemovalState};

fn counts<V>(dcel: &Dcel<V>) -> [usize; 3] {
    [
        dcel.num_vertices(),
        dcel.num_undirected_edges(),
        dcel.num_faces(),
    ]
}

#[test]
fn a_new_mesh_is_the_outer_face() {
    let dcel: Dcel<u8> = new().unwrap();
    assert!(dcel.sanity_check());
    assert_eq!(counts(&dcel), [0, 0, 1]);
    assert!(dcel.outer_face().adjacent_edge().is_none());
}

#[test]
fn a_triangle() {
    let dcel: Dcel<_> = new_triangle([0, 1, 2]).unwrap();
    assert!(dcel.sanity_check());
    assert_eq!(counts(&dcel), [3, 3, 2]);
    let outer: Vec<_> = dcel
        .outer_face()
        .directed_edges()
        .map(|edge| edge.from().index())
        .collect();
    assert_eq!(outer, [0, 1, 2]);
}

#[test]
fn a_triangle_in_place_of_a_mesh() {
    let mut dcel = round();
    dcel.replace_by_triangle([7, 8, 9]).unwrap();
    assert!(dcel.sanity_check());
    assert_eq!(counts(&dcel), [3, 3, 2]);
    assert!(dcel.vertices().map(|vertex| *vertex.data()).eq([7, 8, 9]));
}

#[test]
fn insertion_into_a_triangle() {
    let dcel = round();
    assert!(dcel.sanity_check());
    assert_eq!(counts(&dcel), [4, 6, 4]);
    assert_eq!(dcel.vertex(v(3)).out_edges().count(), 3);
}

#[test]
fn a_vertex_comes_out_of_a_triangle() {
    let mut dcel = round();
    assert_eq!(take_out(&mut dcel, v(3)), Ok(3));
    assert!(dcel.sanity_check());
    assert_eq!(counts(&dcel), [3, 3, 2]);
}

#[test]
fn a_vertex_comes_out_of_a_quad() {
    let mut dcel = round();
    let edge = dcel.get_edge_from_neighbors(v(0), v(3)).unwrap().fix();
    let vertex = append_unconnected_vertex(&mut dcel, 4).unwrap();
    split_edge(&mut dcel, edge, vertex).unwrap();
    assert!(dcel.sanity_check());
    assert_eq!(dcel.vertex(vertex).out_edges().count(), 4);

    assert_eq!(take_out(&mut dcel, vertex), Ok(4));
    assert!(dcel.sanity_check());
    assert_eq!(counts(&dcel), [4, 6, 4]);
}

#[test]
fn vertices_exchanged() {
    let mut dcel = round();
    for (first, second) in [(0, 1), (0, 2), (1, 2), (3, 2), (3, 0), (0, 0), (1, 1)] {
        let before = [first, second].map(|vertex| *dcel.vertex_data(v(vertex)));
        dcel.swap_vertices(v(first), v(second)).unwrap();
        assert!(dcel.sanity_check());
        assert_eq!(
            [second, first].map(|vertex| *dcel.vertex_data(v(vertex))),
            before
        );
    }
}

#[test]
fn a_flip_takes_an_edge_from_its_vertices() {
    let mut dcel = round();
    let edge = dcel
        .get_edge_from_neighbors(v(0), v(3))
        .unwrap()
        .as_undirected()
        .fix();
    assert!(dcel.can_flip(edge));
    flip_cw(&mut dcel, edge).unwrap();
    assert!(dcel.sanity_check());
    assert!(dcel.get_edge_from_neighbors(v(0), v(3)).is_none());
}

#[test]
fn four_flips_go_round() {
    let mut dcel = round();
    let before = dcel.links();
    for _ in 0..4 {
        flip_cw(&mut dcel, u(0)).unwrap();
    }
    let after = dcel.links();
    assert!(
        before
            .directed_edges()
            .all(|edge| before.get(edge) == after.get(edge))
    );
}

#[test]
fn an_edge_of_the_hull_is_split() {
    let mut dcel: Dcel<_> = new_triangle([0, 1, 2]).unwrap();
    let vertex = append_unconnected_vertex(&mut dcel, 3).unwrap();
    let [first, second] = split_half_edge(&mut dcel, e(1), vertex).unwrap();
    assert!(dcel.sanity_check());
    assert_eq!(counts(&dcel), [4, 5, 3]);
    assert_eq!(first, e(1));
    assert_eq!(dcel.directed_edge(first).to().fix(), vertex);
    assert_eq!(dcel.directed_edge(second).from().fix(), vertex);
}

#[test]
fn an_edge_is_split() {
    let mut dcel = round();
    let edge = dcel.get_edge_from_neighbors(v(0), v(3)).unwrap().fix();
    let vertex = append_unconnected_vertex(&mut dcel, 4).unwrap();
    let [first, second] = split_edge(&mut dcel, edge, vertex).unwrap();
    assert!(dcel.sanity_check());
    assert!(dcel.get_edge_from_neighbors(v(0), v(3)).is_none());
    assert_eq!(counts(&dcel), [5, 9, 6]);
    assert_eq!(dcel.directed_edge(first).from().fix(), v(0));
    assert_eq!(dcel.directed_edge(second).to().fix(), v(3));
}

#[test]
fn the_first_edge() {
    let mut dcel = Dcel::<_>::default();
    let a = append_unconnected_vertex(&mut dcel, 0).unwrap();
    assert!(dcel.sanity_check());
    let b = append_unconnected_vertex(&mut dcel, 1).unwrap();
    assert!(!dcel.sanity_check()); // no edge joins them
    setup_initial_two_vertices(&mut dcel, a, b).unwrap();
    assert!(dcel.sanity_check());
    assert_eq!(dcel.outer_face().directed_edges().count(), 2);
}

#[test]
fn an_edge_of_a_line_is_split() {
    let mut dcel = path(2);
    let vertex = append_unconnected_vertex(&mut dcel, 2).unwrap();
    split_edge_when_all_vertices_on_line(&mut dcel, e(0), vertex).unwrap();
    assert!(dcel.sanity_check());
    assert_eq!(counts(&dcel), [3, 2, 1]);
    assert!(dcel.get_edge_from_neighbors(v(0), v(1)).is_none());
    assert!(dcel.get_edge_from_neighbors(v(1), v(2)).is_some());

    let edge = dcel.get_edge_from_neighbors(v(0), v(2)).unwrap().fix();
    let vertex = append_unconnected_vertex(&mut dcel, 3).unwrap();
    let [_, second] = split_edge_when_all_vertices_on_line(&mut dcel, edge, vertex).unwrap();
    assert!(dcel.sanity_check());
    assert_eq!(counts(&dcel), [4, 3, 1]);
    assert_eq!(dcel.directed_edge(second).to().fix(), v(2));
}

#[test]
fn a_line_is_extended_at_both_ends() {
    let mut dcel = path(2);
    for end in [0, 1] {
        let vertex = append_unconnected_vertex(&mut dcel, 7).unwrap();
        assert_eq!(extend_line(&mut dcel, v(end), vertex), Ok(vertex));
        assert!(dcel.sanity_check());
    }
    assert_eq!(counts(&dcel), [4, 3, 1]);
}

#[test]
fn a_line_is_closed_to_a_triangle() {
    let mut dcel = path(3);
    let half = create_single_face_between_edge_and_next(&mut dcel, e(0)).unwrap();
    assert!(dcel.sanity_check());
    assert_eq!(counts(&dcel), [3, 3, 2]);
    assert!(dcel.directed_edge(half).is_outer_edge());
}

#[test]
fn a_triangle_beside_an_edge() {
    let mut dcel: Dcel<_> = new_triangle([0, 1, 2]).unwrap();
    let vertex = append_unconnected_vertex(&mut dcel, 3).unwrap();
    assert_eq!(
        create_new_face_adjacent_to_edge(&mut dcel, e(0), vertex),
        Ok(vertex)
    );
    assert!(dcel.sanity_check());
    assert_eq!(counts(&dcel), [4, 5, 3]);
}

#[test]
fn legalization_flips_back() {
    let mut dcel = round();
    let edges = [u(0)]; // from 0 to 1, with 2 and 3 opposite
    assert_eq!(
        legalize_by_number(&mut dcel, 100, &edges),
        Ok(Legalized::Done { flips: 0 })
    );
    flip_cw(&mut dcel, u(0)).unwrap();
    assert_eq!(
        legalize_by_number(&mut dcel, 0, &edges),
        Ok(Legalized::Stopped { flips: 0 })
    );
    let legalized = legalize_by_number(&mut dcel, 100, &edges).unwrap();
    assert!(matches!(legalized, Legalized::Done { flips: 1.. }));
    assert_eq!(
        legalize_by_number(&mut dcel, 100, &edges),
        Ok(Legalized::Done { flips: 0 })
    );
    assert!(dcel.sanity_check());
}

#[test]
fn clear_closes_a_removal() {
    let mut dcel = round();
    let border = border_loop(dcel.vertex(v(3)));
    isolate_vertex_and_fill_hole(&mut dcel, &border, v(3)).unwrap();
    dcel.clear();
    assert_eq!(dcel.removal_state(), RemovalState::Closed);
    assert_eq!(counts(&dcel), [0, 0, 1]);
    append_unconnected_vertex(&mut dcel, 5).unwrap();
    assert!(dcel.sanity_check());
}

#[test]
fn a_clone_is_a_mesh_of_its_own() {
    let mut dcel = round();
    let clone = dcel.clone();
    assert_eq!(clone.links(), dcel.links());
    flip_cw(&mut dcel, u(0)).unwrap();
    dcel.update_vertex(v(0), 77);
    assert_ne!(clone.links(), dcel.links());
    assert!(clone.vertices().map(|vertex| *vertex.data()).eq(0..4));
}

#[test]
fn reserved_room_changes_nothing() {
    let mut dcel = round();
    let before = dcel.links();
    dcel.reserve_capacity(100, 300, 200).unwrap();
    assert_eq!(dcel.links(), before);
}
