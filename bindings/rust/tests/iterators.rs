//! Iterators over elements, and round vertices and faces.

mod common;

use common::*;
use dcel::Dcel;
use dcel::iterators::*;
use dcel::operations::*;

#[test]
fn round_a_vertex_both_ways() {
    let dcel = round();
    let vertex = dcel.vertices().next().unwrap();
    let mut edges: Vec<_> = vertex.out_edges().collect();
    assert_eq!(edges.len(), 3);
    assert!(edges.iter().all(|edge| edge.from() == vertex));
    edges.reverse();
    assert_eq!(vertex.out_edges().rev().collect::<Vec<_>>(), edges);
}

#[test]
fn from_both_ends_each_once() {
    let dcel = round();
    for vertex in dcel.vertices() {
        let mut walk = vertex.out_edges();
        let mut found = Vec::new();
        while let Some(edge) = walk.next() {
            found.push(edge);
            found.extend(walk.next_back());
        }
        assert_eq!((walk.next(), walk.next_back()), (None, None));
        found.sort_unstable();
        let mut edges: Vec<_> = vertex.out_edges().collect();
        edges.sort_unstable();
        assert_eq!(found, edges);
    }
}

#[test]
fn the_hull_of_small_meshes() {
    let mut dcel = Dcel::<_>::default();
    assert_eq!(HullIterator::new(&dcel).count(), 0);
    let a = append_unconnected_vertex(&mut dcel, 0).unwrap();
    assert_eq!(HullIterator::new(&dcel).count(), 0);
    let b = append_unconnected_vertex(&mut dcel, 1).unwrap();
    assert_eq!(HullIterator::new(&dcel).count(), 0);
    setup_initial_two_vertices(&mut dcel, a, b).unwrap();
    assert_eq!(HullIterator::new(&dcel).count(), 2);
    dcel.clear();
    assert_eq!(HullIterator::new(&dcel).count(), 0);
}

#[test]
fn the_hull_of_a_bigger_mesh() {
    let mut dcel: Dcel<_> = new_triangle([0, 1, 2]).unwrap();
    let mut draws = Draws(7);
    for datum in 3..100 {
        let vertex = append_unconnected_vertex(&mut dcel, datum).unwrap();
        if datum % 3 == 0 {
            let hull: Vec<_> = HullIterator::new(&dcel).map(|edge| edge.fix()).collect();
            create_new_face_adjacent_to_edge(&mut dcel, hull[draws.below(hull.len())], vertex)
                .unwrap();
        } else {
            let face = f(1 + draws.below(dcel.num_faces() - 1));
            insert_into_triangle(&mut dcel, vertex, face).unwrap();
        }
    }
    assert!(dcel.sanity_check());
    let hull: Vec<_> = HullIterator::new(&dcel).collect();
    assert!(hull.iter().all(|edge| edge.is_outer_edge()));
    let mut reversed: Vec<_> = HullIterator::new(&dcel).rev().collect();
    reversed.reverse();
    assert_eq!(hull, reversed);
    assert_eq!(
        dcel.num_undirected_edges(),
        3 * dcel.num_vertices() - 3 - hull.len()
    );
}

#[test]
fn elements_by_number() {
    let dcel = round();
    assert_eq!(numbers(dcel.vertices().map(|it| it.fix())), [0, 1, 2, 3]);
    assert_eq!(numbers(dcel.faces().map(|it| it.fix())), [0, 1, 2, 3]);
    assert_eq!(numbers(dcel.inner_faces().map(|it| it.fix())), [1, 2, 3]);
    assert_eq!(
        numbers(dcel.undirected_edges().rev().map(|it| it.fix())),
        [5, 4, 3, 2, 1, 0]
    );
    assert_eq!(dcel.directed_edges().len(), 12);
    assert_eq!(dcel.directed_edges().nth(5).unwrap().index(), 5);
    assert_eq!(dcel.directed_edges().nth_back(5).unwrap().index(), 6);
    assert!(dcel.directed_edges().nth(12).is_none());
    assert_eq!(
        (
            dcel.fixed_vertices().len(),
            dcel.fixed_faces().nth(2).unwrap().index()
        ),
        (4, 2)
    );
    assert_eq!(dcel.fixed_faces().nth_back(3).unwrap().index(), 0);
    let mut rest = dcel.vertices();
    rest.next();
    assert_eq!(rest.clone().len(), 3);
    assert_eq!(rest.size_hint(), (3, Some(3)));
}

#[test]
fn live_elements_are_all_of_a_closed_mesh() {
    let dcel = round();
    assert!(dcel.live_vertices().eq(dcel.vertices()));
    assert!(dcel.live_directed_edges().eq(dcel.directed_edges()));
    assert!(dcel.live_undirected_edges().eq(dcel.undirected_edges()));
    assert!(dcel.live_faces().rev().eq(dcel.faces().rev()));
    assert!(dcel.live_inner_faces().eq(dcel.inner_faces()));
    assert_eq!(dcel.live_faces().size_hint(), (0, Some(4)));
}

#[test]
fn links_step_as_the_mesh_does() {
    let dcel = round();
    let links = dcel.links();
    assert!(
        links
            .directed_edges()
            .eq(dcel.directed_edges().map(|edge| edge.fix()))
    );
    for edge in dcel.directed_edges() {
        let number = edge.fix();
        assert_eq!(links.next(number), edge.next().fix());
        assert_eq!(links.prev(number), edge.prev().fix());
        assert_eq!(links.ccw(number), edge.ccw().fix());
        assert_eq!(links.cw(number), edge.cw().fix());
        assert_eq!(links.from(number), edge.from().fix());
        assert_eq!(links.to(number), edge.to().fix());
        assert_eq!(links.face(number), edge.face().fix());
    }
    for vertex in dcel.vertices() {
        assert!(
            links
                .out_edges(vertex.fix())
                .eq(vertex.out_edges().map(|edge| edge.fix()))
        );
    }
    for face in dcel.faces() {
        assert!(
            links
                .face_edges(face.fix())
                .eq(face.directed_edges().map(|edge| edge.fix()))
        );
    }
}

#[test]
fn links_leave_out_what_is_given_up() {
    let mut dcel = round();
    let border = border_loop(dcel.vertex(v(3)));
    isolate_vertex_and_fill_hole(&mut dcel, &border, v(3)).unwrap();
    let links = dcel.links();
    assert_eq!(numbers(links.directed_edges()), [0, 1, 2, 3, 4, 5]);
    assert!(links.get(e(6)).is_none() && links.get(e(12)).is_none());
    assert!(links.out_edge(v(3)).is_none() && links.out_edge(v(9)).is_none());
    assert!(links.adjacent_edge(f(1)).is_none() && links.adjacent_edge(f(4)).is_some());
}

#[test]
#[should_panic = "half edge 6 isn't live"]
fn a_step_by_links_from_a_half_edge_that_is_given_up() {
    let mut dcel = round();
    let border = border_loop(dcel.vertex(v(3)));
    isolate_vertex_and_fill_hole(&mut dcel, &border, v(3)).unwrap();
    dcel.links().next(e(6));
}
