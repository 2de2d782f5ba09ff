//! Handles: numbers, and elements with their steps and texts.

mod common;

use common::*;
use dcel::Dcel;
use dcel::handles::*;
use dcel::operations::*;
use std::collections::HashSet;

#[test]
fn halves_of_edges() {
    for index in 0..10 {
        let handle = FixedDirectedEdgeHandle::new_normalized(index);
        assert_eq!(handle.as_undirected().index(), index);
        assert!(handle.is_normalized() && !handle.rev().is_normalized());
        assert_ne!(handle, handle.rev());
        assert_eq!(handle.rev().rev(), handle);
        assert_eq!(
            handle.as_undirected().directed_edges(),
            [handle, handle.rev()]
        );
        assert_eq!(handle.as_undirected().as_directed(), handle);
    }
}

#[test]
fn numbers_up_to_the_last() {
    let last = FixedVertexHandle::from_index(u32::MAX as usize);
    assert_eq!(last.index(), u32::MAX as usize);
    assert_eq!(e(u32::MAX as usize).rev().index(), u32::MAX as usize - 1);
    assert_eq!(format!("{last:?}"), "FixedHandle { index: 4294967295 }");
}

#[test]
#[should_panic = "the number is below 2^32"]
fn a_number_that_is_none() {
    FixedVertexHandle::new(1 << 32);
}

#[test]
#[should_panic = "the edge's number isn't below 2^31"]
fn an_edge_without_halves() {
    u(1 << 31).as_directed();
}

#[test]
fn faces_with_their_marks() {
    assert!(OUTER_FACE.is_outer() && OUTER_FACE.as_inner().is_none());
    let inner: FixedFaceHandle<InnerTag> = new_fixed_face_handle(3).as_inner().unwrap();
    assert_eq!(
        inner.adjust_inner_outer::<PossiblyOuterTag>(),
        new_fixed_face_handle(3)
    );
    assert_eq!(
        (InnerTag::debug_string(), PossiblyOuterTag::debug_string()),
        ("Inner", "PossiblyOuter")
    );
}

#[test]
fn steps_agree_with_each_other() {
    let dcel = round();
    for edge in dcel.directed_edges() {
        assert_eq!(edge.next().prev(), edge);
        assert_eq!(edge.prev().next(), edge);
        assert_eq!(edge.rev().rev(), edge);
        assert_eq!(edge.ccw(), edge.prev().rev());
        assert_eq!(edge.cw(), edge.rev().next());
        assert_eq!(edge.ccw().cw(), edge);
        assert_eq!(edge.ccw().from(), edge.from());
        assert_eq!(edge.next().from(), edge.to());
        assert_eq!(edge.next().face(), edge.face());
        assert_eq!(edge.vertices(), [edge.from(), edge.to()]);
        assert_eq!(edge.as_undirected(), edge.rev().as_undirected());
        assert_eq!(edge.is_outer_edge(), edge.face().is_outer());
        assert_eq!(
            edge.is_part_of_convex_hull(),
            edge.as_undirected().is_part_of_convex_hull()
        );
        assert_eq!(edge.opposite_vertex().is_none(), edge.is_outer_edge());
    }
    assert_eq!(
        dcel.undirected_edges()
            .filter(|edge| edge.is_part_of_convex_hull())
            .count(),
        3
    );
}

#[test]
fn faces_and_their_corners() {
    let dcel = round();
    for face in dcel.inner_faces() {
        let edges = face.adjacent_edges();
        assert_eq!(edges[1], face.adjacent_edge());
        assert!(
            edges
                .iter()
                .all(|edge| edge.face().as_inner() == Some(face))
        );
        assert_eq!(face.vertices(), edges.map(|edge| edge.from()));
        assert_eq!(
            face.directed_edges().collect::<HashSet<_>>(),
            HashSet::from(edges)
        );
    }
    assert_eq!(dcel.faces().filter_map(|face| face.as_inner()).count(), 3);
}

#[test]
fn texts_of_elements() {
    let mut dcel = round();
    assert_eq!(format!("{:?}", dcel.vertex(v(3))), "VertexHandle(3)");
    assert_eq!(
        format!("{:?}", dcel.directed_edge(e(0))),
        "DirectedEdgeHandle - id: 0 (FixedHandle { index: 0 } -> FixedHandle { index: 1 })"
    );
    assert_eq!(
        format!("{:?}", dcel.undirected_edge(u(0))),
        "UndirectedEdgeHandle - id: 0 (FixedHandle { index: 0 } <-> FixedHandle { index: 1 })"
    );
    assert_eq!(format!("{:?}", dcel.outer_face()), "OuterFace");
    let [a, b, c] = dcel.face(f(1)).vertices().map(|vertex| vertex.index());
    let text = format!("FaceHandle - id: 1 ({a}, {b}, {c})");
    assert_eq!(format!("{:?}", dcel.face(f(1))), text);
    assert_eq!(format!("{:?}", dcel.face(new_fixed_face_handle(1))), text);
    assert_eq!(
        format!("{dcel:?}"),
        "Dcel { vertices: 4, undirected_edges: 6, faces: 4, .. }"
    );

    let border = border_loop(dcel.vertex(v(3)));
    isolate_vertex_and_fill_hole(&mut dcel, &border, v(3)).unwrap();
    assert_eq!(
        format!("{:?}", dcel.face(f(1))),
        "FaceHandle - id: 1 (none)"
    );
    assert_eq!(
        format!("{:?}", dcel.directed_edge(e(6))),
        "DirectedEdgeHandle - id: 6 (none)"
    );
    assert_eq!(
        format!("{:?}", dcel.undirected_edge(u(3))),
        "UndirectedEdgeHandle - id: 3 (none)"
    );
}

#[test]
#[should_panic = "half edge 12 isn't live"]
fn a_step_from_no_half_edge() {
    round().directed_edge(e(12)).next();
}

#[test]
#[should_panic = "half edge 6 isn't live"]
fn a_step_from_a_half_edge_that_is_given_up() {
    let mut dcel = round();
    let border = border_loop(dcel.vertex(v(3)));
    isolate_vertex_and_fill_hole(&mut dcel, &border, v(3)).unwrap();
    dcel.directed_edge(e(6)).from();
}

#[test]
#[should_panic = "face 4 isn't live"]
fn the_anchor_of_no_face() {
    round().face(f(4)).adjacent_edge();
}

#[test]
#[should_panic = "there is no vertex 4"]
fn the_datum_of_no_vertex() {
    round().vertex(v(4)).data();
}

#[test]
fn handles_compare_by_number() {
    let (one, other) = (round(), round());
    assert_eq!(one.vertex(v(1)), other.vertex(v(1)));
    assert!(one.vertex(v(1)) < other.vertex(v(2)));
    assert!(one.vertices().is_sorted());
    assert_eq!(one.directed_edges().collect::<HashSet<_>>().len(), 12);
}

#[test]
fn handles_as_references_to_data() {
    let dcel: Dcel<_, u8, bool, char> = new_triangle(["a", "b", "c"]).unwrap();
    let as_ref: &&str = dcel.vertex(v(1)).data();
    assert_eq!(as_ref, AsRef::<&str>::as_ref(&dcel.vertex(v(1))));
    assert_eq!(AsRef::<u8>::as_ref(&dcel.directed_edge(e(1))), &0);
    assert_eq!(AsRef::<bool>::as_ref(&dcel.undirected_edge(u(1))), &false);
    assert_eq!(AsRef::<char>::as_ref(&dcel.outer_face()), &'\0');
}

#[test]
fn duals() {
    let dcel = round();
    for edge in dcel.directed_edges() {
        let dual = edge.as_voronoi_edge();
        assert_eq!(dual.as_delaunay_edge(), edge);
        assert_eq!(dual.from().as_delaunay_face(), edge.face().as_inner());
        assert_eq!(dual.to().as_delaunay_face(), edge.rev().face().as_inner());
        assert_eq!(dual.next().prev(), dual);
        assert_eq!(dual.next().face(), dual.face());
        assert_eq!(dual.face().as_delaunay_vertex(), edge.from());
        assert_eq!(
            dual.as_undirected().as_delaunay_edge(),
            edge.as_undirected()
        );
        match dual.from() {
            VoronoiVertex::Inner(face) => {
                assert!(dual.from().out_edges().unwrap().contains(&dual));
                assert_eq!(
                    dual.from().out_edge().as_delaunay_edge(),
                    face.adjacent_edge()
                );
            }
            VoronoiVertex::Outer(end) => {
                assert_eq!((end, dual.from().out_edge()), (dual, dual));
                assert!(dual.from().out_edges().is_none());
            }
        }
    }
    for vertex in dcel.vertices() {
        let edges = vertex
            .as_voronoi_face()
            .adjacent_edges()
            .map(|edge| edge.as_delaunay_edge());
        assert!(edges.eq(vertex.out_edges()));
    }
}
