//! Meshes made from links and from faces.

mod common;

use common::*;
use dcel::handles::*;
use dcel::operations::*;
use dcel::{Dcel, HalfEdgeEntry};

fn half_edges<V>(dcel: &Dcel<V>) -> Vec<HalfEdgeEntry> {
    let links = dcel.links();
    links
        .directed_edges()
        .filter_map(|edge| links.get(edge))
        .collect()
}

fn refused(half_edges: &[HalfEdgeEntry], vertices: usize, faces: usize) -> LinksError {
    let refused =
        from_links::<_, (), (), _>(half_edges, vec![7; vertices], vec!['a'; faces]).unwrap_err();
    assert_eq!(refused.back, (vec![7; vertices], vec!['a'; faces]));
    refused.reason
}

#[test]
fn links_there_and_back() {
    let dcel = round();
    let mut given = half_edges(&dcel);
    for entry in &mut given {
        entry.prev = e(99); // which isn't read
    }
    let made: Dcel<_, u8, u8, _> =
        from_links(&given, vec!['a', 'b', 'c', 'd'], vec![9, 8, 7, 6]).unwrap();
    assert_eq!(half_edges(&dcel), {
        let links = made.links();
        let entries = links.directed_edges().filter_map(|edge| links.get(edge));
        entries.collect::<Vec<_>>()
    });
    assert!(made.vertices().map(|vertex| *vertex.data()).eq('a'..='d'));
    assert!(made.faces().map(|face| *face.data()).eq([9, 8, 7, 6]));
    assert!(made.directed_edges().all(|edge| *edge.data() == 0));
    // It is anchored at the last half edges.
    let anchors = made.fixed_vertices().map(|it| made.vertex_out_edge(it));
    assert!(anchors.eq([6, 10, 8, 11].map(|edge| Some(e(edge)))));
    let anchors = made.fixed_faces().map(|it| made.face_adjacent_edge(it));
    assert!(anchors.eq([4, 11, 8, 10].map(|edge| Some(e(edge)))));
}

#[test]
fn no_edges() {
    let dcel: Dcel<_> = from_links(&[], vec!['a', 'b'], vec![()]).unwrap();
    assert_eq!((dcel.num_vertices(), dcel.num_faces()), (2, 1));
    assert_eq!(refused(&[], 2, 0), LinksError::Links(LinksFault::NoFace));
    let dcel: Dcel<char> = from_faces(Vec::new(), Vec::<[_; 3]>::new()).unwrap();
    assert_eq!((dcel.num_vertices(), dcel.num_faces()), (0, 1));
}

#[test]
fn faulty_links() {
    let links = half_edges(&round());
    let fault = |reason| LinksError::Links(reason);
    assert_eq!(refused(&links[..11], 4, 4), fault(LinksFault::Lengths));
    assert_eq!(refused(&links, 4, 9), fault(LinksFault::MoreFaces));
    assert_eq!(refused(&links, 4, 5), fault(LinksFault::UnusedFace(4)));
    let start = links.iter().position(|entry| entry.origin == v(3)).unwrap();
    assert_eq!(
        refused(&links, 3, 4),
        fault(LinksFault::OriginOutOfRange(start))
    );

    let mut changed = links.clone();
    changed[5].next = e(12);
    assert_eq!(
        refused(&changed, 4, 4),
        fault(LinksFault::NextOutOfRange(5))
    );
    changed[5].next = links[3].next;
    let led = links[3].next.index();
    assert_eq!(refused(&changed, 4, 4), fault(LinksFault::TwoLeadTo(led)));
    assert_eq!(
        fault(LinksFault::TwoLeadTo(led)).to_string(),
        format!("no mesh has these links: two half edges lead to half edge {led}")
    );
}

/// Half edges by the one after each, its origin and its face.
fn linked(next: &[usize], origin: &[usize], face: &[usize]) -> Vec<HalfEdgeEntry> {
    let entries = next.iter().zip(origin).zip(face);
    entries
        .map(|((next, origin), face)| HalfEdgeEntry {
            next: e(*next),
            prev: e(0), // which isn't read
            origin: v(*origin),
            face: FixedFaceHandle::new(*face),
        })
        .collect()
}

#[test]
fn links_of_no_mesh() {
    let triangle = linked(
        &[2, 5, 4, 1, 0, 3],
        &[0, 1, 1, 2, 2, 0],
        &[0, 1, 0, 1, 0, 1],
    );
    let fault = |reason| LinksError::Links(reason);
    assert_eq!(
        refused(&triangle, 2, 2),
        fault(LinksFault::OriginOutOfRange(3))
    );
    assert_eq!(refused(&triangle, 3, 3), fault(LinksFault::UnusedFace(2)));
    // Face 0 lies on one side of an edge only, but its half edge comes back to itself.
    let apart = linked(&[0, 1], &[0, 1], &[0, 1]);
    assert_eq!(refused(&apart, 2, 2), fault(LinksFault::Apart(0)));
    // A torus of four squares.
    let torus = linked(
        &[10, 13, 8, 15, 14, 9, 12, 11, 7, 0, 5, 2, 3, 4, 1, 6],
        &[0, 1, 1, 0, 2, 3, 3, 2, 0, 2, 1, 3, 2, 0, 3, 1],
        &[0, 2, 1, 3, 2, 0, 3, 1, 1, 0, 0, 1, 3, 2, 2, 3],
    );
    assert_eq!(refused(&torus, 4, 4), fault(LinksFault::NotSphere(1)));
    let vertices = from_links::<_, (), (), _>(&[], vec![0; 3], vec![7]).unwrap();
    assert_eq!((vertices.num_vertices(), vertices.num_faces()), (3, 1));
}

#[test]
fn faces_of_many_corners() {
    let faces: Vec<Vec<_>> = [&[0, 1, 2, 3][..], &[1, 0, 4], &[3, 2, 5, 6, 7]]
        .map(|face| face.iter().copied().map(v).collect())
        .to_vec();
    let dcel: Dcel<_> = from_faces((0..8).collect(), &faces).unwrap();
    assert_eq!((dcel.num_undirected_edges(), dcel.num_faces()), (10, 4));
    for (number, corners) in faces.iter().enumerate() {
        let face = dcel.face(f(number + 1));
        let mut found: Vec<_> = face
            .directed_edges()
            .map(|edge| edge.from().fix())
            .collect();
        let first = found
            .iter()
            .position(|corner| *corner == corners[0])
            .unwrap();
        found.rotate_left(first);
        assert_eq!(&found, corners);
    }
}

#[test]
fn faulty_faces() {
    let refused = |faces: &[&[usize]]| {
        let faces = faces
            .iter()
            .map(|face| face.iter().copied().map(v).collect::<Vec<_>>());
        let refused = from_faces::<_, (), (), (), _>(vec![7; 4], faces).unwrap_err();
        assert_eq!(refused.back, [7; 4]);
        refused.reason
    };
    assert_eq!(refused(&[&[0, 1, 2], &[2, 1]]), FacesError::FewCorners(1));
    assert_eq!(refused(&[&[0, 1, 4]]), FacesError::NoVertex(0, 4));
    assert_eq!(refused(&[&[0, 1, 1]]), FacesError::OneEnd(0, 1));
    assert_eq!(
        refused(&[&[0, 1, 2], &[0, 1, 3]]),
        FacesError::SideTwice(0, 1, 0, 1)
    );
    let closed = refused(&[&[0, 1, 2], &[2, 1, 0]]);
    assert_eq!(closed, FacesError::Links(LinksFault::UnusedFace(0)));
    assert!(closed.to_string().ends_with("leave one face out"));
}

#[test]
fn both_faces_of_a_corner() {
    let faces = [[0, 1, 2], [0, 3, 4]].map(|face| face.map(FixedVertexHandle::new));
    let refused = from_faces::<_, (), (), (), _>(vec![7; 5], faces).unwrap_err();
    assert_eq!(refused.reason, FacesError::BorderTwice(0));
}
