//! What tests of a mesh answer, and which elements are there.

#[path = "common/lines.rs"]
mod lines;

use dcel::Dcel;
use dcel::handles::*;
use dcel::iterators::HullIterator;
use lines::*;

fn v(number: usize) -> FixedVertexHandle {
    FixedVertexHandle::new(number)
}

fn e(number: usize) -> FixedDirectedEdgeHandle {
    FixedDirectedEdgeHandle::new(number)
}

fn u(number: usize) -> FixedUndirectedEdgeHandle {
    FixedUndirectedEdgeHandle::new(number)
}

fn f(number: usize) -> FixedFaceHandle<InnerTag> {
    FixedFaceHandle::new(number)
}

#[test]
fn room_is_counted() {
    let dcel = Dcel::<i64>::default();
    let most = usize::MAX;
    for ([vertices, edges, faces], is_room) in [
        ([4_294_967_296, 2_147_483_648, 4_294_967_295], true),
        ([4_294_967_297, 0, 0], false),
        ([0, 2_147_483_649, 0], false),
        ([0, 0, 4_294_967_296], false),
        ([most, 0, 0], false),
        ([0, most, 0], false),
        ([0, 0, most], false),
        ([0, 0, 0], true),
    ] {
        let found = dcel.has_room(vertices, edges, faces);
        assert_eq!(found, is_room, "{vertices} {edges} {faces}");
    }
}

#[test]
fn vertices_answer() {
    let dcel = grown("append 7\nappend 7\nappend 7\nsetup 1 0");
    // The anchor of each, whether it ends a line, and whether it has no edge.
    for (number, wanted) in [
        (Some(1), true, false),
        (Some(0), true, false),
        (None, false, true),
    ]
    .into_iter()
    .enumerate()
    {
        let vertex = v(number);
        let found = (
            out_edges(&dcel)[number],
            dcel.is_line_end(vertex),
            dcel.is_unconnected(vertex),
        );
        assert_eq!(found, wanted, "vertex {number}");
        assert_eq!(dcel.vertex(vertex).index(), number);
    }
    assert_eq!(adjacent_edges(&dcel), [Some(0)]);
    assert!(dcel.is_live_face(OUTER_FACE));
    assert!(!dcel.is_live_vertex(v(3)) && !dcel.is_live_edge(u(1)));
    assert_eq!(adjacent_edges(&Dcel::default()), [None]);
}

/// Lines; half edges of the mesh then, and numbers out of range; the bridges among these, and those where a face can be closed.
type Edges = (
    &'static str,
    &'static [usize],
    &'static [usize],
    &'static [usize],
);

const EDGES: [Edges; 3] = [
    // The outer word is 0, 5, 4, 1, 3, 2, round the line 2, 0, 1, 3.
    (
        LINE,
        &[0, 1, 2, 3, 4, 5, 6, 4_294_967_295],
        &[0, 1, 2, 3, 4, 5],
        &[0, 1, 2, 4],
    ),
    ("triangle 0 1 2\nappend 3", &[0, 1, 2, 3, 6], &[], &[0, 2]),
    // The words are 0, 7, 4, 2, 1 and 3, 5, 6: a triangle of 1, 2 and 3, and the edge from 0 to 1.
    (
        "append 0\nappend 1\nsetup 0 1\nappend 2\nextend 1 2\nappend 3\nextend 2 3\nclose 3",
        &[0, 1, 2, 3, 4, 5, 6, 7, 8],
        &[0, 1],
        &[0, 2, 4, 7],
    ),
];

#[test]
fn bridges_and_corners() {
    for (lines, edges, bridges, corners) in EDGES {
        let dcel = grown(lines);
        for edge in edges {
            let found = [dcel.is_bridge(e(*edge)), dcel.can_close_outside(e(*edge))];
            let wanted = [bridges.contains(edge), corners.contains(edge)];
            assert_eq!(found, wanted, "half edge {edge} after {lines}");
        }
    }
}

#[test]
fn edges_are_found_by_their_ends() {
    let dcel = grown(CUT);
    for (from, to, wanted) in [
        (0, 1, Some(0)),
        (1, 0, Some(1)),
        (3, 1, Some(11)),
        (1, 3, Some(10)),
        (3, 3, None),
        (3, 4, None),
        (0, 4_294_967_295, None),
    ] {
        let found = dcel.get_edge_from_neighbors(v(from), v(to));
        assert_eq!(found.map(|edge| edge.index()), wanted, "{from} {to}");
    }
}

/// Lines, and the edges that can be flipped then, of all and of two numbers beyond.
const FLIPPABLE: [(&str, &[usize]); 5] = [
    // Both corners opposite an edge are the third vertex.
    ("triangle 0 1 2", &[]),
    (CUT, &[0, 1, 2, 3, 4, 5]),
    // Vertices 0 and 3 have two edges each then, and on both sides of these the opposite corner is one vertex.
    ("triangle 0 1 2\nappend 3\ninsert 3 1\nflip 3", &[1, 3]),
    (LINE, &[]),
    // The outer word has four half edges.
    ("triangle 0 1 2\nappend 3\noutside 0 3", &[0]),
];

#[test]
fn some_edges_can_be_flipped() {
    for (lines, edges) in FLIPPABLE {
        let dcel = grown(lines);
        for edge in (0..=dcel.num_undirected_edges()).chain([2_147_483_648, 4_294_967_295]) {
            let found = dcel.can_flip(u(edge));
            assert_eq!(found, edges.contains(&edge), "edge {edge} after {lines}");
        }
    }
}

#[test]
fn vertices_of_paths_can_be_removed() {
    for (lines, number, can) in [(CUT, 0, false), (LINE, 0, true), (LINE, 9, false)] {
        let found = grown(lines).can_remove_degenerate(v(number));
        assert_eq!(found, can, "vertex {number} after {lines}");
    }
}

/// Lines on a cut triangle, and whether it meets their conditions.
const OPENERS: [(&str, bool); 10] = [
    ("isolate 3 1 3 5", true),
    ("isolate 0 1 3 5", false),
    ("isolate 9 1 3 5", false),
    ("isolate 3 1 3", false),
    ("remesh 1 3 5 / 5 3 4 / 3 1 2", true),
    ("remesh 1 3 5 / 3 4 / 3 1 2", false),
    ("remesh 1 3 5 / 5 3 4 / 3 3 2", false),
    ("strip 6 9 4", true),
    ("strip 6 9", false),
    ("strip 99", false),
];

/// Lines on a cut triangle with vertex 4 on the edge from vertex 0 to vertex 3, and whether they have the vertex's border loop.
const BORDERS: [(&str, bool); 20] = [
    ("isolate 4 1 11 8 5", true),
    ("isolate 4 8 5 1 11", true),
    ("isolate 3 13 16 3", true),
    ("isolate 3 16 3 13", true),
    // The other way round.
    ("isolate 4 5 8 11 1", false),
    ("isolate 3 3 16 13", false),
    // Shorter, longer, of other half edges, and with one that there isn't.
    ("isolate 4 1 11 8", false),
    ("isolate 4 1 11 8 5 5", false),
    ("isolate 4 1 11 8 3", false),
    ("isolate 4 1 11 8 18", false),
    ("isolate 3 13 16", false),
    ("isolate 3 13 16 3 3", false),
    ("isolate 3 13 16 1", false),
    ("isolate 3 13 16 18", false),
    // Vertices of the outer face, and numbers that no vertex has.
    ("isolate 1 1 11 8 5", false),
    ("isolate 0 17 12 2", false),
    ("isolate 5 1 11 8 5", false),
    ("isolate 5 13 16 3", false),
    ("isolate 4294967295 1 11 8 5", false),
    ("isolate 4294967295 13 16 3", false),
];

/// Whether the lists of a line fit, and whether its call asks nothing more but room.
fn can_open(dcel: &Dcel<i64>, line: &str) -> [bool; 2] {
    let halves = |list: &[usize]| -> Vec<_> { list.iter().copied().map(e).collect() };
    let given = lists(line, 0);
    match line.split_once(' ').unwrap().0 {
        "isolate" => {
            let (center, border) = (v(given[0][0]), halves(&given[0][1..]));
            [
                dcel.is_border_loop(&border, center),
                dcel.can_isolate_vertex_and_fill_hole(&border, center),
            ]
        }
        "remesh" => {
            let ring = halves(&given[0]);
            let edges: Vec<_> = given[1].iter().copied().map(u).collect();
            let faces: Vec<_> = given[2].iter().copied().map(f).collect();
            [
                dcel.is_ring(&ring, &edges, &faces),
                dcel.can_remesh_edge_ring(&ring, &edges, &faces),
            ]
        }
        _ => {
            let strip = halves(&given[0]);
            [
                dcel.is_edge_strip(&strip),
                dcel.can_disconnect_edge_strip(&strip),
            ]
        }
    }
    .map(Result::unwrap)
}

#[test]
fn border_loops() {
    let mut dcel = grown(SPLIT);
    for (line, is_one) in BORDERS {
        assert_eq!(can_open(&dcel, line), [is_one, is_one], "{line}");
    }
    carry_out(&mut dcel, "append 5\ninsert 5 2\nisolate 5 12 5 7");
    assert_eq!(can_open(&dcel, "isolate 4 1 11 8 5"), [true, false]);
    assert_eq!(can_open(&dcel, "isolate 3 13 16 3"), [true, false]);
}

#[test]
fn what_openers_ask() {
    let mut dcel = grown(CUT);
    for (line, can) in OPENERS {
        assert_eq!(can_open(&dcel, line), [can, can], "{line}");
    }
    carry_out(&mut dcel, "isolate 3 1 3 5");
    for (line, _) in OPENERS {
        assert!(!can_open(&dcel, line)[1], "{line} in an open mesh");
    }
    // The list of the triangle that fills the hole fits.
    assert_eq!(can_open(&dcel, "strip 1 0"), [true, false]);
}

/// Checks which half edges, edges and faces are lent by number.
fn check_lent(dcel: &Dcel<i64>, rows: &[(usize, [bool; 3])]) {
    for (number, are_lent) in rows {
        let found = [
            dcel.get_directed_edge(e(*number)).map(|it| it.index()),
            dcel.get_undirected_edge(u(*number)).map(|it| it.index()),
            dcel.get_face(f(*number)).map(|it| it.index()),
        ];
        let wanted = are_lent.map(|is_lent| is_lent.then_some(*number));
        assert_eq!(found, wanted, "what is lent by {number}");
    }
}

#[test]
fn what_is_live_is_lent() {
    let mut dcel = grown(CUT);
    check_lent(
        &dcel,
        &[
            (3, [true, true, true]),
            (4, [true, true, false]),
            (5, [true, true, false]),
            (6, [true, false, false]),
            (11, [true, false, false]),
            (12, [false, false, false]),
        ],
    );
    for number in [0, 3, 4, 2_147_483_648, 4_294_967_295] {
        let found = dcel.get_vertex(v(number));
        let found = found.map(|vertex| (vertex.index(), *vertex.data()));
        let wanted = (number < 4).then_some((number, number as i64));
        assert_eq!(found, wanted, "vertex {number}");
    }
    // Vertex 3 is given up with edges 3, 4 and 5 and faces 1, 2 and 3, and face 4 fills the hole.
    carry_out(&mut dcel, "isolate 3 1 3 5");
    check_lent(
        &dcel,
        &[
            (1, [true, true, false]),
            (2, [true, true, false]),
            (3, [true, false, false]),
            (4, [true, false, true]),
            (5, [true, false, false]),
            (6, [false, false, false]),
            (12, [false, false, false]),
            (4_294_967_295, [false, false, false]),
        ],
    );
}

/// Each mesh has triangles alone, so its edges are three times its vertices, minus three, minus the half edges of its hull.
#[test]
fn triangles_are_counted_by_their_hull() {
    for (lines, [edges, vertices, hull]) in [
        ("triangle 0 1 2", [3, 3, 3]),
        (CUT, [6, 4, 3]),
        (SPLIT, [9, 5, 3]),
        ("triangle 0 1 2\nappend 3\noutside 0 3", [5, 4, 4]),
    ] {
        let dcel = grown(lines);
        let with_edge = dcel.vertices().filter(|it| it.out_edge().is_some());
        let found = [
            dcel.live_undirected_edges().count(),
            with_edge.count(),
            HullIterator::new(&dcel).count(),
        ];
        assert_eq!(found, [edges, vertices, hull], "{lines}");
        assert_eq!(edges + 3 + hull, 3 * vertices, "{lines}");
    }
}

#[test]
fn each_half_edge_is_an_out_edge_of_one_vertex() {
    for (lines, wanted) in [
        (CUT, 12),
        (SPLIT, 18),
        ("triangle 0 1 2\nappend 3\nhalf 0 3", 10),
        (
            "append 0\nappend 1\nsetup 0 1\nappend 2\nline 0 2\nclose 0",
            6,
        ),
    ] {
        let dcel = grown(lines);
        let together: usize = dcel.vertices().map(|it| it.out_edges().count()).sum();
        assert_eq!((together, dcel.num_directed_edges()), (wanted, wanted));
    }
}
