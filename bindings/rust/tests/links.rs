//! Links and anchors that edits leave.

#[path = "common/lines.rs"]
mod lines;

use dcel::handles::*;
use dcel::operations::*;
use dcel::{Dcel, RemovalState};
use lines::*;

/// The links of a triangle.
const TRIANGLE: LinksRow<'_> = (&[&[0, 2, 4], &[1, 5, 3]], &[0, 1, 1, 2, 2, 0]);

/// The links of a triangle that vertex 3 cuts into three.
const CUT_TRIANGLE: LinksRow<'_> = (
    &[&[0, 2, 4], &[1, 6, 11], &[5, 8, 7], &[3, 10, 9]],
    &[0, 1, 1, 2, 2, 0, 0, 3, 2, 3, 1, 3],
);

/// The links of a cut triangle whose edge 3 was flipped once.
const FLIPPED_ONCE: LinksRow<'_> = (
    &[&[0, 2, 4], &[6, 8, 11], &[1, 5, 7], &[3, 10, 9]],
    &[0, 1, 1, 2, 2, 0, 1, 2, 2, 3, 1, 3],
);

/// The links of a cut triangle whose edge 3 was flipped twice.
const FLIPPED_TWICE: LinksRow<'_> = (
    &[&[0, 2, 4], &[5, 8, 6], &[1, 7, 11], &[3, 10, 9]],
    &[0, 1, 1, 2, 2, 0, 3, 0, 2, 3, 1, 3],
);

/// Three times.
const FLIPPED_THRICE: LinksRow<'_> = (
    &[&[0, 2, 4], &[1, 5, 6], &[7, 8, 11], &[3, 10, 9]],
    &[0, 1, 1, 2, 2, 0, 2, 1, 2, 3, 1, 3],
);

/// The links of a cut triangle whose edge 0, on the outer face, was flipped.
const FLIPPED_OUTSIDE: LinksRow<'_> = (
    &[&[0, 11, 2], &[1, 4, 6], &[5, 8, 7], &[3, 10, 9]],
    &[2, 3, 1, 2, 2, 0, 0, 3, 2, 3, 1, 3],
);

/// Lines, the number of vertices and the links then, and whether `sanity_check` is to hold.
const GROWN: [(&str, usize, LinksRow<'_>, bool); 19] = [
    (LINE, 4, (&[&[0, 5, 4, 1, 3, 2]], &[0, 1, 2, 0, 3, 1]), true),
    (CUT, 4, CUT_TRIANGLE, true),
    // A triangle with another one beside half edge 0, outside, and beside half edge 1, inside.
    (
        "triangle 0 1 2\nappend 3\noutside 0 3",
        4,
        (
            &[&[2, 4, 9, 7], &[1, 5, 3], &[0, 6, 8]],
            &[0, 1, 1, 2, 2, 0, 1, 3, 3, 0],
        ),
        true,
    ),
    (
        "triangle 0 1 2\nappend 3\noutside 1 3",
        4,
        (
            &[&[0, 2, 4], &[3, 9, 7, 5], &[1, 6, 8]],
            &[0, 1, 1, 2, 2, 0, 0, 3, 3, 1],
        ),
        true,
    ),
    // A triangle and a line with a face closed outside.
    (
        "triangle 0 1 2\nclose 0",
        3,
        (
            &[&[4, 7], &[1, 5, 3], &[0, 2, 6]],
            &[0, 1, 1, 2, 2, 0, 2, 0],
        ),
        true,
    ),
    (
        "append 0\nappend 1\nsetup 0 1\nappend 2\nextend 1 2\nclose 0",
        3,
        (&[&[1, 5, 2], &[0, 3, 4]], &[0, 1, 2, 1, 2, 0]),
        true,
    ),
    // A triangle whose half edge 0 vertex 3 splits, outside alone and on both sides.
    (
        "triangle 0 1 2\nappend 3\nhalf 0 3",
        4,
        (
            &[&[0, 7, 4], &[1, 5, 3, 9], &[2, 6, 8]],
            &[0, 3, 1, 2, 2, 0, 2, 3, 3, 1],
        ),
        true,
    ),
    (
        "triangle 0 1 2\nappend 3\nsplit 0 3",
        4,
        (
            &[&[0, 11, 4], &[1, 5, 6], &[3, 8, 7], &[2, 10, 9]],
            &[0, 3, 1, 2, 2, 0, 2, 3, 1, 3, 2, 3],
        ),
        true,
    ),
    // Four flips of an edge go round.
    (
        "triangle 0 1 2\nappend 3\ninsert 3 1\nflip 3",
        4,
        FLIPPED_ONCE,
        true,
    ),
    (
        "triangle 0 1 2\nappend 3\ninsert 3 1\nflip 3\nflip 3",
        4,
        FLIPPED_TWICE,
        true,
    ),
    (
        "triangle 0 1 2\nappend 3\ninsert 3 1\nflip 3\nflip 3\nflip 3",
        4,
        FLIPPED_THRICE,
        true,
    ),
    (
        "triangle 0 1 2\nappend 3\ninsert 3 1\nflip 3\nflip 3\nflip 3\nflip 3",
        4,
        CUT_TRIANGLE,
        true,
    ),
    (
        "triangle 0 1 2\nappend 3\ninsert 3 1\nflip 0",
        4,
        FLIPPED_OUTSIDE,
        true,
    ),
    // One call after another, of one kind. The meshes need not be triangulated.
    (
        "append 0\nappend 1\nappend 2\nappend 3\nappend 4\nappend 5\nsetup 0 1\nextend 1 2\nextend 2 3\nextend 3 4\nextend 4 5",
        6,
        (
            &[&[0, 3, 5, 7, 9, 8, 6, 4, 2, 1]],
            &[0, 1, 2, 1, 3, 2, 4, 3, 5, 4],
        ),
        false,
    ),
    (
        "append 0\nappend 1\nappend 2\nappend 3\nappend 4\nappend 5\nsetup 0 1\nline 0 2\nline 1 3\nline 2 4\nline 5 5",
        6,
        (
            &[&[0, 2, 6, 7, 3, 1, 9, 4, 5, 8]],
            &[3, 2, 2, 4, 5, 0, 4, 1, 5, 3],
        ),
        false,
    ),
    (
        "append 0\nappend 1\nappend 2\nappend 3\nappend 4\nappend 5\nsetup 0 1\nextend 1 2\nextend 2 3\nextend 3 4\nextend 4 5\nclose 0\nclose 5\nclose 2\nclose 6",
        6,
        (
            &[
                &[11, 13, 9, 8, 17, 15],
                &[0, 3, 10],
                &[5, 7, 12],
                &[2, 1, 14],
                &[6, 4, 16],
            ],
            &[0, 1, 2, 1, 3, 2, 4, 3, 5, 4, 2, 0, 4, 2, 0, 2, 2, 4],
        ),
        false,
    ),
    (
        "triangle 0 1 2\nappend 3\nappend 4\nappend 5\noutside 0 3\noutside 1 4\noutside 7 5",
        6,
        (
            &[
                &[2, 4, 9, 17, 15],
                &[3, 13, 11, 5],
                &[0, 6, 8],
                &[1, 10, 12],
                &[7, 14, 16],
            ],
            &[0, 1, 1, 2, 2, 0, 1, 3, 3, 0, 0, 4, 4, 1, 1, 5, 5, 3],
        ),
        false,
    ),
    (
        "triangle 0 1 2\nappend 3\nappend 4\nappend 5\nhalf 0 3\nhalf 4 4\nhalf 8 5",
        6,
        (
            &[
                &[4, 11, 7],
                &[1, 13, 5, 3, 17, 9],
                &[6, 8, 15],
                &[0, 10, 12],
                &[2, 14, 16],
            ],
            &[0, 3, 1, 2, 2, 4, 2, 3, 3, 5, 3, 4, 4, 0, 2, 5, 5, 1],
        ),
        false,
    ),
    (
        "triangle 0 1 2\nappend 3\nappend 4\nsplit 0 3\nsplit 7 4",
        5,
        (
            &[
                &[0, 11, 4],
                &[1, 12, 6],
                &[7, 17, 8],
                &[2, 10, 9],
                &[5, 14, 13],
                &[3, 16, 15],
            ],
            &[0, 3, 1, 2, 2, 0, 4, 3, 1, 3, 2, 3, 0, 4, 2, 4, 1, 4],
        ),
        false,
    ),
];

#[test]
fn links_are_left() {
    for (lines, vertices, links, is_checked) in GROWN {
        let dcel = grown(lines);
        assert_eq!(dcel.num_vertices(), vertices, "{lines}");
        check_links(&dcel, links, lines);
        assert!(!is_checked || dcel.sanity_check(), "{lines}");
    }
}

/// Lines, and then the anchors of the vertices and of the faces.
const ANCHORED: [(&str, &[usize], &[usize]); 18] = [
    ("append 0\nappend 1\nsetup 1 0", &[1, 0], &[0]),
    (
        "append 0\nappend 1\nsetup 0 1\nappend 2\nextend 1 2\nappend 3\nextend 0 3",
        &[0, 1, 2, 4],
        &[0],
    ),
    ("triangle 0 1 2", &[0, 2, 4], &[0, 1]),
    (CUT, &[0, 2, 4, 7], &[0, 1, 5, 3]),
    (
        "append 0\nappend 1\nsetup 0 1\nappend 2\nline 0 2",
        &[0, 3, 2],
        &[0],
    ),
    (
        "append 0\nappend 1\nsetup 0 1\nappend 2\nline 0 2\nappend 3\nline 1 3",
        &[5, 3, 2, 4],
        &[0],
    ),
    (
        "append 0\nappend 1\nsetup 0 1\nappend 2\nline 0 2\nclose 0",
        &[0, 3, 2],
        &[5, 4],
    ),
    ("triangle 0 1 2\nclose 0", &[0, 2, 4], &[7, 1, 6]),
    (
        "append 0\nappend 1\nsetup 0 1\nappend 2\noutside 1 2",
        &[0, 1, 4],
        &[5, 1],
    ),
    (
        "triangle 0 1 2\nappend 3\noutside 0 3",
        &[0, 2, 4, 8],
        &[9, 1, 0],
    ),
    (
        "triangle 0 1 2\nappend 3\noutside 1 3",
        &[0, 2, 4, 8],
        &[0, 9, 1],
    ),
    (
        "triangle 0 1 2\nappend 3\noutside 1 3\nappend 4\noutside 7 4",
        &[0, 2, 4, 8, 12],
        &[0, 13, 1, 7],
    ),
    (
        "triangle 0 1 2\nappend 3\nhalf 0 3",
        &[0, 9, 4, 8],
        &[0, 1, 8],
    ),
    (
        "triangle 0 1 2\nappend 3\nhalf 5 3",
        &[0, 2, 9, 8],
        &[0, 5, 8],
    ),
    (
        "triangle 0 1 2\nappend 3\nsplit 0 3",
        &[0, 8, 4, 1],
        &[0, 6, 8, 10],
    ),
    (
        "triangle 0 1 2\nappend 3\nsplit 3 3",
        &[0, 8, 4, 2],
        &[6, 3, 8, 10],
    ),
    // Flips move anchors on.
    (
        "triangle 0 1 2\nappend 3\ninsert 3 1\nflip 3",
        &[5, 2, 4, 11],
        &[0, 6, 7, 3],
    ),
    (
        "triangle 0 1 2\nappend 3\ninsert 3 1\nflip 0",
        &[6, 2, 4, 7],
        &[0, 1, 5, 3],
    ),
];

#[test]
fn anchors_are_left() {
    for (lines, vertices, faces) in ANCHORED {
        check_anchors(&grown(lines), vertices, faces, lines);
    }
}

/// The anchor of a vertex, and its datum.
type Vertex = (Option<usize>, i64);

/// Lines that make a mesh, its links and its vertices, and whether it is sound; then swaps, one after another, with the numbers of these
/// vertices after each.
struct Swapped {
    lines: &'static str,
    links: LinksRow<'static>,
    vertices: &'static [Vertex],
    is_sound: bool,
    swaps: &'static [(&'static str, &'static [usize])],
}

const CUT_VERTICES: [Vertex; 4] = [(Some(0), 0), (Some(2), 1), (Some(4), 2), (Some(7), 3)];

/// The vertices of a triangle, and one beside it.
const TRIANGLE_VERTICES: [Vertex; 4] = [(Some(0), 0), (Some(2), 1), (Some(4), 2), (None, 3)];

const SWAPPED: [Swapped; 6] = [
    Swapped {
        lines: CUT,
        links: CUT_TRIANGLE,
        vertices: &CUT_VERTICES,
        is_sound: true,
        swaps: &[
            ("swap 0 1", &[1, 0, 2, 3]),
            ("swap 0 2", &[1, 2, 0, 3]),
            ("swap 1 2", &[2, 1, 0, 3]),
            ("swap 3 2", &[3, 1, 0, 2]),
            ("swap 3 0", &[0, 1, 3, 2]),
            ("swap 0 0", &[0, 1, 3, 2]),
            ("swap 1 1", &[0, 1, 3, 2]),
        ],
    },
    // A swap is undone by another.
    Swapped {
        lines: CUT,
        links: CUT_TRIANGLE,
        vertices: &CUT_VERTICES,
        is_sound: true,
        swaps: &[
            ("swap 0 1", &[1, 0, 2, 3]),
            ("swap 0 1", &[0, 1, 2, 3]),
            ("swap 1 0", &[1, 0, 2, 3]),
            ("swap 1 0", &[0, 1, 2, 3]),
            ("swap 2 3", &[0, 1, 3, 2]),
            ("swap 2 3", &[0, 1, 2, 3]),
            ("swap 3 0", &[3, 1, 2, 0]),
            ("swap 3 0", &[0, 1, 2, 3]),
            ("swap 2 2", &[0, 1, 2, 3]),
            ("swap 2 2", &[0, 1, 2, 3]),
        ],
    },
    // A vertex without an edge.
    Swapped {
        lines: "triangle 0 1 2\nappend 3",
        links: TRIANGLE,
        vertices: &TRIANGLE_VERTICES,
        is_sound: false,
        swaps: &[("swap 0 3", &[3, 1, 2, 0])],
    },
    Swapped {
        lines: "triangle 0 1 2\nappend 3",
        links: TRIANGLE,
        vertices: &TRIANGLE_VERTICES,
        is_sound: false,
        swaps: &[("swap 3 0", &[3, 1, 2, 0])],
    },
    // The ends of an edge.
    Swapped {
        lines: "append 0\nappend 1\nsetup 0 1",
        links: (&[&[0, 1]], &[0, 1]),
        vertices: &[(Some(0), 0), (Some(1), 1)],
        is_sound: true,
        swaps: &[("swap 0 1", &[1, 0])],
    },
    // Two vertices without an edge.
    Swapped {
        lines: "append 7\nappend 8",
        links: (&[&[]], &[]),
        vertices: &[(None, 7), (None, 8)],
        is_sound: false,
        swaps: &[("swap 1 0", &[1, 0])],
    },
];

#[test]
fn swapped_vertices_keep_their_anchors_and_data() {
    for row in SWAPPED {
        let mut dcel = grown(row.lines);
        for (swap, numbers) in row.swaps {
            reply(&mut dcel, swap);
            let (words, origins) = row.links;
            let origins: Vec<usize> = origins.iter().map(|origin| numbers[*origin]).collect();
            check_links(&dcel, (words, &origins), swap);
            assert_eq!(dcel.num_vertices(), row.vertices.len());
            for (number, (anchor, datum)) in numbers.iter().zip(row.vertices) {
                let vertex = FixedVertexHandle::new(*number);
                assert_eq!(out_edges(&dcel)[*number], *anchor, "{swap}");
                assert_eq!(dcel.vertex_data(vertex), datum, "{swap}");
                assert_eq!(dcel.is_unconnected(vertex), anchor.is_none(), "{swap}");
            }
            assert_eq!(dcel.sanity_check(), row.is_sound, "{swap}");
        }
    }
}

/// The line 0, 1, 2.
const EXTENDED: &str = "append 0\nappend 1\nsetup 0 1\nappend 2\nextend 1 2";

/// The line 4, 2, 0, 1, 3.
const LONG_LINE: &str = "append 0\nappend 1\nsetup 0 1\nappend 2\nextend 0 2\nappend 3\nextend 1 3\n\
    append 4\nextend 2 4";

/// Lines that make a path, one that removes a vertex with its reply, the links that are left, and the anchors of the vertices and of the
/// outer face.
type Shortened = (
    &'static str,
    (&'static str, &'static str),
    LinksRow<'static>,
    &'static [usize],
    &'static [usize],
);

const SHORTENED: [Shortened; 6] = [
    // An end, whose edge is no anchor of another vertex.
    (
        LINE,
        ("degenerate 2", "removed 2 moved 3"),
        (&[&[0, 3, 2, 1]], &[0, 1, 2, 1]),
        &[0, 1, 2],
        &[0],
    ),
    // An end whose edge is the anchor of the next vertex and of the outer face.
    (
        EXTENDED,
        ("degenerate 0", "removed 0 moved 2"),
        (&[&[0, 1]], &[0, 1]),
        &[0, 1],
        &[1],
    ),
    // The last vertex.
    (
        EXTENDED,
        ("degenerate 2", "removed 2"),
        (&[&[0, 1]], &[0, 1]),
        &[0, 1],
        &[0],
    ),
    // A vertex between two others, whose other edge joins them.
    (
        "append 0\nappend 1\nsetup 0 1\nappend 2\nline 0 2",
        ("degenerate 2", "removed 2"),
        (&[&[0, 1]], &[0, 1]),
        &[0, 1],
        &[0],
    ),
    (
        LINE,
        ("degenerate 0", "removed 0 moved 3"),
        (&[&[0, 3, 2, 1]], &[2, 1, 0, 1]),
        &[2, 1, 0],
        &[0],
    ),
    // The path goes on beyond both neighbours.
    (
        LONG_LINE,
        ("degenerate 0", "removed 0 moved 4"),
        (&[&[0, 5, 4, 1, 3, 2]], &[2, 1, 0, 2, 3, 1]),
        &[2, 1, 0, 4],
        &[0],
    ),
];

#[test]
fn vertices_of_paths_are_removed() {
    for (lines, (line, wanted), links, vertices, faces) in SHORTENED {
        let mut dcel = grown(lines);
        assert_eq!(reply(&mut dcel, line), wanted);
        check_links(&dcel, links, line);
        assert!(dcel.sanity_check());
        check_anchors(&dcel, vertices, faces, line);
    }
}

#[test]
fn the_last_vertices_are_removed() {
    for [first, last] in [
        [
            ("degenerate 0", "removed 0 moved 1"),
            ("degenerate 0", "removed 1"),
        ],
        [("degenerate 1", "removed 1"), ("degenerate 0", "removed 0")],
    ] {
        let mut dcel = grown("append 0\nappend 1\nsetup 0 1");
        assert_eq!(reply(&mut dcel, first.0), first.1);
        assert_eq!(
            (out_edges(&dcel), adjacent_edges(&dcel)),
            (vec![None], vec![None])
        );
        assert_eq!(dcel.num_undirected_edges(), 0);
        assert!(!dcel.can_remove_degenerate(FixedVertexHandle::new(1)));
        assert_eq!(reply(&mut dcel, last.0), last.1);
        assert_eq!(
            (out_edges(&dcel), adjacent_edges(&dcel)),
            (vec![], vec![None])
        );
        assert!(!dcel.can_remove_degenerate(FixedVertexHandle::new(0)));
    }
}

/// Lines that make a mesh, and one that opens a removal: the edges and faces that it gives up, the edges that it puts in, and the least
/// edge that counts as new; the links and the anchors of the vertices while it is open; the links once it is cleaned up, and the vertex
/// that is left then, if there is one.
struct Removal {
    lines: &'static str,
    opener: &'static str,
    edges: &'static [usize],
    faces: &'static [usize],
    new_edges: &'static [usize],
    smallest_new_edge: usize,
    opened: LinksRow<'static>,
    anchors: &'static [Option<usize>],
    cleaned: LinksRow<'static>,
    vertex: Option<usize>,
}

const CUT_HOLE: LinksRow<'_> = (
    &[&[0, 2, 4], &[], &[], &[], &[1, 5, 3]],
    &[0, 1, 1, 2, 2, 0, 0, 0, 0, 0, 0, 0],
);

const REMOVALS: [Removal; 7] = [
    Removal {
        lines: CUT,
        opener: "isolate 3 1 3 5",
        edges: &[3, 4, 5],
        faces: &[2, 3, 1],
        new_edges: &[],
        smallest_new_edge: 6,
        opened: CUT_HOLE,
        anchors: &[Some(5), Some(1), Some(3), None],
        cleaned: TRIANGLE,
        vertex: Some(3),
    },
    // A hole of four half edges, which a new edge cuts. What is left is as if edge 3 of a cut
    // triangle had been flipped twice.
    Removal {
        lines: SPLIT,
        opener: "isolate 4 1 11 8 5",
        edges: &[3, 6, 7, 8],
        faces: &[2, 4, 5, 1],
        new_edges: &[9],
        smallest_new_edge: 9,
        opened: (
            &[
                &[0, 2, 4],
                &[],
                &[],
                &[3, 10, 9],
                &[],
                &[],
                &[5, 8, 18],
                &[1, 19, 11],
            ],
            &[0, 1, 1, 2, 2, 0, 0, 0, 2, 3, 1, 3, 0, 0, 0, 0, 0, 0, 3, 0],
        ),
        anchors: &[Some(19), Some(1), Some(8), Some(11), None],
        cleaned: FLIPPED_TWICE,
        vertex: Some(4),
    },
    Removal {
        lines: CUT,
        opener: "remesh 1 3 5 / 5 4 3 / 1 2 3",
        edges: &[5, 4, 3],
        faces: &[1, 2, 3],
        new_edges: &[],
        smallest_new_edge: 6,
        opened: CUT_HOLE,
        anchors: &[Some(5), Some(1), Some(3), None],
        cleaned: TRIANGLE,
        vertex: Some(3),
    },
    Removal {
        lines: CUT,
        opener: "strip 6 9 4",
        edges: &[0, 5, 1],
        faces: &[1, 3],
        new_edges: &[],
        smallest_new_edge: 0,
        opened: (
            &[&[4, 6, 9], &[], &[5, 8, 7], &[]],
            &[0, 0, 0, 0, 2, 0, 0, 3, 2, 3, 0, 0],
        ),
        anchors: &[Some(6), None, Some(4), Some(9)],
        cleaned: (&[&[0, 3, 4], &[1, 5, 2]], &[0, 3, 2, 3, 2, 0]),
        vertex: Some(1),
    },
    // Regions of one face, of two and of three: no vertex is left.
    Removal {
        lines: "triangle 0 1 2",
        opener: "remesh 1 3 5 / / 1",
        edges: &[],
        faces: &[1],
        new_edges: &[],
        smallest_new_edge: 3,
        opened: (&[&[0, 2, 4], &[], &[1, 5, 3]], &[0, 1, 1, 2, 2, 0]),
        anchors: &[Some(5), Some(1), Some(3)],
        cleaned: TRIANGLE,
        vertex: None,
    },
    Removal {
        lines: CUT,
        opener: "remesh 1 11 8 5 / 3 / 1 2",
        edges: &[3],
        faces: &[1, 2],
        new_edges: &[6],
        smallest_new_edge: 6,
        opened: (
            &[&[0, 2, 4], &[], &[], &[3, 10, 9], &[5, 8, 12], &[1, 13, 11]],
            &[0, 1, 1, 2, 2, 0, 0, 0, 2, 3, 1, 3, 3, 0],
        ),
        anchors: &[Some(13), Some(1), Some(8), Some(11)],
        cleaned: FLIPPED_TWICE,
        vertex: None,
    },
    Removal {
        lines: CUT,
        opener: "remesh 1 11 10 3 5 / 3 4 / 1 2 3",
        edges: &[3, 4],
        faces: &[1, 2, 3],
        new_edges: &[6, 7],
        smallest_new_edge: 6,
        opened: (
            &[
                &[0, 2, 4],
                &[],
                &[],
                &[],
                &[3, 12, 5],
                &[10, 14, 13],
                &[1, 15, 11],
            ],
            &[0, 1, 1, 2, 2, 0, 0, 0, 0, 0, 1, 3, 1, 0, 3, 0],
        ),
        anchors: &[Some(15), Some(1), Some(3), Some(11)],
        cleaned: (
            &[&[0, 2, 4], &[3, 6, 5], &[7, 10, 8], &[1, 9, 11]],
            &[0, 1, 1, 2, 2, 0, 1, 0, 3, 0, 1, 3],
        ),
        vertex: None,
    },
];

/// The numbers of elements.
fn numbers<Type: DelaunayElementType>(list: &[FixedHandleImpl<Type, InnerTag>]) -> Vec<usize> {
    list.iter().map(|handle| handle.index()).collect()
}

/// Opens the removal of a row.
fn open(dcel: &mut Dcel<i64>, opener: &str) -> IsolateVertexResult {
    let half = |list: &[usize]| -> Vec<_> {
        list.iter()
            .copied()
            .map(FixedDirectedEdgeHandle::new)
            .collect()
    };
    let edges = |list: &[usize]| -> Vec<_> {
        list.iter()
            .copied()
            .map(FixedUndirectedEdgeHandle::new)
            .collect()
    };
    let faces =
        |list: &[usize]| -> Vec<_> { list.iter().copied().map(FixedFaceHandle::new).collect() };
    match opener.split_once(' ').unwrap().0 {
        "isolate" => {
            let given = &lists(opener, 0)[0];
            isolate_vertex_and_fill_hole(dcel, &half(&given[1..]), FixedVertexHandle::new(given[0]))
        }
        "remesh" => {
            let given = lists(opener, 0);
            remesh_edge_ring(dcel, &half(&given[0]), &edges(&given[1]), &faces(&given[2]))
        }
        _ => disconnect_edge_strip(dcel, &half(&lists(opener, 0)[0])),
    }
    .unwrap()
}

/// Checks what an opener returned, and the mesh while the removal is open.
fn check_open(dcel: &Dcel<i64>, opened: &IsolateVertexResult, row: &Removal) {
    let what = row.opener;
    assert_eq!(numbers(&opened.edges_to_remove), row.edges, "{what}");
    assert_eq!(numbers(&opened.faces_to_remove), row.faces, "{what}");
    assert_eq!(numbers(&opened.new_edges), row.new_edges, "{what}");
    for edge in dcel.undirected_edges() {
        let is_new = edge.index() >= row.smallest_new_edge;
        assert_eq!(opened.is_new_edge(edge.fix()), is_new, "{what}");
        let is_given_up = row.edges.contains(&edge.index());
        assert_eq!(dcel.is_live_edge(edge.fix()), !is_given_up, "{what}");
    }
    for face in dcel.fixed_faces() {
        let is_given_up = row.faces.contains(&face.index());
        assert_eq!(dcel.is_live_face(face), !is_given_up, "{what}");
    }
    for vertex in dcel.fixed_vertices() {
        let is_given_up = row.vertex == Some(vertex.index());
        assert_eq!(dcel.is_live_vertex(vertex), !is_given_up, "{what}");
    }
    assert_eq!(dcel.removal_state(), RemovalState::Isolated, "{what}");
    assert!(!dcel.sanity_check(), "{what}");
    check_links(dcel, row.opened, what);
    assert_eq!(out_edges(dcel), row.anchors, "{what}");
}

#[test]
fn removals_are_opened_and_cleaned_up() {
    for row in REMOVALS {
        let mut dcel = grown(row.lines);
        let mut opened = open(&mut dcel, row.opener);
        check_open(&dcel, &opened, &row);
        assert_eq!(dcel.is_listed(&opened), Ok(true));
        cleanup_isolated_vertex(&mut dcel, &mut opened).unwrap();
        assert_eq!(dcel.is_listed(&opened), Ok(false));
        let state = match row.vertex {
            Some(_) => RemovalState::Cleaned,
            None => RemovalState::Closed,
        };
        assert_eq!(dcel.removal_state(), state, "{}", row.opener);
        check_links(&dcel, row.cleaned, row.opener);
    }
}
