//! Meshes made by the lines of docs/LINES.md, and what of them lines don't say.

#![allow(dead_code, reason = "each test uses some of it")]

#[path = "../../examples/lines/answer.rs"]
mod answer;
#[path = "../../examples/lines/read.rs"]
mod read;

use dcel::Dcel;
use dcel::handles::*;

/// A triangle that vertex 3 cuts into three.
pub const CUT: &str = "triangle 0 1 2\nappend 3\ninsert 3 1";

/// The same with vertex 4 on the edge from vertex 0 to vertex 3.
pub const SPLIT: &str = "triangle 0 1 2\nappend 3\ninsert 3 1\nappend 4\nsplit 6 4";

/// The line 2, 0, 1, 3.
pub const LINE: &str = "append 0\nappend 1\nsetup 0 1\nappend 2\nextend 0 2\nappend 3\nextend 1 3";

/// Carries out a line, and returns its reply.
pub fn reply(dcel: &mut Dcel<i64>, line: &str) -> String {
    let (word, given) = read::read(line.as_bytes()).unwrap_or_else(|| panic!("bad line: {line}"));
    answer::answer(dcel, word, given).unwrap_or_else(|why| panic!("{line}: {why}"))
}

/// Carries out lines, none of which is refused.
pub fn carry_out(dcel: &mut Dcel<i64>, lines: &str) {
    for line in lines.lines() {
        reply(dcel, line);
    }
}

/// A mesh made by lines.
pub fn grown(lines: &str) -> Dcel<i64> {
    let mut dcel = Dcel::default();
    carry_out(&mut dcel, lines);
    dcel
}

/// The lists of a line, each of which begins at the line or behind ` /`, without the numbers before them.
pub fn lists(line: &str, numbers: usize) -> Vec<Vec<usize>> {
    let (_, lists) = line.split_once(' ').unwrap_or((line, ""));
    let mut lists: Vec<Vec<usize>> = lists
        .split('/')
        .map(|list| {
            let words = list.split_whitespace();
            words.map(|word| word.parse().unwrap()).collect()
        })
        .collect();
    lists[0].drain(..numbers);
    lists
}

/// The words of the faces, and the origins of the half edges. Half edges in no word are given up.
pub type LinksRow<'a> = (&'a [&'a [usize]], &'a [usize]);

/// Checks that the mesh has these links and no others.
#[track_caller]
pub fn check_links(dcel: &Dcel<i64>, (words, origins): LinksRow<'_>, what: &str) {
    let links = dcel.links();
    let half = FixedDirectedEdgeHandle::new;
    assert_eq!(dcel.num_faces(), words.len(), "faces: {what}");
    assert_eq!(
        dcel.num_directed_edges(),
        origins.len(),
        "half edges: {what}"
    );
    for (face, word) in words.iter().enumerate() {
        for (place, edge) in word.iter().enumerate() {
            let next = word[(place + 1) % word.len()];
            let entry = links.get(half(*edge)).unwrap();
            assert_eq!(
                [entry.next.index(), entry.origin.index(), entry.face.index()],
                [next, origins[*edge], face],
                "round half edge {edge}: {what}"
            );
            assert_eq!(links.prev(half(next)), half(*edge), "{what}");
        }
    }
    assert_eq!(
        links.directed_edges().count(),
        words.iter().map(|word| word.len()).sum::<usize>(),
        "live half edges: {what}"
    );
}

/// The anchors of the vertices.
pub fn out_edges(dcel: &Dcel<i64>) -> Vec<Option<usize>> {
    let anchors = dcel.fixed_vertices().map(|it| dcel.vertex_out_edge(it));
    anchors.map(|it| it.map(|edge| edge.index())).collect()
}

/// The anchors of the faces.
pub fn adjacent_edges(dcel: &Dcel<i64>) -> Vec<Option<usize>> {
    let anchors = dcel.fixed_faces().map(|it| dcel.face_adjacent_edge(it));
    anchors.map(|it| it.map(|edge| edge.index())).collect()
}

/// Checks that all vertices and faces have anchors, and these.
#[track_caller]
pub fn check_anchors(dcel: &Dcel<i64>, vertices: &[usize], faces: &[usize], what: &str) {
    let all = |anchors: &[usize]| anchors.iter().copied().map(Some).collect::<Vec<_>>();
    assert_eq!(out_edges(dcel), all(vertices), "{what}");
    assert_eq!(adjacent_edges(dcel), all(faces), "{what}");
}
