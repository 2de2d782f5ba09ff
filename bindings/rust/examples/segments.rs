//! Triangulates sets of points with segments between them, which it reads, and prints the lists of
//! each: for the comparison with exact checks.
//!
//! A set is a line with the numbers of points and of segments, and then as many lines with two
//! numbers each: coordinates, and places of points. Of segments that cross others it says so.

use dcel::delaunay::{ConstrainedDelaunayTriangulation, Point2};
use dcel::handles::FixedVertexHandle;
use std::error::Error;
use std::io::stdin;

type Triangulation = ConstrainedDelaunayTriangulation<Point2>;

fn main() -> Result<(), Box<dyn Error>> {
    let mut lines = stdin().lines();
    let mut read = || -> Result<Option<[i64; 2]>, Box<dyn Error>> {
        let Some(line) = lines.next().transpose()? else {
            return Ok(None);
        };
        let mut words = line.split(' ').map(str::parse);
        let [Some(first), Some(second)] = [words.next(), words.next()] else {
            return Err("a line has two numbers".into());
        };
        Ok(Some([first?, second?]))
    };
    while let Some([points, segments]) = read()? {
        let mut triangulation = Triangulation::new()?;
        let (mut vertices, mut places) = (Vec::new(), Vec::new());
        for place in 0..points as usize {
            let point = read()?.ok_or("a point is missing")?;
            let vertex = triangulation.insert(point.into())?;
            vertices.push(vertex);
            if vertex.index() == places.len() {
                places.push(place);
            }
        }
        let mut laid = Vec::new();
        for _ in 0..segments {
            let ends = read()?.ok_or("a segment is missing")?;
            let [from, to] = ends.map(|end| vertices[end as usize]);
            let can_add = triangulation.can_add_constraint(from, to);
            assert_eq!(triangulation.add_constraint(from, to).is_ok(), can_add);
            laid.push(u8::from(can_add));
        }
        print(&triangulation, &places, &laid);
    }
    Ok(())
}

/// Prints a list a line: which segments were added, triangles, those across from their corners,
/// edges, the hull counterclockwise, constraints, and how deep the triangles are. A vertex is named
/// by the first place of its point.
fn print(triangulation: &Triangulation, places: &[usize], laid: &[u8]) {
    let place = |vertex: FixedVertexHandle| places[vertex.index()];
    let (mut triangles, mut beside) = (Vec::new(), Vec::new());
    for face in triangulation.inner_faces() {
        triangles.push(face.vertices().map(|vertex| place(vertex.fix())));
        let [first, second, third] = face.adjacent_edges();
        let across = [second, third, first].map(|edge| edge.rev().face());
        beside.push(across.map(|face| face.fix().index() as i64 - 1));
    }
    let (mut edges, mut constraints) = (Vec::new(), Vec::new());
    for edge in triangulation.undirected_edges() {
        let ends = edge.vertices().map(|vertex| place(vertex.fix()));
        edges.push(ends);
        if triangulation.is_constraint_edge(edge.fix()) {
            constraints.push(ends);
        }
    }
    let hull = triangulation.convex_hull();
    let mut hull: Vec<_> = hull.map(|edge| place(edge.from().fix())).collect();
    hull.reverse();
    if triangulation.num_vertices() == 1 {
        hull.push(place(FixedVertexHandle::new(0)));
    }
    println!("{laid:?}\n{triangles:?}\n{beside:?}\n{edges:?}\n{hull:?}\n{constraints:?}");
    println!("{:?}", &triangulation.regions()[1..]);
}
