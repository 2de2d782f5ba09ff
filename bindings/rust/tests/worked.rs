//! Worked triangulations with constraints: where segments, points and removals are at their limits.

#[path = "common/plane.rs"]
mod plane;
#[path = "common/wanted.rs"]
mod wanted;

use dcel::delaunay::{
    ConstrainedDelaunayTriangulation as Triangulation, ConstraintError, LoadError, Point2,
    PositionInTriangulation as Position,
};
use dcel::handles::{FixedUndirectedEdgeHandle, FixedVertexHandle};
use wanted::{Wanted, check, check_cover, check_point};

/// Points by their coordinates, and two vertices by their numbers.
type Places<'a> = &'a [(i64, i64)];
type Ends = [usize; 2];

fn points_at(places: Places) -> Vec<Point2> {
    places.iter().map(|(x, y)| Point2::new(*x, *y)).collect()
}

/// Makes segments constraints, one after another, of points that are inserted one by one, so that
/// vertices have their numbers.
fn laid(places: Places, segments: &[Ends]) -> (Triangulation<Point2>, Wanted) {
    let (mut triangulation, mut wanted) = (Triangulation::new().unwrap(), Wanted::default());
    for point in points_at(places) {
        let vertex = triangulation.insert(point).unwrap();
        wanted.insert(point);
        assert_eq!(wanted.points[vertex.index()], point);
    }
    for ends in segments {
        add(&mut triangulation, &mut wanted, *ends);
    }
    (triangulation, wanted)
}

/// Makes a segment a constraint, and returns whether an edge is one that wasn't.
fn add(triangulation: &mut Triangulation<Point2>, wanted: &mut Wanted, ends: Ends) -> bool {
    let [from, to] = ends.map(FixedVertexHandle::new);
    assert!(triangulation.can_add_constraint(from, to), "{ends:?}");
    let is_new = triangulation.add_constraint(from, to).unwrap();
    assert_eq!(is_new, wanted.add(ends.map(|end| wanted.points[end])));
    check(triangulation, wanted);
    is_new
}

/// A kite, whose short diagonal is Delaunay: from (4, 2) to (4, -2).
const KITE: Places = &[(8, 0), (0, 0), (4, 2), (4, -2)];

const LINE: Places = &[(0, 0), (8, 4), (16, 8), (24, 12)];

/// The points of a grid. The vertex (x, y) has the number 6 * x + y.
fn grid() -> Vec<(i64, i64)> {
    (0..36).map(|it| (it / 6, it % 6)).collect()
}

/// Segments of the grid, how many edges are constraints after each, and whether one is new.
const OF_A_GRID: [(Ends, usize, bool); 10] = [
    // Along the hull, and the same again the other way, and in part.
    ([0, 30], 5, true),
    ([30, 0], 5, false),
    ([6, 18], 5, false),
    // A diagonal of the grid, and one from (0, 1) to (4, 5) beside it, in four parts.
    ([0, 35], 10, true),
    ([1, 29], 14, true),
    // Between vertices.
    ([6, 33], 15, true),
    ([12, 31], 16, true),
    ([2, 17], 17, true),
    ([3, 11], 18, true),
    // A vertex to itself.
    ([7, 7], 18, false),
];

#[test]
fn segments_are_constraints() {
    let (mut triangulation, mut wanted) = laid(&grid(), &[]);
    for (ends, count, is_new) in OF_A_GRID {
        assert_eq!(add(&mut triangulation, &mut wanted, ends), is_new);
        assert_eq!(triangulation.num_constraints(), count, "{ends:?}");
    }
    for [from, to] in [[5, 30], [7, 2], [31, 16], [4, 34]] {
        let [from, to] = [from, to].map(FixedVertexHandle::new);
        assert!(!triangulation.can_add_constraint(from, to));
    }
    free_all(&mut triangulation, &mut wanted);
    // The long diagonal of a kite becomes an edge, is freed again, and then the short one.
    let (mut triangulation, mut wanted) = laid(KITE, &[]);
    for (ends, other) in [([0, 1], [2, 3]), ([2, 3], [0, 1])] {
        assert!(add(&mut triangulation, &mut wanted, ends));
        let [from, to] = other.map(FixedVertexHandle::new);
        assert!(!triangulation.can_add_constraint(from, to));
        free_all(&mut triangulation, &mut wanted);
    }
    let (triangulation, _) = laid(LINE, &[[3, 1], [0, 2], [1, 2]]);
    assert_eq!(triangulation.num_constraints(), 3);
}

/// Frees all edges, of which none may be left out.
fn free_all(triangulation: &mut Triangulation<Point2>, wanted: &mut Wanted) {
    for edge in (0..triangulation.num_undirected_edges()).map(FixedUndirectedEdgeHandle::new) {
        let was = triangulation.is_constraint_edge(edge);
        assert_eq!(triangulation.remove_constraint_edge(edge), Ok(was));
    }
    wanted.constraints.clear();
    check(triangulation, wanted);
}

#[test]
fn a_square_and_its_hole_are_regions() {
    let borders = [
        [7, 10],
        [10, 28],
        [28, 25],
        [25, 7],
        [14, 15],
        [15, 21],
        [21, 20],
        [20, 14],
    ];
    let (triangulation, _) = laid(&grid(), &borders);
    let regions = triangulation.regions();
    let faces = [0, 1, 2].map(|depth| regions.iter().filter(|it| **it == depth).count());
    assert_eq!(faces, [33, 16, 2]);
}

/// A triangle, and a smaller one inside, turned.
const RING: Places = &[
    (100, 0),
    (-50, 87),
    (-50, -87),
    (20, -3),
    (-7, 19),
    (-13, -15),
];

/// The sides of both, and the edges between them. A walk to the middle that comes to a triangle between
/// the two crosses to the next one of these, and so goes round and round.
const RING_SIDES: [Ends; 12] = [
    [0, 1],
    [1, 2],
    [2, 0],
    [3, 4],
    [4, 5],
    [5, 3],
    [0, 3],
    [3, 1],
    [1, 4],
    [4, 2],
    [2, 5],
    [5, 0],
];

#[test]
fn points_split_constraints_or_leave_them() {
    let grid = grid();
    let rows: [(Places, &[Ends], Places, usize); 5] = [
        // On a constraint, on a part of it, and where vertices are already.
        (KITE, &[[0, 1]], &[(3, 0), (6, 0), (4, 2), (3, 0)], 3),
        // Inside, on an edge that is none, and outside.
        (KITE, &[[0, 1]], &[(4, 1), (2, 1), (20, 9), (-9, 0)], 1),
        // On a line, beyond its end, and beside it.
        (LINE, &[[2, 0]], &[(4, 2), (40, 20), (7, 9), (12, 6)], 4),
        // Beyond a diagonal and an edge of the hull, so that many triangles close the hull.
        (&grid, &[[0, 35], [0, 1]], &[(-50, 1), (60, 60)], 6),
        (RING, &RING_SIDES, &[(400, 10), (0, 0)], 12),
    ];
    for (places, segments, more, constraints) in rows {
        let (mut triangulation, mut wanted) = laid(places, segments);
        for point in points_at(more) {
            let vertex = triangulation.insert(point).unwrap();
            wanted.insert(point);
            assert_eq!(wanted.points[vertex.index()], point);
            check(&triangulation, &wanted);
        }
        assert_eq!(triangulation.num_constraints(), constraints, "{more:?}");
    }
}

#[test]
fn positions_are_told_apart() {
    type Located = (i64, i64, &'static str);
    let rows: [(Places, &[Ends], &[Located]); 5] = [
        (&[], &[], &[(3, 4, "nothing")]),
        (&[(3, 3)], &[], &[(3, 4, "nothing"), (3, 3, "vertex")]),
        (
            KITE,
            &[[0, 1]],
            &[
                (3, 0, "edge"),
                (2, 1, "edge"),
                (4, 1, "face"),
                (4, -1, "face"),
                (4, 2, "vertex"),
                (9, 0, "outside"),
                (0, 9, "outside"),
            ],
        ),
        (
            RING,
            &RING_SIDES,
            &[
                (0, 0, "face"),
                (40, 0, "face"),
                (0, 1, "face"),
                (1, 0, "face"),
                (-50, 0, "edge"),
                (20, -3, "vertex"),
                (400, 10, "outside"),
                (-2, 0, "face"),
            ],
        ),
        (
            LINE,
            &[[2, 0]],
            &[
                (16, 8, "vertex"),
                (2, 1, "edge"),
                (26, 13, "outside"),
                (3, 1, "outside"),
            ],
        ),
    ];
    for (places, segments, asked) in rows {
        let (triangulation, wanted) = laid(places, segments);
        for (x, y, kind) in asked {
            let point = Point2::new(*x, *y);
            check_point(&triangulation, &wanted, point);
            let found = match triangulation.locate(point) {
                Position::OnFace(_) => "face",
                Position::OnEdge(_) => "edge",
                Position::OnVertex(_) => "vertex",
                Position::OutsideOfConvexHull(_) => "outside",
                Position::NoTriangulation => "nothing",
            };
            assert_eq!(found, *kind, "{point:?}");
        }
    }
}

#[test]
fn vertices_go_with_their_constraints() {
    let (grid, hub) = (
        grid(),
        [(0, 0), (4, 0), (3, 3), (0, 4), (-3, 3), (-4, 0), (-3, -3)],
    );
    let square = [(0, 0), (4, 0), (4, 4), (0, 4), (2, 2)];
    let spokes: Vec<Ends> = (1..7).map(|end| [0, end]).collect();
    // What is removed, and the numbers of vertices, edges, inner faces and constraints that are left.
    let rows: [(Places, &[Ends], usize, [usize; 4]); 10] = [
        // The middle of a square, beside a constraint, and on one, where another one ends.
        (&square, &[[0, 1]], 4, [4, 5, 2, 1]),
        (&square, &[[0, 2], [4, 1], [2, 3]], 4, [4, 5, 2, 1]),
        // A corner, beyond which the middle comes to the hull, and the hub of six constraints.
        (&square, &[[1, 2], [2, 4], [0, 4]], 1, [4, 5, 2, 2]),
        (&hub, &spokes, 0, [6, 9, 4, 0]),
        // A vertex of a diagonal of the grid, one between two constraints, and two of a side.
        (&grid, &[[0, 35], [6, 33]], 14, [35, 82, 48, 4]),
        (&grid, &[[7, 10], [13, 16], [0, 30]], 8, [35, 82, 48, 9]),
        (&grid, &[[0, 30], [0, 35]], 12, [35, 83, 49, 8]),
        (&grid, &[[0, 30], [0, 35]], 0, [35, 83, 49, 8]),
        // A vertex of a line, and one of two.
        (LINE, &[[0, 3]], 1, [3, 2, 0, 1]),
        (&[(0, 0), (1, 0)], &[[0, 1]], 0, [1, 0, 0, 0]),
    ];
    for (places, segments, vertex, left) in rows {
        let (mut triangulation, mut wanted) = laid(places, segments);
        let removed = triangulation
            .remove(FixedVertexHandle::new(vertex))
            .unwrap();
        assert_eq!(removed.removed_vertex, wanted.points[vertex]);
        let last = places.len() - 1;
        let moved = (vertex < last).then(|| FixedVertexHandle::new(last));
        assert_eq!(removed.swapped_in_vertex, moved);
        wanted.remove(vertex);
        check(&triangulation, &wanted);
        let found = [
            triangulation.num_vertices(),
            triangulation.num_undirected_edges(),
            triangulation.num_inner_faces(),
            triangulation.num_constraints(),
        ];
        assert_eq!(found, left, "{places:?}");
    }
}

#[test]
fn points_and_segments_are_loaded() {
    let crosses = |edge| Err((ConstraintError::Crosses, edge));
    let none = |edge| Err((ConstraintError::NoSuchVertex, edge));
    let grid = grid();
    let borders = [
        [7, 10],
        [10, 28],
        [28, 25],
        [25, 7],
        [14, 15],
        [15, 21],
        [21, 20],
        [20, 14],
        [0, 13],
    ];
    let line = [(0, 0), (4, 2), (8, 4), (8, 4)];
    type Loaded = Result<(usize, usize), (ConstraintError, Option<usize>)>;
    let rows: [(Places, &[Ends], Loaded); 8] = [
        (&[], &[], Ok((0, 0))),
        (&grid, &borders, Ok((36, 17))),
        (KITE, &[[0, 1], [0, 2], [2, 0]], Ok((4, 2))),
        // Segments that overlap, from a point to itself and to an equal one.
        (&line, &[[0, 2], [0, 1], [1, 1], [2, 3]], Ok((3, 2))),
        (KITE, &[[0, 1], [2, 3]], crosses(Some(1))),
        (KITE, &[[2, 3], [0, 2], [1, 0]], crosses(Some(2))),
        (KITE, &[[0, 1], [1, 4]], none(Some(1))),
        (&[], &[[0, 0]], none(Some(0))),
    ];
    for (places, segments, wanted) in rows {
        let loaded = Triangulation::bulk_load_cdt(points_at(places), segments.to_vec());
        let found = loaded.map(|it| (it.num_vertices(), it.num_constraints()));
        assert_eq!(
            found.map_err(|it| (it.why, it.edge)),
            wanted,
            "{segments:?}"
        );
    }
}

/// Five thousand points, each to the right of the one before it, and segments from each to the next.
#[test]
fn thousands_are_loaded() {
    let points: Vec<_> = (0..5000)
        .map(|it| Point2::new(it, it * it % 1013))
        .collect();
    let mut segments: Vec<_> = (1..5000).map(|to| [to - 1, to]).collect();
    let loaded = Triangulation::bulk_load_cdt(points.clone(), segments.clone());
    let triangulation = loaded.unwrap();
    assert_eq!(triangulation.num_constraints(), 4999);
    for point in &points {
        assert_eq!(
            triangulation.locate_vertex(*point).unwrap().position(),
            *point
        );
    }
    check_cover(&triangulation);
    // From the first to the last one, across others.
    segments.push([0, 4999]);
    let refused = Triangulation::bulk_load_cdt(points, segments).unwrap_err();
    let (why, edge) = (ConstraintError::Crosses, Some(4999));
    assert_eq!(refused, LoadError { why, edge });
}
