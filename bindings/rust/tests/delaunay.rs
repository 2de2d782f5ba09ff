//! Triangulations against what Delaunay's condition says, over all points.

#[path = "common/plane.rs"]
mod plane;

use dcel::Refusal;
use dcel::delaunay::{
    DelaunayTriangulation, Grid, HasPosition, InsertionError, Point2,
    PositionInTriangulation as Position,
};
use dcel::handles::FixedVertexHandle;
use plane::{Numbers, area, in_circle};
use std::cell::Cell;
use std::collections::HashMap;
use std::rc::Rc;

/// The triangulation has these points alone, no point is inside a circle, and the triangles are as
/// large together as the hull.
fn check(
    triangulation: &DelaunayTriangulation<Point2>,
    points: &HashMap<Point2, FixedVertexHandle>,
) {
    assert_eq!(triangulation.num_vertices(), points.len());
    for vertex in triangulation.vertices() {
        assert_eq!(points[&vertex.position()], vertex.fix());
        assert_eq!(triangulation.vertex_data(vertex.fix()), vertex.data());
    }
    assert!(triangulation.sanity_check());
    let mut covered = 0;
    for face in triangulation.inner_faces() {
        let corners = face.positions();
        assert!(area(corners) > 0);
        assert!(points.keys().all(|point| in_circle(corners, *point) <= 0));
        covered += area(corners);
    }
    let origin = Point2::new(0, 0);
    let hull = triangulation
        .convex_hull()
        .map(|edge| edge.rev().positions());
    let around: i128 = hull.map(|[from, to]| area([origin, from, to])).sum();
    assert_eq!(covered, around);
    let count = |count, wanted: usize| assert_eq!(count, wanted);
    count(
        triangulation.num_inner_faces(),
        triangulation.inner_faces().count(),
    );
    count(
        triangulation.num_undirected_edges(),
        triangulation.undirected_edges().count(),
    );
    count(
        triangulation.num_directed_edges(),
        triangulation.directed_edges().count(),
    );
    count(triangulation.num_all_faces(), triangulation.num_faces());
}

/// What `locate` and `nearest_neighbor` say of a point is so.
fn check_point(triangulation: &DelaunayTriangulation<Point2>, point: Point2) {
    let positions = triangulation.vertices().map(|vertex| vertex.position());
    let least = positions.map(|it| it.distance_2(point)).min();
    let nearest = triangulation.nearest_neighbor(point);
    assert_eq!(nearest.map(|it| it.position().distance_2(point)), least);
    match triangulation.locate(point) {
        Position::OnVertex(vertex) => {
            assert_eq!(triangulation.vertex(vertex).position(), point);
            assert_eq!(triangulation.locate_vertex(point).unwrap().fix(), vertex);
        }
        Position::OnEdge(edge) => {
            let [from, to] = triangulation.directed_edge(edge).positions();
            assert_eq!(area([from, to, point]), 0);
            let apart = from.distance_2(to);
            assert!(from.distance_2(point) < apart && to.distance_2(point) < apart);
        }
        Position::OnFace(face) => {
            let [a, b, c] = triangulation.face(face).positions();
            assert!(
                [[a, b, point], [b, c, point], [c, a, point]]
                    .iter()
                    .all(|it| area(*it) > 0)
            );
        }
        Position::OutsideOfConvexHull(edge) => {
            let edge = triangulation.directed_edge(edge);
            let [from, to] = edge.positions();
            assert!(edge.face().is_outer());
            let on_line = triangulation.all_vertices_on_line() && area([from, to, point]) == 0;
            assert!(
                area([from, to, point]) > 0
                    || on_line && to.distance_2(point) > from.distance_2(point)
            );
        }
        Position::NoTriangulation => {
            assert!(triangulation.num_vertices() < 2 && least != Some(0));
        }
    }
}

#[test]
fn points_come_and_go() {
    for seed in 1..=40 {
        let mut numbers = Numbers(seed);
        let width = [2, 9, 1 << 19][seed as usize % 3];
        let mut triangulation = DelaunayTriangulation::new().unwrap();
        let mut points = HashMap::new();
        let mut last = FixedVertexHandle::new(0);
        for _ in 0..60 {
            if numbers.below(3) > 0 || points.is_empty() {
                let point = numbers.point(width);
                last = match numbers.below(2) {
                    0 => triangulation.insert(point).unwrap(),
                    _ => triangulation.insert_with_hint(point, last).unwrap(),
                };
                assert_eq!(*points.entry(point).or_insert(last), last);
            } else {
                let vertex = FixedVertexHandle::new(numbers.below(points.len() as u64) as usize);
                let removed = triangulation.remove(vertex).unwrap();
                assert_eq!(points.remove(&removed.removed_vertex), Some(vertex));
                let moved = removed.swapped_in_vertex;
                for other in points.values_mut().filter(|it| Some(**it) == moved) {
                    *other = vertex;
                }
            }
            if numbers.below(4) == 0 {
                check(&triangulation, &points);
                check_point(&triangulation, numbers.point(width + 1));
            }
        }
        check(&triangulation.clone(), &points);
        let mut clone = triangulation.clone();
        while clone.num_vertices() > 0 {
            clone.remove(FixedVertexHandle::new(0)).unwrap();
        }
        check(&triangulation, &points);
        check(&clone, &HashMap::new());
    }
}

#[test]
fn all_at_once() {
    for seed in 1..=40 {
        let mut numbers = Numbers(seed);
        let width = [2, 30, 1 << 19][seed as usize % 3];
        let elements: Vec<_> = (0..numbers.below(80))
            .map(|_| numbers.point(width))
            .collect();
        let triangulation = DelaunayTriangulation::bulk_load(elements.clone()).unwrap();
        let vertex = |point| triangulation.locate_vertex(point).unwrap().fix();
        check(
            &triangulation,
            &elements
                .iter()
                .map(|point| (*point, vertex(*point)))
                .collect(),
        );
        for _ in 0..30 {
            check_point(&triangulation, numbers.point(2 * width));
        }
        let faces = triangulation.num_inner_faces();
        assert_eq!(triangulation.into_dcel().num_faces(), faces + 1);
    }
}

#[test]
fn any_point_may_be_asked_for() {
    let far = [
        (i64::MAX, i64::MIN),
        (i64::MIN, 0),
        (0, i64::MAX),
        (1 << 54, 1 << 54),
        (-(1 << 54), -(1 << 54)),
    ];
    let rows: [&[(i64, i64)]; 4] = [
        &[],
        &[(1, 1)],
        &[(0, 0), (1, 1), (2, 2)],
        &[(0, 0), (5, 1), (2, 7), (1 << 53, 9)],
    ];
    for points in rows {
        let points = points.iter().map(|(x, y)| Point2::new(*x, *y)).collect();
        let triangulation = DelaunayTriangulation::bulk_load(points).unwrap();
        for (x, y) in far {
            let point = Point2::new(x, y);
            check_point_far(&triangulation, point);
        }
    }
}

fn check_point_far(triangulation: &DelaunayTriangulation<Point2>, point: Point2) {
    let positions = triangulation.vertices().map(|vertex| vertex.position());
    let least = positions.map(|it| it.distance_2(point)).min();
    let nearest = triangulation.nearest_neighbor(point);
    assert_eq!(nearest.map(|it| it.position().distance_2(point)), least);
    let position = triangulation.locate(point);
    match position {
        Position::OutsideOfConvexHull(edge) => {
            assert!(triangulation.directed_edge(edge).face().is_outer());
        }
        _ => assert!(triangulation.num_vertices() < 2 && position == Position::NoTriangulation),
    }
}

#[test]
fn what_is_refused_changes_nothing() {
    let corners = [(0, 0), (4, 0), (0, 3)].map(|(x, y)| Point2::new(x, y));
    let mut triangulation = DelaunayTriangulation::bulk_load(corners.to_vec()).unwrap();
    let most = 1 << 53;
    for (x, y) in [(most + 1, 0), (0, -most - 1), (i64::MIN, i64::MAX)] {
        let point = Point2::new(x, y);
        assert_eq!(triangulation.insert(point), Err(InsertionError::OutOfRange));
        let loaded = DelaunayTriangulation::bulk_load(vec![corners[0], point]);
        assert_eq!(loaded.unwrap_err(), InsertionError::OutOfRange);
    }
    let none = FixedVertexHandle::new(3);
    assert_eq!(triangulation.remove(none), Err(Refusal::NoSuchVertex));
    assert_eq!(triangulation.locate_and_remove(Point2::new(9, 9)), Ok(None));
    assert_eq!(
        triangulation.locate_with_hint(corners[1], none),
        triangulation.locate(corners[1])
    );
    assert_eq!(
        (
            triangulation.num_vertices(),
            triangulation.num_inner_faces()
        ),
        (3, 1)
    );
    assert!(
        triangulation
            .insert_with_hint(Point2::new(most, -most), none)
            .is_ok()
    );
}

/// Points by their coordinates.
type Places = &'static [(i64, i64)];

fn points_at(places: &[(i64, i64)]) -> Vec<Point2> {
    places.iter().map(|(x, y)| Point2::new(*x, *y)).collect()
}

/// Inserts points one by one, so that vertices have their numbers.
fn numbered(places: &[(i64, i64)]) -> DelaunayTriangulation<Point2> {
    let mut triangulation = DelaunayTriangulation::new().unwrap();
    for (number, point) in points_at(places).into_iter().enumerate() {
        assert_eq!(triangulation.insert(point).unwrap().index(), number);
    }
    triangulation
}

fn counts(triangulation: &DelaunayTriangulation<Point2>) -> [usize; 3] {
    [
        triangulation.num_vertices(),
        triangulation.num_undirected_edges(),
        triangulation.num_inner_faces(),
    ]
}

/// Points, the vertex that is removed, which one gets its number, and the numbers of vertices, edges
/// and inner faces that are left.
type Removal = (Places, usize, Option<usize>, [usize; 3]);

/// Eight points on a hull, and one inside that has them all as neighbors.
const HUB: Places = &[
    (0, 0),
    (4, 0),
    (3, 3),
    (0, 4),
    (-3, 3),
    (-4, 0),
    (-3, -3),
    (0, -4),
    (3, -3),
];

const SQUARE: Places = &[(0, 0), (4, 0), (4, 4), (0, 4), (2, 2)];
const MIDDLE: Places = &[(2, 2), (0, 0), (4, 0), (4, 4), (0, 4)];
const BETWEEN: Places = &[(0, 0), (2, 0), (4, 0), (4, 4), (0, 4), (2, 1)];
const FOUR: Places = &[(0, 0), (-2, 0), (2, -3), (1, 0), (2, 3)];
const FAN: Places = &[(0, 3), (0, 0), (1, 0), (2, 0), (5, 0)];
const LINE: Places = &[(0, 0), (1, 1), (2, 2), (3, 3)];

const REMOVALS: [Removal; 16] = [
    // Inside: the middle of a square, vertices of three edges and of four that can't be flipped.
    (SQUARE, 4, None, [4, 5, 2]),
    (MIDDLE, 0, Some(4), [4, 5, 2]),
    (&[(0, 0), (6, 0), (1, 1), (0, 6)], 2, Some(3), [3, 3, 1]),
    (FOUR, 0, Some(4), [4, 6, 3]),
    (HUB, 0, Some(8), [8, 13, 6]),
    // Corners, one of many edges, and one whose neighbors are on one line then.
    (HUB, 3, Some(8), [8, 14, 7]),
    (SQUARE, 0, Some(4), [4, 5, 2]),
    // Between two corners.
    (&[(0, 0), (2, 0), (4, 0), (1, 3)], 1, Some(3), [3, 3, 1]),
    (BETWEEN, 1, Some(5), [5, 8, 4]),
    // No triangle is left.
    (&[(0, 0), (4, 0), (0, 4)], 1, Some(2), [2, 1, 0]),
    (FAN, 0, Some(4), [4, 3, 0]),
    (&[(0, 0), (4, 2), (2, 1)], 2, None, [2, 1, 0]),
    (LINE, 1, Some(3), [3, 2, 0]),
    (LINE, 0, Some(3), [3, 2, 0]),
    (&[(0, 0), (1, 0)], 0, Some(1), [1, 0, 0]),
    (&[(5, 7)], 0, None, [0, 0, 0]),
];

#[test]
fn vertices_are_removed() {
    for (places, vertex, moved, left) in REMOVALS {
        let mut triangulation = numbered(places);
        let removed = triangulation
            .remove(FixedVertexHandle::new(vertex))
            .unwrap();
        let mut rest = points_at(places);
        assert_eq!(removed.removed_vertex, rest.swap_remove(vertex));
        assert_eq!(removed.swapped_in_vertex.map(|it| it.index()), moved);
        assert_eq!(counts(&triangulation), left, "{places:?}");
        let numbers = (0..).map(FixedVertexHandle::new);
        check(&triangulation, &rest.into_iter().zip(numbers).collect());
    }
}

/// From the first on, from the middle one, and from the last.
#[test]
fn a_grid_is_removed() {
    let places: Vec<_> = (0..36).map(|it| (it / 6, it % 6)).collect();
    for halves in 0..3 {
        let (mut triangulation, mut rest) = (numbered(&places), points_at(&places));
        while let Some(last) = rest.len().checked_sub(1) {
            let vertex = last * halves / 2;
            triangulation
                .remove(FixedVertexHandle::new(vertex))
                .unwrap();
            rest.swap_remove(vertex);
            let numbers = (0..).map(FixedVertexHandle::new);
            check(&triangulation, &rest.iter().copied().zip(numbers).collect());
        }
    }
}

/// A point, and what is there.
type Located = (i64, i64, &'static str);

/// Nine points of a grid, each next to the one before it.
const GRID: Places = &[
    (0, 0),
    (2, 0),
    (4, 0),
    (4, 2),
    (2, 2),
    (0, 2),
    (0, 4),
    (2, 4),
    (4, 4),
];

/// Where points are, as a walk from each vertex finds it, and from a number that none has.
const LOCATED: [(Places, &[Located]); 7] = [
    (&[], &[(3, 4, "nothing")]),
    (&[(3, 3)], &[(3, 3, "vertex"), (3, 4, "nothing")]),
    (
        &[(0, 0), (6, 0), (0, 6)],
        &[
            (1, 1, "face"),
            (3, 3, "edge"),
            (3, 0, "edge"),
            (0, 6, "vertex"),
            (7, 0, "outside"),
            (-1, 7, "outside"),
            (4, 4, "outside"),
        ],
    ),
    (
        SQUARE,
        &[
            (2, 2, "vertex"),
            (4, 0, "vertex"),
            (1, 0, "edge"),
            (3, 3, "edge"),
            (3, 2, "face"),
            (5, 0, "outside"),
            (2, -1, "outside"),
        ],
    ),
    (
        GRID,
        &[
            (2, 2, "vertex"),
            (4, 0, "vertex"),
            (1, 0, "edge"),
            (2, 3, "edge"),
            (3, 1, "edge"),
            (4, 3, "edge"),
            (5, 5, "outside"),
        ],
    ),
    (
        &[(0, 0), (6, 6), (2, 2)],
        &[
            (2, 2, "vertex"),
            (6, 6, "vertex"),
            (1, 1, "edge"),
            (5, 5, "edge"),
            (7, 7, "outside"),
            (-1, -1, "outside"),
            (1, 2, "outside"),
            (8, 7, "outside"),
        ],
    ),
    (
        &[(0, 6), (0, 0), (0, 2)],
        &[
            (0, 0, "vertex"),
            (0, 1, "edge"),
            (0, 5, "edge"),
            (0, 7, "outside"),
            (0, -7, "outside"),
            (1, 3, "outside"),
        ],
    ),
];

fn kind(position: Position) -> &'static str {
    match position {
        Position::OnFace(_) => "face",
        Position::OnEdge(_) => "edge",
        Position::OnVertex(_) => "vertex",
        Position::OutsideOfConvexHull(_) => "outside",
        Position::NoTriangulation => "nothing",
    }
}

#[test]
fn positions_are_told_apart() {
    for (places, asked) in LOCATED {
        let triangulation = numbered(places);
        for (x, y, wanted) in asked {
            let point = Point2::new(*x, *y);
            assert_eq!(kind(triangulation.locate(point)), *wanted, "{point:?}");
            check_point(&triangulation, point);
            for hint in (0..10).map(FixedVertexHandle::new) {
                let found = triangulation.locate_with_hint(point, hint);
                assert_eq!(kind(found), *wanted, "{point:?} from {hint:?}");
            }
        }
    }
}

/// A point, and the vertex that is nearest to it.
type Asked = (i64, i64, usize);

/// Points, and what is asked of them.
const NEAREST: [(Places, &[Asked]); 4] = [
    (&[(3, 3)], &[(3, 3, 0), (-1000, 7, 0)]),
    // A line, as seen from beside it and from beyond its ends.
    (
        &[(0, 0), (6, 6), (2, 2)],
        &[(1, 2, 2), (-5, 4, 0), (4, 5, 1), (9, 2, 1), (-7, -7, 0)],
    ),
    (
        &[(0, 0), (6, 0), (0, 6)],
        &[(100, -3, 1), (-9, -9, 0), (2, 5, 2), (4, 1, 1)],
    ),
    (
        &[(-FAR, -FAR), (FAR, -FAR), (FAR, FAR), (-FAR, FAR)],
        &[(FAR, FAR - 1, 2), (-1, -1, 0), (1, -1, 1), (-FAR, 1, 3)],
    ),
];

/// The largest coordinate.
const FAR: i64 = 1 << 53;

#[test]
fn nearest_vertices() {
    for (places, asked) in NEAREST {
        let triangulation = numbered(places);
        for (x, y, wanted) in asked {
            let found = triangulation.nearest_vertex(Point2::new(*x, *y));
            assert_eq!(found, Some(FixedVertexHandle::new(*wanted)), "{x} {y}");
        }
    }
    assert_eq!(numbered(&[]).nearest_vertex(Point2::new(3, 4)), None);
    // Before and after a vertex inside is removed.
    let places: Vec<_> = (0..16).map(|it| (it / 4 * 3, it % 4 * 3)).collect();
    let mut triangulation = numbered(&places);
    for _ in 0..2 {
        for place in 0..18 * 18 {
            check_point(&triangulation, Point2::new(place / 18 - 4, place % 18 - 4));
        }
        triangulation.remove(FixedVertexHandle::new(5)).unwrap();
    }
}

/// So far from three points, the others share the upper bits of their places.
#[test]
fn a_cluster_far_from_others() {
    let mut points = points_at(&[(FAR, 0), (0, FAR), (FAR, FAR)]);
    points.extend((0..77).map(|it| Point2::new(it % 7, it % 11)));
    let triangulation = DelaunayTriangulation::bulk_load(points.clone()).unwrap();
    assert_eq!(triangulation.num_vertices(), 80);
    for point in points {
        let vertex = triangulation.locate_vertex(point).unwrap();
        assert_eq!(vertex.position(), point);
    }
}

/// A value that counts its drops.
struct Counted(Point2, Rc<Cell<u32>>);

impl HasPosition for Counted {
    fn position(&self) -> Point2 {
        self.0
    }
}

impl Drop for Counted {
    fn drop(&mut self) {
        self.1.set(self.1.get() + 1);
    }
}

#[test]
fn values_are_dropped_once() {
    let drops = Rc::new(Cell::new(0));
    let value = |x, y| Counted(Point2::new(x, y), drops.clone());
    let mut triangulation =
        DelaunayTriangulation::bulk_load(vec![value(0, 0), value(4, 0), value(0, 0)]).unwrap();
    assert_eq!((triangulation.num_vertices(), drops.get()), (2, 1));
    triangulation.insert(value(4, 0)).unwrap();
    triangulation.insert(value(0, 3)).unwrap();
    assert_eq!(drops.get(), 2);
    assert!(triangulation.insert(value(1 << 60, 0)).is_err());
    assert_eq!(drops.get(), 3);
    let removed = triangulation.remove(FixedVertexHandle::new(0)).unwrap();
    assert_eq!(drops.get(), 3);
    drop(removed);
    assert_eq!(drops.get(), 4);
    assert_eq!(triangulation.vertices().count(), 2);
    drop(triangulation.into_dcel());
    assert_eq!(drops.get(), 6);
}

#[test]
fn floats_come_back() {
    let mut numbers = Numbers(7);
    for _ in 0..200 {
        let points: Vec<[f64; 2]> = (0..5)
            .map(|_| {
                [0; 2].map(|_| {
                    (numbers.below(1 << 53) as f64 - 2f64.powi(52))
                        * 2f64.powi(numbers.below(60) as i32 - 80)
                })
            })
            .collect();
        let grid = Grid::fit(points.iter().copied()).unwrap();
        let most = points
            .iter()
            .flatten()
            .fold(0f64, |most, it| most.max(it.abs()));
        assert!(most / grid.step() <= 2f64.powi(53) && most / grid.step() > 2f64.powi(52));
        for point in &points {
            let back = grid.back(grid.snap(*point).unwrap());
            assert!(
                point
                    .iter()
                    .zip(back)
                    .all(|(one, other)| (one - other).abs() <= grid.step() / 2.0)
            );
            assert_eq!(grid.back(grid.snap(back).unwrap()), back);
        }
    }
    assert_eq!(Grid::fit([]).unwrap().step(), f64::from_bits(1));
    assert_eq!(Grid::fit([[f64::MAX, 0.0]]).unwrap().step(), 2f64.powi(971));
    assert_eq!(Grid::fit([[0.0, f64::INFINITY]]), None);
    for power in -1074..1024 {
        let step = 2f64.powi(power / 2) * 2f64.powi(power - power / 2);
        assert_eq!(Grid::new(step).map(|grid| grid.step()), Some(step));
        assert_eq!(Grid::new(-step), None);
    }
    for wrong in [
        0.0,
        0.1,
        3.0,
        1.5e-323,
        f64::NAN,
        f64::INFINITY,
        f64::NEG_INFINITY,
    ] {
        assert_eq!(Grid::new(wrong), None);
    }
    let whole = Grid::new(1.0).unwrap();
    assert_eq!(whole.snap([0.5, 1.5]), Ok(Point2::new(0, 2)));
    assert_eq!(
        whole.snap([f64::INFINITY, 0.0]),
        Err(InsertionError::OutOfRange)
    );
}
