//! Triangulations with constraints against what the constrained Delaunay condition says.

#[path = "common/plane.rs"]
mod plane;
#[path = "common/wanted.rs"]
mod wanted;

use dcel::Refusal;
use dcel::delaunay::{
    AngleLimit, ConstrainedDelaunayTriangulation as Triangulation, ConstraintError,
    DelaunayTriangulation, HasPosition, LoadError, Point2, RefinementParameters,
};
use dcel::handles::{FixedDirectedEdgeHandle, FixedUndirectedEdgeHandle, FixedVertexHandle};
use plane::{Numbers, area};
use std::cell::Cell;
use std::rc::Rc;
use wanted::{Wanted, check, check_point, is_on, segment};

#[test]
fn random_sets() {
    let mut conflicting = 0;
    for seed in 1..=200 {
        let mut numbers = Numbers(seed);
        let width = [2, 9, 1 << 19][seed as usize % 3];
        let count = 1 + numbers.below(25);
        let points: Vec<_> = (0..count).map(|_| numbers.point(width)).collect();
        let edges: Vec<[usize; 2]> = (0..numbers.below(20))
            .map(|_| [0; 2].map(|_| numbers.below(count) as usize))
            .collect();
        let (mut wanted, mut conflicts) = (Wanted::of(&points), Vec::new());
        for edge in &edges {
            let ends = edge.map(|end| points[end]);
            if wanted.can_add(ends) {
                wanted.add(ends);
            } else {
                conflicts.push(*edge);
            }
        }
        let mut found = Vec::new();
        let triangulation =
            Triangulation::try_bulk_load_cdt(points.clone(), edges.clone(), |it| found.push(it));
        assert_eq!(found, conflicts);
        check(&triangulation.unwrap(), &wanted);
        match Triangulation::bulk_load_cdt(points.clone(), edges.clone()) {
            Ok(triangulation) => {
                assert!(conflicts.is_empty());
                check(&triangulation.clone(), &wanted);
            }
            Err(error) => {
                conflicting += 1;
                assert_eq!(error.why, ConstraintError::Crosses);
                assert_eq!(edges[error.edge.unwrap()], conflicts[0]);
            }
        }
    }
    assert!(conflicting > 20);
}

#[test]
fn points_and_constraints_come_and_go() {
    for seed in 1..=60 {
        let mut numbers = Numbers(seed);
        let width = [3, 9, 1 << 19][seed as usize % 3];
        let (mut triangulation, mut wanted) = (Triangulation::new().unwrap(), Wanted::default());
        for _ in 0..30 {
            change(&mut numbers, width, &mut triangulation, &mut wanted);
            check_point(&triangulation, &wanted, numbers.point(width + 1));
            if numbers.below(4) == 0 {
                check(&triangulation, &wanted);
            }
        }
        let clone = triangulation.clone();
        while triangulation.num_vertices() > 0 {
            triangulation.remove(FixedVertexHandle::new(0)).unwrap();
        }
        check(&clone, &wanted);
        check(&triangulation, &Wanted::default());
    }
}

fn change(
    numbers: &mut Numbers,
    width: i64,
    triangulation: &mut Triangulation<Point2>,
    wanted: &mut Wanted,
) {
    let count = wanted.points.len() as u64;
    if count == 0 || numbers.below(2) == 0 {
        let point = numbers.point(width);
        let vertex = triangulation.insert(point).unwrap();
        wanted.insert(point);
        assert_eq!(wanted.points[vertex.index()], point);
        return;
    }
    let places = [0; 2].map(|_| numbers.below(count) as usize);
    let [from, to] = places.map(FixedVertexHandle::new);
    let ends = places.map(|place| wanted.points[place]);
    let edges = triangulation.num_undirected_edges() as u64;
    match numbers.below(4) {
        0 => {
            let removed = triangulation.remove(from).unwrap();
            assert_eq!(removed.removed_vertex, ends[0]);
            wanted.remove(from.index());
        }
        1 if edges > 0 => {
            let edge = FixedUndirectedEdgeHandle::new(numbers.below(edges) as usize);
            let ends = triangulation.undirected_edge(edge).positions();
            let was = wanted.constraints.remove(&segment(ends));
            assert_eq!(triangulation.remove_constraint_edge(edge), Ok(was));
        }
        _ => {
            let can_add = wanted.can_add(ends);
            assert_eq!(triangulation.can_add_constraint(from, to), can_add);
            let mut tried = triangulation.clone();
            let edges = tried.try_add_constraint(from, to).unwrap();
            let added = triangulation.add_constraint(from, to);
            match can_add {
                true => assert_eq!(added, Ok(wanted.add(ends))),
                false => assert_eq!(added, Err(ConstraintError::Crosses)),
            }
            check(&tried, wanted);
            check_chain(&tried, wanted, can_add, ends, &edges);
        }
    }
}

/// The half edges are those along a segment, if it can be added.
fn check_chain(
    triangulation: &Triangulation<Point2>,
    wanted: &Wanted,
    can_add: bool,
    ends: [Point2; 2],
    edges: &[FixedDirectedEdgeHandle],
) {
    let mut place = ends[0];
    for edge in edges {
        let edge = triangulation.directed_edge(*edge);
        let [from, to] = edge.positions();
        assert!(from == place && wanted.constraints.contains(&segment([from, to])));
        assert!(triangulation.is_constraint_edge(edge.as_undirected().fix()));
        assert!(is_on(segment(ends), to) && is_on(segment([from, ends[1]]), to));
        place = to;
    }
    assert_eq!(place == ends[1], can_add || ends[0] == ends[1]);
    assert!(can_add || edges.is_empty());
}

fn square() -> Vec<Point2> {
    let corners = [(0, 0), (6, 0), (6, 6), (0, 6), (2, 3)];
    corners.map(|(x, y)| Point2::new(x, y)).to_vec()
}

#[test]
fn what_is_refused_changes_nothing() {
    let outline = vec![[0, 1], [1, 2], [2, 3], [3, 0], [0, 2]];
    let mut triangulation = Triangulation::bulk_load_cdt(square(), outline.clone()).unwrap();
    let mut wanted = Wanted::of(&square());
    for [from, to] in outline {
        wanted.add([square()[from], square()[to]]);
    }
    let vertex = |triangulation: &Triangulation<Point2>, place: usize| {
        triangulation.locate_vertex(square()[place]).unwrap().fix()
    };
    let [one, three] = [1, 3].map(|place| vertex(&triangulation, place));
    let crosses = triangulation.add_constraint(one, three);
    assert_eq!(crosses, Err(ConstraintError::Crosses));
    for number in [8, 99, u32::MAX as usize] {
        let none = FixedVertexHandle::new(number);
        for [from, to] in [[none, one], [one, none], [none, none]] {
            assert!(!triangulation.can_add_constraint(from, to));
            assert!(!triangulation.exists_constraint(from, to));
            let refused = triangulation.add_constraint(from, to);
            assert_eq!(refused, Err(ConstraintError::NoSuchVertex));
        }
        assert_eq!(triangulation.remove(none), Err(Refusal::NoSuchVertex));
        let none = FixedUndirectedEdgeHandle::new(number);
        assert!(!triangulation.is_constraint_edge(none));
        assert_eq!(triangulation.remove_constraint_edge(none), Ok(false));
    }
    let far = Point2::new(1 << 54, 0);
    let refused = triangulation.add_constraint_edge(far, square()[0]);
    assert_eq!(refused, Err(ConstraintError::OutOfRange));
    assert_eq!(triangulation.add_constraint(one, one), Ok(false));
    check(&triangulation, &wanted);
    for (edges, why) in [
        (vec![[0, 2], [1, 5]], ConstraintError::NoSuchVertex),
        (vec![[0, 2], [usize::MAX, 1]], ConstraintError::NoSuchVertex),
        (vec![[0, 2], [3, 1], [9, 9]], ConstraintError::Crosses),
    ] {
        let refused = Triangulation::bulk_load_cdt(square(), edges.clone());
        let edge = Some(1);
        assert_eq!(refused.unwrap_err(), LoadError { why, edge });
        if why == ConstraintError::NoSuchVertex {
            let refused = Triangulation::try_bulk_load_cdt(square(), edges, |_| unreachable!());
            assert_eq!(refused.unwrap_err(), LoadError { why, edge });
        }
    }
    let refused = Triangulation::bulk_load_cdt(vec![square()[0], far], vec![[0, 9]]);
    let (why, edge) = (ConstraintError::OutOfRange, None);
    assert_eq!(refused.unwrap_err(), LoadError { why, edge });
}

#[test]
fn curves() {
    let mut triangulation = Triangulation::new().unwrap();
    let mut wanted = Wanted::of(&square());
    triangulation.add_constraint_edges(square(), true).unwrap();
    for place in 0..5 {
        wanted.add([square()[place], square()[(place + 1) % 5]]);
    }
    check(&triangulation, &wanted);
    let open = [(1, 1), (2, 1), (2, 2)].map(|(x, y)| Point2::new(x, y));
    triangulation.add_constraint_edges(open, false).unwrap();
    open.iter().for_each(|point| wanted.insert(*point));
    wanted.add([open[0], open[1]]);
    wanted.add([open[1], open[2]]);
    check(&triangulation, &wanted);
    triangulation.add_constraint_edges([], true).unwrap();
    triangulation.add_constraint_edges([open[0]], true).unwrap();
    check(&triangulation, &wanted);
    // What comes before a segment that crosses one stays.
    let crossing = [(8, 3), (5, 3), (5, 9)].map(|(x, y)| Point2::new(x, y));
    let refused = triangulation.add_constraint_edges(crossing, false);
    assert_eq!(refused, Err(ConstraintError::Crosses));
    wanted.insert(crossing[0]);
    wanted.insert(crossing[1]);
    check(&triangulation, &wanted);
}

#[test]
fn one_without_constraints_becomes_one_with() {
    let free = DelaunayTriangulation::bulk_load(square()).unwrap();
    let positions: Vec<_> = free.vertices().map(|vertex| vertex.position()).collect();
    let edges = free.num_undirected_edges();
    let mut made = Triangulation::from(free.clone());
    check(&made, &Wanted::of(&square()));
    let same = made.vertices().map(|vertex| vertex.position());
    assert!(same.eq(positions) && made.num_undirected_edges() == edges);
    made.insert(Point2::new(9, 9)).unwrap();
    assert_eq!((free.num_vertices(), made.num_vertices()), (5, 6));
    let text = format!("{:?}", Triangulation::<Point2>::default());
    assert!(text.starts_with("ConstrainedDelaunayTriangulation { vertices: 0"));
    let none = Triangulation::from(DelaunayTriangulation::<Point2>::default());
    assert_eq!((none.num_vertices(), none.regions()), (0, vec![0]));
}

/// A value that counts its drops.
struct Counted(Point2, Rc<Cell<u32>>);

impl HasPosition for Counted {
    fn position(&self) -> Point2 {
        self.0
    }
}

impl Drop for Counted {
    fn drop(&mut self) {
        self.1.set(self.1.get() + 1);
    }
}

#[test]
fn values_are_dropped_once() {
    let drops = Rc::new(Cell::new(0));
    let value = |place: usize| Counted(square()[place], drops.clone());
    let values = || (0..5).map(value).collect::<Vec<_>>();
    assert!(Triangulation::bulk_load_cdt(values(), vec![[0, 2], [1, 3]]).is_err());
    assert_eq!(drops.get(), 5);
    let free = DelaunayTriangulation::bulk_load(values()).unwrap();
    let mut triangulation = Triangulation::from(free);
    assert_eq!(drops.get(), 5);
    assert_eq!(
        triangulation.add_constraint_edge(value(0), value(2)),
        Ok(true)
    );
    assert_eq!(drops.get(), 7);
    let refused = triangulation.add_constraint_edges([value(1), value(3), value(4)], false);
    assert_eq!(refused, Err(ConstraintError::Crosses));
    assert_eq!(drops.get(), 10);
    drop(triangulation.remove(FixedVertexHandle::new(0)).unwrap());
    drop(triangulation.into_dcel());
    assert_eq!(drops.get(), 15);
}

/// The least angle of the inner faces of some depths, in degrees, but for corners between two
/// constraints, and the largest doubled area.
fn worst(triangulation: &Triangulation<Point2>, is_refined: impl Fn(u32) -> bool) -> (f64, i128) {
    let regions = triangulation.regions();
    let (mut angle, mut largest) = (180.0f64, 0);
    for edge in triangulation.directed_edges() {
        let face = edge.face().fix().index();
        if edge.face().is_outer() || !is_refined(regions[face]) {
            continue;
        }
        let corners = [edge.from(), edge.to(), edge.prev().from()].map(|it| it.position());
        let [[ax, ay], [bx, by]] = [corners[1], corners[2]]
            .map(|it| [it.x - corners[0].x, it.y - corners[0].y].map(|it| it as f64));
        let sides = [edge, edge.prev()].map(|it| it.as_undirected().fix());
        if !sides.iter().all(|it| triangulation.is_constraint_edge(*it)) {
            angle = angle.min((area(corners) as f64).atan2(ax * bx + ay * by).to_degrees());
        }
        largest = largest.max(area(corners));
    }
    (angle, largest)
}

#[test]
fn outlines_are_refined() {
    const UNIT: i64 = 1 << 12;
    const SIDE: i64 = 60 * UNIT;
    let mut complete = 0;
    for seed in 1..=100 {
        let mut numbers = Numbers(seed);
        let mut points: Vec<_> = [(-SIDE, -SIDE), (SIDE, -SIDE), (SIDE, SIDE), (-SIDE, SIDE)]
            .map(|(x, y)| Point2::new(x, y))
            .to_vec();
        points.extend((0..numbers.below(8)).map(|_| {
            let point = numbers.point(50);
            Point2::new(UNIT * point.x, UNIT * point.y)
        }));
        let (mut triangulation, mut wanted) = (Triangulation::new().unwrap(), Wanted::default());
        for point in &points {
            triangulation.insert(*point).unwrap();
            wanted.insert(*point);
        }
        for place in 0..points.len() {
            let ends = [points[place], points[(place + 1) % 4]];
            if wanted.can_add(ends) {
                triangulation.add_constraint_edge(ends[0], ends[1]).unwrap();
                wanted.add(ends);
            }
        }
        let before = triangulation.num_vertices();
        let (degree, excluded) = (numbers.below(22) as f64, seed % 2 == 0);
        let largest = (SIDE as f64).powi(2) / (1 + numbers.below(10)) as f64;
        let parameters = RefinementParameters::new()
            .with_angle_limit(AngleLimit::from_deg(degree))
            .with_max_allowed_area(largest)
            .with_max_additional_vertices(100)
            .exclude_outer_faces(excluded);
        let result = triangulation.refine(parameters).unwrap();
        assert!(triangulation.num_vertices() <= before + 100);
        for vertex in (0..triangulation.num_vertices()).map(FixedVertexHandle::new) {
            wanted.insert(triangulation.vertex(vertex).position());
        }
        check(&triangulation, &wanted);
        let even = |it: u32| it % 2 == 0;
        let (angle, area) = worst(&triangulation, |it| !excluded || !even(it));
        // The limit is rounded up, so it is between these two.
        let [least, most] = [degree - 1e-9, degree + 0.003]
            .map(|limit| angle > limit && area as f64 <= 2.0 * largest);
        assert!(least || !result.refinement_complete);
        assert!(result.refinement_complete || !most);
        complete += u32::from(result.refinement_complete);
        let regions = triangulation.regions();
        let faces = triangulation.inner_faces().map(|face| face.fix());
        let outside = faces.filter(|it| excluded && even(regions[it.index()]));
        assert!(outside.eq(result.excluded_faces));
    }
    assert!(complete > 50, "{complete}");
}

#[test]
fn limits_that_are_no_numbers() {
    let points = [(0, 0), (64, 0), (64, 64), (0, 64)].map(|(x, y)| Point2::new(x, y));
    let sides = vec![[0, 1], [1, 2], [2, 3], [3, 0]];
    let standing = Triangulation::bulk_load_cdt(points.to_vec(), sides).unwrap();
    let refined = |parameters: RefinementParameters| {
        let mut triangulation = standing.clone();
        let result = triangulation.refine(parameters.with_max_additional_vertices(9));
        (
            result.unwrap().refinement_complete,
            triangulation.num_vertices() > 4,
        )
    };
    let any = RefinementParameters::new().with_angle_limit(AngleLimit::from_deg(-1.0));
    for area in [f64::NAN, f64::NEG_INFINITY, -1.0, 0.0, 0.4, 1e-300] {
        assert_eq!(refined(any.with_max_allowed_area(area)), (false, true));
    }
    for area in [2048.0, 1e300, f64::INFINITY] {
        assert_eq!(refined(any.with_max_allowed_area(area)), (true, false));
    }
    let angle = |limit| refined(RefinementParameters::new().with_angle_limit(limit)).0;
    for degree in [f64::NAN, f64::INFINITY, 60.1, 90.0, 1e300] {
        assert!(!angle(AngleLimit::from_deg(degree)));
    }
    for degree in [f64::NEG_INFINITY, -1.0, 0.0, 1e-300, 45.0] {
        assert!(angle(AngleLimit::from_deg(degree)));
    }
    for ratio in [f64::NAN, -1.0, 0.0, 0.5, 1e-300, f64::NEG_INFINITY] {
        assert!(!angle(AngleLimit::from_radius_to_shortest_edge_ratio(
            ratio
        )));
    }
    for ratio in [1.0, 2.0, f64::INFINITY] {
        assert!(angle(AngleLimit::from_radius_to_shortest_edge_ratio(ratio)));
    }
    assert_eq!(refined(any.with_max_allowed_area(100.0)), (false, true));
}
