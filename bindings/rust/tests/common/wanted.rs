//! What a triangulation with constraints is to be, and exact tests of it.

#![allow(dead_code, reason = "each test uses some of it")]

use super::plane::{area, in_circle};
use dcel::delaunay::{
    ConstrainedDelaunayTriangulation as Triangulation, Point2, PositionInTriangulation as Position,
};
use std::collections::BTreeSet;

/// A segment, its lesser end first.
pub type Segment = [Point2; 2];

/// What is to be there: the points by their vertices, and the edges that are constraints.
#[derive(Clone, Default)]
pub struct Wanted {
    pub points: Vec<Point2>,
    pub constraints: BTreeSet<Segment>,
}

pub fn segment(mut ends: [Point2; 2]) -> Segment {
    ends.sort();
    ends
}

/// Whether a point is on a segment, also at an end.
pub fn is_on([from, to]: Segment, point: Point2) -> bool {
    area([from, to, point]) == 0 && from <= point && point <= to
}

/// Whether each of two segments has the ends of the other strictly on its two sides.
pub fn cross(one: Segment, other: Segment) -> bool {
    let parts =
        |[a, b]: Segment, [c, d]: Segment| area([a, b, c]).signum() * area([a, b, d]).signum() < 0;
    parts(one, other) && parts(other, one)
}

impl Wanted {
    pub fn of(points: &[Point2]) -> Self {
        let mut made = Self::default();
        points.iter().for_each(|point| made.insert(*point));
        made
    }

    pub fn insert(&mut self, point: Point2) {
        if self.points.contains(&point) {
            return;
        }
        self.points.push(point);
        let split = self.constraints.iter().find(|it| is_on(**it, point));
        if let Some(&split) = split {
            self.constraints.remove(&split);
            let parts = split.map(|end| segment([end, point]));
            self.constraints.extend(parts);
        }
    }

    pub fn remove(&mut self, vertex: usize) {
        let point = self.points.swap_remove(vertex);
        self.constraints.retain(|ends| !ends.contains(&point));
    }

    pub fn can_add(&self, ends: [Point2; 2]) -> bool {
        let crosses = |it: &Segment| cross(*it, segment(ends));
        !self.constraints.iter().any(crosses)
    }

    /// Returns whether something is added.
    pub fn add(&mut self, ends: [Point2; 2]) -> bool {
        let points = self.points.iter().copied();
        let on: BTreeSet<_> = points
            .filter(|point| is_on(segment(ends), *point))
            .collect();
        let before = self.constraints.len();
        let next = on.iter().skip(1);
        self.constraints
            .extend(on.iter().zip(next).map(|(from, to)| [*from, *to]));
        self.constraints.len() > before
    }
}

/// The triangulation has these points and constraints, and is Delaunay but for them.
pub fn check(triangulation: &Triangulation<Point2>, wanted: &Wanted) {
    assert!(triangulation.sanity_check());
    assert_eq!(triangulation.num_vertices(), wanted.points.len());
    for vertex in triangulation.vertices() {
        assert!(wanted.points.contains(&vertex.position()));
        assert_eq!(triangulation.vertex_data(vertex.fix()), vertex.data());
    }
    let mut found = BTreeSet::new();
    for edge in triangulation.undirected_edges() {
        let (ends, directed) = (edge.positions(), edge.as_directed());
        let is_constraint = triangulation.is_constraint_edge(edge.fix());
        let [from, to] = [directed.from().fix(), directed.to().fix()];
        assert_eq!(triangulation.exists_constraint(to, from), is_constraint);
        if is_constraint {
            found.insert(segment(ends));
        } else if !directed.face().is_outer() && !directed.rev().face().is_outer() {
            let corner = |edge: dcel::handles::DirectedEdgeHandle<'_, _, _, _, _>| {
                edge.next().to().position()
            };
            let circle = [ends[0], ends[1], corner(directed)];
            assert!(in_circle(circle, corner(directed.rev())) <= 0);
        }
    }
    assert_eq!(found, wanted.constraints);
    assert_eq!(triangulation.num_constraints(), found.len());
    check_cover(triangulation);
    check_regions(triangulation);
}

/// The triangles go counterclockwise, and are as large together as the hull.
pub fn check_cover(triangulation: &Triangulation<Point2>) {
    let areas = triangulation
        .inner_faces()
        .map(|face| area(face.positions()));
    let covered: i128 = areas.inspect(|area| assert!(*area > 0)).sum();
    let origin = Point2::new(0, 0);
    let hull = triangulation
        .convex_hull()
        .map(|edge| edge.rev().positions());
    let around: i128 = hull.map(|[from, to]| area([origin, from, to])).sum();
    assert_eq!(covered, around);
}

/// A face is as deep as the least deep one beside it, or by one deeper past a constraint.
pub fn check_regions(triangulation: &Triangulation<Point2>) {
    let regions = triangulation.regions();
    assert_eq!(regions.len(), triangulation.num_all_faces());
    let mut least = vec![u32::MAX - 1; regions.len()];
    least[0] = 0;
    for _ in 0..regions.len() {
        for edge in triangulation.directed_edges() {
            let step = u32::from(triangulation.is_constraint_edge(edge.as_undirected().fix()));
            let [to, from] = [edge.face(), edge.rev().face()].map(|face| face.fix().index());
            least[to] = least[to].min(least[from] + step);
        }
    }
    assert_eq!(regions, least);
}

/// What is said of where a point is is so.
pub fn check_point(triangulation: &Triangulation<Point2>, wanted: &Wanted, point: Point2) {
    match triangulation.locate(point) {
        Position::OnVertex(vertex) => {
            assert_eq!(triangulation.vertex(vertex).position(), point);
        }
        Position::OnEdge(edge) => {
            let ends = triangulation.directed_edge(edge).positions();
            assert!(is_on(segment(ends), point) && !ends.contains(&point));
        }
        Position::OnFace(face) => {
            let [a, b, c] = triangulation.face(face).positions();
            let sides = [[a, b, point], [b, c, point], [c, a, point]];
            assert!(sides.iter().all(|it| area(*it) > 0));
        }
        Position::OutsideOfConvexHull(edge) => {
            let edge = triangulation.directed_edge(edge);
            let [from, to] = edge.positions();
            let side = area([from, to, point]);
            assert!(edge.face().is_outer());
            assert!(side > 0 || side == 0 && triangulation.all_vertices_on_line());
        }
        Position::NoTriangulation => {
            assert!(wanted.points.len() < 2 && !wanted.points.contains(&point));
        }
    }
}
