//! A program for spade with the import exchanged, and its errors handled: which weather station is
//! nearest, what lies around it, and what is left once it closes. It prints what it finds.

use dcel::delaunay::{
    DelaunayTriangulation, HasPosition, Point2, PositionInTriangulation as Position,
};
use std::error::Error;

/// A station, with its place in meters.
struct Station {
    name: &'static str,
    place: Point2,
}

impl HasPosition for Station {
    fn position(&self) -> Point2 {
        self.place
    }
}

const STATIONS: [(&str, i64, i64); 7] = [
    ("Harbour", 0, 0),
    ("Mill", 4200, 300),
    ("Ridge", 4900, 3900),
    ("Lake", 300, 3600),
    ("Market", 2100, 1700),
    ("School", 1200, 800),
    ("Bridge", 3300, 2600),
];

fn main() -> Result<(), Box<dyn Error>> {
    let mut stations = DelaunayTriangulation::new()?;
    for (name, x, y) in STATIONS {
        let place = Point2::new(x, y);
        stations.insert(Station { name, place })?;
    }
    println!("{} triangles", stations.num_inner_faces());

    let hiker = Point2::new(2500, 1500);
    say_where(&stations, hiker);
    let nearest = stations.nearest_neighbor(hiker).ok_or("no station")?;
    println!("nearest: {}", nearest.data().name);
    let mut around: Vec<_> = nearest
        .out_edges()
        .map(|edge| edge.to().data().name)
        .collect();
    around.sort();
    println!("around it: {}", around.join(", "));

    let closed = stations.remove(nearest.fix())?.removed_vertex;
    println!("{} closes", closed.name);
    say_where(&stations, hiker);
    say_where(&stations, Point2::new(6000, 0));
    let longest = stations
        .undirected_edges()
        .map(|edge| edge.length_2())
        .max();
    println!(
        "longest edge: {:.0} m",
        (longest.unwrap_or(0) as f64).sqrt()
    );
    println!("{} stations on the hull", stations.convex_hull().count());
    match stations.insert(Station {
        name: "Moon",
        place: Point2::new(1 << 54, 0),
    }) {
        Ok(_) => println!("Moon opens"),
        Err(error) => println!("Moon: {error}"),
    }
    Ok(())
}

/// Prints between which stations a point is.
fn say_where(stations: &DelaunayTriangulation<Station>, point: Point2) {
    let mut names: Vec<_> = match stations.locate(point) {
        Position::OnFace(face) => {
            let corners = stations.face(face).vertices();
            corners.map(|vertex| vertex.data().name).to_vec()
        }
        Position::OnEdge(edge) => {
            let edge = stations.directed_edge(edge);
            vec![edge.from().data().name, edge.to().data().name]
        }
        Position::OnVertex(vertex) => vec![stations.vertex(vertex).data().name],
        Position::OutsideOfConvexHull(_) | Position::NoTriangulation => Vec::new(),
    };
    names.sort();
    let Point2 { x, y } = point;
    match names[..] {
        [] => println!("({x}, {y}) is outside"),
        _ => println!("({x}, {y}) is between {}", names.join(", ")),
    }
}
