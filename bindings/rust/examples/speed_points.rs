//! Measures triangulations as `speed_points.c` does: `speed_points POINTS PLACES`, files of pairs of
//! `i64`, x before y. Places are found one by one.

use dcel::delaunay::{DelaunayTriangulation, Point2, PositionInTriangulation};
use std::error::Error;
use std::fs;
use std::time::Instant;

fn points(name: &str) -> Result<Vec<Point2>, Box<dyn Error>> {
    let bytes = fs::read(name)?;
    let number = |bytes: &[u8]| i64::from_ne_bytes(bytes.try_into().unwrap());
    Ok(bytes
        .chunks_exact(16)
        .map(|pair| Point2::new(number(&pair[..8]), number(&pair[8..])))
        .collect())
}

fn main() -> Result<(), Box<dyn Error>> {
    let words: Vec<String> = std::env::args().skip(1).collect();
    let [points_file, places_file] = &words[..] else {
        return Err("name a file of points and one of places".into());
    };
    let (given, places) = (points(points_file)?, points(places_file)?);
    let start = Instant::now();
    let made = DelaunayTriangulation::<_>::bulk_load(given)?;
    let triangles: Vec<_> = made
        .inner_faces()
        .map(|face| face.vertices().map(|vertex| vertex.fix()))
        .collect();
    println!(
        "triangulate {} {}",
        start.elapsed().as_nanos(),
        triangles.len()
    );
    let start = Instant::now();
    let inside = places
        .iter()
        .filter(|&&place| matches!(made.locate(place), PositionInTriangulation::OnFace(_)))
        .count();
    println!("locate {} {inside}", start.elapsed().as_nanos());
    Ok(())
}
