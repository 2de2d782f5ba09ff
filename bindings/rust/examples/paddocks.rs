//! A program for spade with the import exchanged, and its errors handled: a farm with fences, which
//! are constraints. It prints what it finds.

use dcel::delaunay::{ConstrainedDelaunayTriangulation, Point2, PositionInTriangulation};
use dcel::handles::FixedVertexHandle;
use std::collections::BTreeSet;
use std::error::Error;

type Farm = ConstrainedDelaunayTriangulation<Point2>;

fn main() -> Result<(), Box<dyn Error>> {
    let mut farm = Farm::new()?;
    let border = [(0, 0), (90, 0), (90, 60), (40, 70), (0, 60)].map(|(x, y)| Point2::new(x, y));
    farm.add_constraint_edges(border, true)?;
    let pond = [(60, 20), (70, 20), (70, 30), (60, 30)].map(|(x, y)| Point2::new(x, y));
    farm.add_constraint_edges(pond, true)?;
    let well = farm.insert(Point2::new(20, 30))?;
    say(&farm, "border and pond");

    let [gate, corner] = [(45, 0), (40, 70)].map(|(x, y)| farm.insert(Point2::new(x, y)));
    let (gate, corner) = (gate?, corner?);
    println!(
        "a fence from gate to corner: {}",
        farm.add_constraint(gate, corner)?
    );
    say(&farm, "fence");
    let lane = farm.insert(Point2::new(10, 10))?;
    let bank = farm.insert(Point2::new(65, 40))?;
    println!(
        "a hedge across it can be planted: {}",
        farm.can_add_constraint(lane, bank)
    );
    match farm.add_constraint(lane, bank) {
        Ok(_) => println!("planted"),
        Err(error) => println!("not planted: {error}"),
    }

    for (x, y) in [(20, 35), (64, 27), (82, 10), (95, 10)] {
        let depth = match farm.locate(Point2::new(x, y)) {
            PositionInTriangulation::OnFace(face) => farm.regions()[face.index()],
            _ => 0,
        };
        println!("({x}, {y}) is behind {depth} fences");
    }
    println!("around the well: {}", around(&farm, well));

    let fences: Vec<_> = farm
        .undirected_edges()
        .filter(|edge| farm.is_constraint_edge(edge.fix()))
        .map(|edge| (edge.length_2(), edge.fix()))
        .collect();
    let (longest, fence) = fences.iter().max().ok_or("no fence")?;
    println!(
        "the longest fence, {:.0} m, goes: {}",
        (*longest as f64).sqrt(),
        farm.remove_constraint_edge(*fence)?
    );
    say(&farm, "fence gone");
    println!(
        "now it can be planted: {}",
        farm.add_constraint(lane, bank)?
    );
    let removed = farm.remove(lane)?.removed_vertex;
    println!("({}, {}) is ploughed", removed.x, removed.y);
    say(&farm, "hedge gone with its end");
    Ok(())
}

fn say(farm: &Farm, what: &str) {
    let [triangles, fences] = [farm.num_inner_faces(), farm.num_constraints()];
    let inside = farm
        .regions()
        .iter()
        .filter(|depth| *depth % 2 == 1)
        .count();
    println!("{what}: {triangles} triangles, {inside} on land, {fences} fences");
}

/// Lists the points that edges join to a vertex.
fn around(farm: &Farm, vertex: FixedVertexHandle) -> String {
    let ends = farm
        .vertex(vertex)
        .out_edges()
        .map(|edge| edge.to().position());
    let points: BTreeSet<_> = ends.collect();
    let words: Vec<_> = points
        .iter()
        .map(|it| format!("({}, {})", it.x, it.y))
        .collect();
    words.join(" ")
}
