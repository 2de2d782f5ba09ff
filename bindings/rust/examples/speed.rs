//! Measures what `dcel_speed` measures, with a mesh of this crate: `insert`, `walk`, `flip` and `remove`,
//! and `walk_links`, the same walk over links that were taken out.
//!
//! `speed insert,walk 1000,100000` runs these workloads at these sizes. Lines and further words are
//! those of `dcel_speed`: the nanoseconds for an operation, the checksum, and the number of operations.

use dcel::handles::*;
use dcel::operations::*;
use dcel::{Dcel, Links};
use std::env;
use std::error::Error;
use std::time::{Duration, Instant};

type Done<T> = Result<T, Box<dyn Error>>;

/// The meshes measured: each vertex has a number, and all else a `D`.
type Mesh<D> = Dcel<i64, D, D, D>;

/// How long a run took, its checksum, and how many operations it had.
type Timed = (Duration, u64, usize);

fn main() -> Done<()> {
    let words: Vec<String> = env::args().skip(1).collect();
    let [workloads, sizes, further @ ..] = &words[..] else {
        return Err("name workloads and sizes".into());
    };
    let shows_time = !further.iter().any(|word| word == "checksums");
    for workload in workloads.split(',') {
        for size in sizes.split(',') {
            let size = size.parse()?;
            let (elapsed, checksum, operations) = if further.iter().any(|word| word == "full") {
                measured::<i64>(workload, size)?
            } else {
                measured::<()>(workload, size)?
            };
            let tenths = elapsed.as_nanos() * 10 / operations.max(1) as u128;
            let time = if shows_time {
                format!("{}.{} ", tenths / 10, tenths % 10)
            } else {
                String::new()
            };
            println!("{workload} {size} {time}{checksum} {operations}");
        }
    }
    Ok(())
}

/// Runs a workload at least three times and for a tenth of a second, and returns the fastest run.
fn measured<D: Default + Clone>(workload: &str, size: usize) -> Done<Timed> {
    let built = triangulated::<D>(size)?;
    let links = built.links();
    let plan = if workload == "remove" {
        plan_of(&built)?
    } else {
        Vec::new()
    };
    let run = || match workload {
        "insert" => timed(|| triangulated::<D>(size), |dcel| (digest_of(dcel), size)),
        "walk" => timed(|| Ok(ends_of_out_edges(&built)), |outcome| *outcome),
        "walk_links" => timed(
            || Ok(ends_by_links(&links, built.num_vertices())),
            |outcome| *outcome,
        ),
        "flip" => editing(&built, size, |dcel| Ok(flip_drawn(dcel, size))),
        "remove" => editing(&built, plan.len(), |dcel| remove_all(dcel, &plan)),
        _ => Err(format!("{workload} is no workload").into()),
    };
    let mut best: Timed = run()?;
    let (mut total, mut runs) = (best.0, 1);
    while runs < 3 || total < Duration::from_millis(100) {
        let next = run()?;
        total += next.0;
        runs += 1;
        best = best.min(next);
    }
    Ok(best)
}

fn timed<T>(
    work: impl FnOnce() -> Done<T>,
    outcome: impl FnOnce(&T) -> (u64, usize),
) -> Done<Timed> {
    let start = Instant::now();
    let result = work()?;
    let elapsed = start.elapsed();
    let (checksum, operations) = outcome(&result);
    Ok((elapsed, checksum, operations))
}

/// Times edits of a clone, and mixes what they answer into the checksum.
fn editing<D: Clone>(
    built: &Mesh<D>,
    operations: usize,
    edit: impl FnOnce(&mut Mesh<D>) -> Done<u64>,
) -> Done<Timed> {
    let mut dcel = built.try_clone()?;
    let (elapsed, answer, operations) = timed(|| edit(&mut dcel), |answer| (*answer, operations))?;
    let checksum = (digest_of(&dcel) ^ answer)
        .wrapping_mul(PRIME)
        .rotate_left(17);
    Ok((elapsed, checksum, operations))
}

/// Random numbers that are the same on every machine.
struct Random(u64);

impl Random {
    fn new(own: u64) -> Self {
        Self(20_240_607 + own)
    }

    fn below(&mut self, count: usize) -> usize {
        self.0 = self
            .0
            .wrapping_mul(6_364_136_223_846_793_005)
            .wrapping_add(1_442_695_040_888_963_407);
        (((self.0 >> 33) * count as u64) >> 31) as usize
    }
}

const PRIME: u64 = 0x0000_0100_0000_01b3;

/// A sum over the counts of a mesh and the links of its half edges.
fn digest_of<D>(dcel: &Mesh<D>) -> u64 {
    let counts = [
        dcel.num_vertices(),
        dcel.num_undirected_edges(),
        dcel.num_faces(),
    ];
    let links = dcel.links();
    let entries = links
        .directed_edges()
        .filter_map(|edge| links.get(edge))
        .flat_map(|entry| {
            [
                entry.next.index(),
                entry.prev.index(),
                entry.origin.index(),
                entry.face.index(),
            ]
        });
    let numbers = counts.into_iter().chain(entries);
    numbers.fold(0xcbf2_9ce4_8422_2325, |state, number| {
        (state ^ number as u64).wrapping_mul(PRIME)
    })
}

/// Builds a triangle, and puts so many vertices more into inner faces drawn at random.
fn triangulated<D: Default>(size: usize) -> Done<Mesh<D>> {
    let mut dcel = new_triangle([0, 1, 2])?;
    let mut random = Random::new(0);
    for datum in 3..size as i64 + 3 {
        let face = FixedFaceHandle::new(1 + random.below(dcel.num_faces() - 1));
        let vertex = append_unconnected_vertex(&mut dcel, datum)?;
        insert_into_triangle(&mut dcel, vertex, face)?;
    }
    Ok(dcel)
}

/// Goes round each vertex, and sums the numbers of its neighbors.
fn ends_of_out_edges<D>(dcel: &Mesh<D>) -> (u64, usize) {
    let edges = dcel.vertices().flat_map(|vertex| vertex.out_edges());
    edges.fold((0, 0), |(sum, count), edge| {
        (sum + edge.to().index() as u64, count + 1)
    })
}

/// The same by links.
fn ends_by_links(links: &Links, vertices: usize) -> (u64, usize) {
    let edges = (0..vertices).flat_map(|vertex| links.out_edges(FixedVertexHandle::new(vertex)));
    edges.fold((0, 0), |(sum, count), edge| {
        (sum + links.to(edge).index() as u64, count + 1)
    })
}

/// Draws edges, flips those that can be flipped, and returns how many were.
fn flip_drawn<D>(dcel: &mut Mesh<D>, draws: usize) -> u64 {
    let mut random = Random::new(3);
    let edges = dcel.num_undirected_edges();
    let flipped = (0..draws).filter(|_| {
        let edge = FixedUndirectedEdgeHandle::new(random.below(edges));
        flip_cw(dcel, edge).is_ok()
    });
    flipped.count() as u64
}

/// Removes these vertices, and returns a hash of their data.
fn remove_all<D>(dcel: &mut Mesh<D>, plan: &[FixedVertexHandle]) -> Done<u64> {
    plan.iter().try_fold(0, |sum: u64, vertex| {
        let datum = remove(dcel, *vertex).ok_or("a vertex of the plan can't be removed")?;
        Ok(sum.wrapping_mul(31).wrapping_add(datum as u64))
    })
}

/// Removes a vertex, if its border is one, and returns its datum.
fn remove<D>(dcel: &mut Mesh<D>, vertex: FixedVertexHandle) -> Option<i64> {
    let border = border_of(dcel.vertex(vertex))?;
    let mut isolated = isolate_vertex_and_fill_hole(dcel, &border, vertex).ok()?;
    cleanup_isolated_vertex(dcel, &mut isolated).ok()?;
    Some(swap_remove_vertex(dcel, vertex).ok()?.removed_vertex)
}

/// Lists what comes after the out edges of a vertex, clockwise and the least one last.
fn border_of<D>(vertex: VertexHandle<'_, i64, D, D, D>) -> Option<Vec<FixedDirectedEdgeHandle>> {
    let (least, count) = vertex
        .out_edges()
        .fold((vertex.out_edge()?, 0), |(least, count), edge| {
            (least.min(edge), count + 1)
        });
    let mut edge = least;
    let turned = (0..count).map(|_| {
        edge = edge.cw();
        edge.next().fix()
    });
    Some(turned.collect())
}

/// Draws an order in which vertices can be removed, each under the number that it has by then.
fn plan_of<D: Clone>(built: &Mesh<D>) -> Done<Vec<FixedVertexHandle>> {
    let mut dcel = built.try_clone()?;
    let mut numbers: Vec<_> = dcel.fixed_vertices().collect();
    let mut inside: Vec<usize> = (3..numbers.len()).collect();
    let mut random = Random::new(6);
    for place in (1..inside.len()).rev() {
        inside.swap(place, random.below(place + 1));
    }
    let mut plan = Vec::new();
    for first_number in inside {
        let vertex = numbers[first_number];
        if remove(&mut dcel, vertex).is_none() {
            continue;
        }
        plan.push(vertex);
        if let Some(moved) = dcel.get_vertex(vertex) {
            numbers[*moved.data() as usize] = vertex; // its datum is its first number
        }
    }
    Ok(plan)
}
