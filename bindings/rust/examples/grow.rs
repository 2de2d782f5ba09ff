//! Grows a mesh of 10,000 vertices by edits, flips many of its edges, walks round each vertex, and
//! takes a tenth of the vertices out.
//!
//! It writes each edit as a line (docs/LINES.md) into the file that is named, and then to its
//! output what the line `words` shows of the mesh that is left.

use dcel::handles::*;
use dcel::operations::*;
use dcel::{Dcel, Refusal};
use std::error::Error;
use std::fs::File;
use std::io::{self, BufWriter, Write};

const VERTICES: u32 = 10_000;

type Done<T = ()> = Result<T, Box<dyn Error>>;

/// Numbers that look random, the same on every machine.
struct Draws(u64);

impl Draws {
    fn below(&mut self, bound: usize) -> usize {
        self.0 = self
            .0
            .wrapping_mul(6_364_136_223_846_793_005)
            .wrapping_add(1_442_695_040_888_963_407);
        (self.0 >> 33) as usize % bound
    }
}

fn main() -> Done {
    let name = std::env::args()
        .nth(1)
        .ok_or("name the file for the lines")?;
    let mut lines = BufWriter::new(File::create(name)?);
    let mut draws = Draws(1);
    let mut dcel: Dcel<u32> = new_triangle([0, 1, 2])?;
    writeln!(lines, "triangle 0 1 2")?;
    for datum in 3..VERTICES {
        grow(&mut dcel, datum, &mut draws, &mut lines)?;
    }
    walk_round(&dcel);
    let mut gone = 0;
    while gone < VERTICES / 10 {
        let vertex = FixedVertexHandle::new(draws.below(dcel.num_vertices()));
        gone += u32::from(take_out(&mut dcel, vertex, &mut lines)?);
    }
    writeln!(lines, "words")?;
    lines.flush()?;
    write_words(&dcel)
}

/// Puts a vertex into a triangle, and flips an edge if that can be done.
fn grow(dcel: &mut Dcel<u32>, datum: u32, draws: &mut Draws, lines: &mut impl Write) -> Done {
    let face = FixedFaceHandle::new(1 + draws.below(dcel.num_faces() - 1));
    let vertex = append_unconnected_vertex(dcel, datum)?;
    insert_into_triangle(dcel, vertex, face)?;
    writeln!(
        lines,
        "append {datum}\ninsert {} {}",
        vertex.index(),
        face.index()
    )?;
    let edge = FixedUndirectedEdgeHandle::new(draws.below(dcel.num_undirected_edges()));
    let can_flip = dcel.can_flip(edge);
    assert_eq!(flip_cw(dcel, edge).is_ok(), can_flip);
    writeln!(lines, "flip {}", edge.index())?;
    Ok(())
}

/// Goes round each vertex, by calls and by the links taken out once.
fn walk_round(dcel: &Dcel<u32>) {
    let links = dcel.links();
    let mut count = 0;
    for vertex in dcel.vertices() {
        let edges: Vec<_> = vertex.out_edges().map(|edge| edge.fix()).collect();
        assert!(links.out_edges(vertex.fix()).eq(edges.iter().copied()));
        assert!(edges.iter().all(|edge| links.from(*edge) == vertex.fix()));
        count += edges.len();
    }
    assert_eq!(count, dcel.num_directed_edges());
}

/// Takes a vertex out, if it lies inside triangles with no other edge between the same vertices.
fn take_out(dcel: &mut Dcel<u32>, vertex: FixedVertexHandle, lines: &mut impl Write) -> Done<bool> {
    let border: Vec<_> = dcel
        .vertex(vertex)
        .out_edges()
        .rev()
        .map(|edge| edge.next().fix())
        .collect();
    writeln!(lines, "isolate {}{}", vertex.index(), numbers(&border))?;
    let mut isolated = match isolate_vertex_and_fill_hole(dcel, &border, vertex) {
        Err(Refusal::BadRing) => return Ok(false),
        isolated => isolated?,
    };
    let (edges, faces) = (
        numbers(&isolated.edges_to_remove),
        numbers(&isolated.faces_to_remove),
    );
    writeln!(lines, "cleanup{edges} /{faces}\nremove {}", vertex.index())?;
    cleanup_isolated_vertex(dcel, &mut isolated)?;
    swap_remove_vertex(dcel, vertex)?;
    Ok(true)
}

fn numbers<Type: DelaunayElementType>(handles: &[FixedHandleImpl<Type, InnerTag>]) -> String {
    handles
        .iter()
        .map(|handle| format!(" {}", handle.index()))
        .collect()
}

/// Writes the half edges round each face, from the least on.
fn write_words(dcel: &Dcel<u32>) -> Done {
    let links = dcel.links();
    let mut output = BufWriter::new(io::stdout());
    for face in dcel.fixed_faces() {
        let mut edges: Vec<_> = links.face_edges(face).collect();
        let least = (0..edges.len()).min_by_key(|place| edges[*place]);
        edges.rotate_left(least.unwrap_or(0));
        writeln!(output, "F{}{}", face.index(), numbers(&edges))?;
    }
    Ok(output.flush()?)
}
