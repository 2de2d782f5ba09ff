//! What a line is answered.

use super::read::Given;
use dcel::handles::*;
use dcel::operations::*;
use dcel::{Dcel, Refusal};
use std::fmt::Display;

type Reply = Result<String, Refusal>;

/// Carries out what the line says, and returns its reply.
pub fn answer(dcel: &mut Dcel<i64>, word: &str, given: Given) -> Reply {
    match word {
        "append" | "triangle" | "put" => with_data(dcel, word, &given),
        "clear" => {
            dcel.clear();
            ok(())
        }
        "legalize" | "isolate" | "remesh" | "strip" | "cleanup" => with_lists(dcel, word, given),
        "counts" | "words" | "hull" | "out" | "origin" | "between" | "get" | "check" => {
            question(dcel, word, &given.numbers)
        }
        _ => edit(dcel, word, &given.numbers),
    }
}

fn ok((): ()) -> Reply {
    Ok("ok".into())
}

fn vertex(number: u32) -> FixedVertexHandle {
    FixedVertexHandle::new(number as usize)
}

fn half(number: u32) -> FixedDirectedEdgeHandle {
    FixedDirectedEdgeHandle::new(number as usize)
}

fn edge(number: u32) -> FixedUndirectedEdgeHandle {
    FixedUndirectedEdgeHandle::new(number as usize)
}

fn with_data(dcel: &mut Dcel<i64>, word: &str, given: &Given) -> Reply {
    match (word, &given.data[..]) {
        ("append", &[datum]) => named("vertex", append_unconnected_vertex(dcel, datum)?),
        ("triangle", &[a, b, c]) => ok(dcel.replace_by_triangle([a, b, c])?),
        _ => {
            let number = vertex(given.numbers[0]);
            dcel.get_vertex(number).ok_or(Refusal::NoSuchVertex)?;
            dcel.update_vertex(number, given.data[0]);
            ok(())
        }
    }
}

fn named<Type: DelaunayElementType>(name: &str, number: FixedHandleImpl<Type, InnerTag>) -> Reply {
    Ok(format!("{name} {}", number.index()))
}

fn edit(dcel: &mut Dcel<i64>, word: &str, numbers: &[u32]) -> Reply {
    let first = numbers[0];
    let second = numbers.last().copied().unwrap_or(first);
    match word {
        "setup" => ok(setup_initial_two_vertices(
            dcel,
            vertex(first),
            vertex(second),
        )?),
        "extend" => named("vertex", extend_line(dcel, vertex(first), vertex(second))?),
        "line" => listed(
            "halves",
            split_edge_when_all_vertices_on_line(dcel, half(first), vertex(second))?,
        ),
        "close" => named(
            "half",
            create_single_face_between_edge_and_next(dcel, half(first))?,
        ),
        "outside" => named(
            "vertex",
            create_new_face_adjacent_to_edge(dcel, half(first), vertex(second))?,
        ),
        "insert" => {
            let face = FixedFaceHandle::new(second as usize);
            named("vertex", insert_into_triangle(dcel, vertex(first), face)?)
        }
        "half" => listed(
            "halves",
            split_half_edge(dcel, half(first), vertex(second))?,
        ),
        "split" => listed("halves", split_edge(dcel, half(first), vertex(second))?),
        "flip" => ok(flip_cw(dcel, edge(first))?),
        "swap" => ok(dcel.swap_vertices(vertex(first), vertex(second))?),
        "remove" => removed(swap_remove_vertex(dcel, vertex(first))?),
        _ => removed(remove_when_degenerate(dcel, vertex(first))?),
    }
}

fn removed(result: RemovalResult<i64>) -> Reply {
    let moved = result
        .swapped_in_vertex
        .map(|vertex| format!(" moved {}", vertex.index()));
    Ok(format!(
        "removed {}{}",
        result.removed_vertex,
        moved.unwrap_or_default()
    ))
}

fn with_lists(dcel: &mut Dcel<i64>, word: &str, given: Given) -> Reply {
    let halves: Vec<_> = given.lists[0].iter().copied().map(half).collect();
    let edges = |list: usize| -> Vec<_> { given.lists[list].iter().copied().map(edge).collect() };
    let faces = |list: usize| -> Vec<_> {
        given.lists[list]
            .iter()
            .map(|face| FixedFaceHandle::new(*face as usize))
            .collect()
    };
    match word {
        "legalize" => {
            let legalized = legalize_by_number(dcel, given.numbers[0] as usize, &edges(0))?;
            let ended = match legalized {
                Legalized::Done { .. } => "done",
                Legalized::Stopped { .. } => "stopped",
                Legalized::OutOfMemory { .. } => "memory",
            };
            Ok(format!("flips {} {ended}", legalized.flips()))
        }
        "isolate" => opened(&isolate_vertex_and_fill_hole(
            dcel,
            &halves,
            vertex(given.numbers[0]),
        )?),
        "remesh" => opened(&remesh_edge_ring(dcel, &halves, &edges(1), &faces(2))?),
        "strip" => opened(&disconnect_edge_strip(dcel, &halves)?),
        _ => ok(cleanup_isolated_vertex(
            dcel,
            &mut IsolateVertexResult {
                new_edges: Vec::new(),
                smallest_new_edge: edge(0),
                edges_to_remove: edges(0),
                faces_to_remove: faces(1),
            },
        )?),
    }
}

fn opened(result: &IsolateVertexResult) -> Reply {
    let edges = list("opened edges", &result.edges_to_remove);
    let faces = list("faces", &result.faces_to_remove);
    Ok([edges, faces, list("new", &result.new_edges)].join(" "))
}

fn list<Type: DelaunayElementType>(name: &str, list: &[FixedHandleImpl<Type, InnerTag>]) -> String {
    let numbers = list.iter().map(|handle| format!(" {}", handle.index()));
    numbers.fold(name.into(), |text, number| text + &number)
}

fn listed(name: impl Display, edges: impl IntoIterator<Item = FixedDirectedEdgeHandle>) -> Reply {
    Ok(list(
        &name.to_string(),
        &edges.into_iter().collect::<Vec<_>>(),
    ))
}

fn question(dcel: &Dcel<i64>, word: &str, numbers: &[u32]) -> Reply {
    match (word, numbers) {
        ("words", _) => words(dcel),
        ("hull", _) => listed("hull", from_least(dcel.outer_face().directed_edges())),
        ("out", &[number]) => listed("out", from_least(live_vertex(dcel, number)?.out_edges())),
        ("origin", &[number]) => {
            if number as usize >= dcel.num_directed_edges() {
                return Err(Refusal::NoSuchEdge);
            }
            let edge = dcel
                .get_directed_edge(half(number))
                .ok_or(Refusal::GivenUp)?;
            named("vertex", edge.from().fix())
        }
        ("between", &[from, to]) => {
            for number in [from, to] {
                dcel.get_vertex(vertex(number))
                    .ok_or(Refusal::NoSuchVertex)?;
            }
            let [from, to] = [live_vertex(dcel, from)?.fix(), live_vertex(dcel, to)?.fix()];
            match dcel.get_edge_from_neighbors(from, to) {
                Some(edge) => named("half", edge.fix()),
                None => Ok("none".into()),
            }
        }
        ("get", &[number]) => {
            let vertex = dcel
                .get_vertex(vertex(number))
                .ok_or(Refusal::NoSuchVertex)?;
            Ok(format!("datum {}", vertex.data()))
        }
        ("check", _) => Ok(dcel.sanity_check().to_string()),
        _ => Ok(format!(
            "vertices {} edges {} faces {}",
            dcel.num_vertices(),
            dcel.num_undirected_edges(),
            dcel.num_faces()
        )),
    }
}

fn live_vertex(dcel: &Dcel<i64>, number: u32) -> Result<VertexHandle<'_, i64>, Refusal> {
    let vertex = dcel
        .get_vertex(vertex(number))
        .ok_or(Refusal::NoSuchVertex)?;
    if vertex.is_live() {
        Ok(vertex)
    } else {
        Err(Refusal::GivenUp)
    }
}

/// Lists half edges in their circle, from the least on.
fn from_least<'a>(
    edges: impl Iterator<Item = DirectedEdgeHandle<'a, i64>>,
) -> Vec<FixedDirectedEdgeHandle> {
    turned(edges.map(|edge| edge.fix()).collect())
}

fn turned(mut edges: Vec<FixedDirectedEdgeHandle>) -> Vec<FixedDirectedEdgeHandle> {
    let least = (0..edges.len()).min_by_key(|place| edges[*place]);
    edges.rotate_left(least.unwrap_or(0));
    edges
}

/// Shows the half edges round each live face, by links that are taken out once.
fn words(dcel: &Dcel<i64>) -> Reply {
    let links = dcel.links();
    let faces = dcel.live_faces().map(|face| face.fix());
    let lines: Result<Vec<_>, _> = faces
        .map(|face| {
            listed(
                format_args!("F{}", face.index()),
                turned(links.face_edges(face).collect()),
            )
        })
        .collect();
    Ok(lines?.join("\n"))
}
