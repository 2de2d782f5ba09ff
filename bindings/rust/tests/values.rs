//! Values: where they lie, that they follow their elements, and that each is dropped exactly once.

mod common;

use common::*;
use dcel::handles::*;
use dcel::operations::*;
use dcel::{Dcel, Refusal};
use std::cell::RefCell;
use std::collections::HashSet;

thread_local! {
    /// The values of this thread that weren't dropped yet, and how many there ever were.
    static LIVE: RefCell<(HashSet<u64>, u64)> = RefCell::default();
}

/// A value with a tag. No two are one, and dropping one twice panics.
#[derive(Debug)]
struct Value {
    id: u64,
    tag: u64,
}

impl Value {
    fn new(tag: u64) -> Self {
        LIVE.with_borrow_mut(|(live, made)| {
            *made += 1;
            live.insert(*made);
            Self { id: *made, tag }
        })
    }
}

impl Default for Value {
    fn default() -> Self {
        Self::new(0)
    }
}

impl Clone for Value {
    fn clone(&self) -> Self {
        Self::new(self.tag)
    }
}

impl Drop for Value {
    fn drop(&mut self) {
        assert!(
            LIVE.with_borrow_mut(|(live, _)| live.remove(&self.id)),
            "a value is dropped twice"
        );
    }
}

/// How many values there are.
fn live() -> usize {
    LIVE.with_borrow(|(live, _)| live.len())
}

type Mesh = Dcel<Value, Value, Value, Value>;

/// The default values of a mesh: one for half edges, edges and faces each.
const DEFAULTS: usize = 3;

/// A triangle round a vertex, with a written value for each element.
fn written() -> Mesh {
    let mut dcel: Mesh = new_triangle([1, 2, 3].map(Value::new)).unwrap();
    let vertex = append_unconnected_vertex(&mut dcel, Value::new(4)).unwrap();
    insert_into_triangle(&mut dcel, vertex, f(1)).unwrap();
    write_all(&mut dcel, 100);
    dcel
}

/// Writes to each half edge, edge and face that has the default value.
fn write_all(dcel: &mut Mesh, first: u64) -> u64 {
    let mut tags = first..;
    let mut write = |value: &mut Value| {
        if value.tag == 0 {
            value.tag = tags.next().unwrap();
        }
    };
    for edge in 0..dcel.num_directed_edges() {
        write(dcel.directed_edge_data_mut(e(edge)));
    }
    for edge in 0..dcel.num_undirected_edges() {
        write(dcel.undirected_edge_data_mut(u(edge)));
    }
    for face in dcel.fixed_faces() {
        write(dcel.face_data_mut(face));
    }
    tags.next().unwrap()
}

/// How many values a mesh has where each element is written.
fn size(dcel: &Mesh) -> usize {
    DEFAULTS + dcel.num_vertices() + 3 * dcel.num_undirected_edges() + dcel.num_faces()
}

/// The tags of live elements, by the tags of the vertices that they lie at, and sorted.
fn tags(dcel: &Mesh) -> Vec<Vec<u64>> {
    let tag = |vertex: VertexHandle<'_, Value, Value, Value, Value>| vertex.data().tag;
    let mut found: Vec<Vec<u64>> = dcel
        .live_vertices()
        .map(|vertex| vec![tag(vertex)])
        .collect();
    for edge in dcel.live_directed_edges() {
        found.push(vec![tag(edge.from()), tag(edge.to()), edge.data().tag]);
    }
    for edge in dcel.live_undirected_edges() {
        let [from, to] = edge.vertices();
        found.push(vec![0, tag(from), tag(to), edge.data().tag]);
    }
    for face in dcel.live_faces() {
        let mut corners: Vec<u64> = face.directed_edges().map(|edge| tag(edge.from())).collect();
        corners.sort_unstable();
        corners.extend([0, 0, 0, 0, face.data().tag]);
        found.push(corners);
    }
    found.sort_unstable();
    found
}

#[test]
fn unwritten_values_are_the_default() {
    let mut dcel: Dcel<_, u8, String, Option<char>> = new_triangle(['a', 'b', 'c']).unwrap();
    assert!(dcel.directed_edges().all(|edge| *edge.data() == 0));
    assert!(dcel.undirected_edges().all(|edge| edge.data().is_empty()));
    assert!(dcel.faces().all(|face| face.data().is_none()));

    *dcel.directed_edge_data_mut(e(3)) = 7;
    dcel.undirected_edge_data_mut(u(1)).push('x');
    *dcel.face_data_mut(f(1)) = Some('y');
    assert!(
        dcel.directed_edges()
            .map(|edge| *edge.data())
            .eq([0, 0, 0, 7, 0, 0])
    );
    assert!(
        dcel.undirected_edges()
            .map(|edge| edge.data().as_str())
            .eq(["", "x", ""])
    );
    assert!(dcel.faces().map(|face| *face.data()).eq([None, Some('y')]));

    let vertex = append_unconnected_vertex(&mut dcel, 'd').unwrap();
    insert_into_triangle(&mut dcel, vertex, f(1)).unwrap();
    assert!(
        dcel.faces()
            .map(|face| *face.data())
            .eq([None, Some('y'), None, None])
    );
    assert_eq!(
        dcel.directed_edges()
            .filter(|edge| *edge.data() != 0)
            .count(),
        1
    );
}

#[test]
fn only_written_values_are_made() {
    let mut dcel: Mesh = new_triangle([1, 2, 3].map(Value::new)).unwrap();
    assert_eq!(live(), DEFAULTS + 3);
    assert!(dcel.directed_edges().all(|edge| edge.data().tag == 0));
    assert_eq!(live(), DEFAULTS + 3);
    dcel.directed_edge_data_mut(e(5)).tag = 9;
    dcel.directed_edge_data_mut(e(5)).tag += 1;
    assert_eq!(
        (live(), dcel.directed_edge_data(e(5)).tag),
        (DEFAULTS + 4, 10)
    );
    drop(dcel);
    assert_eq!(live(), 0);
}

#[test]
fn a_removal_drops_what_it_takes_out() {
    let mut dcel = written();
    assert_eq!(live(), size(&dcel));
    let border = border_loop(dcel.vertex(v(3)));
    let mut isolated = isolate_vertex_and_fill_hole(&mut dcel, &border, v(3)).unwrap();
    assert_eq!(live(), size(&dcel) - 1); // one face is new
    assert_eq!(
        dcel.undirected_edge_data(isolated.edges_to_remove[0]).tag,
        115
    ); // given up, and still there
    let before = tags(&dcel);

    cleanup_isolated_vertex(&mut dcel, &mut isolated).unwrap();
    assert_eq!(tags(&dcel), before);
    assert_eq!(live(), size(&dcel) - 1);

    let removed = swap_remove_vertex(&mut dcel, v(3)).unwrap();
    assert_eq!(removed.removed_vertex.tag, 4);
    assert_eq!(live(), size(&dcel)); // the removed one is still held
    drop(removed);
    assert_eq!(live(), size(&dcel) - 1);
    drop(dcel);
    assert_eq!(live(), 0);
}

#[test]
fn a_refused_cleanup_drops_nothing() {
    let mut dcel = written();
    let border = border_loop(dcel.vertex(v(3)));
    let isolated = isolate_vertex_and_fill_hole(&mut dcel, &border, v(3)).unwrap();
    let (before, count) = (tags(&dcel), live());
    let mut wrong = isolated.clone();
    wrong.edges_to_remove.extend([u(0), u(0), u(77)]);
    assert_eq!(
        cleanup_isolated_vertex(&mut dcel, &mut wrong),
        Err(Refusal::NoSuchEdge)
    );
    wrong.edges_to_remove.pop();
    assert_eq!(
        cleanup_isolated_vertex(&mut dcel, &mut wrong),
        Err(Refusal::WrongLists)
    );
    assert_eq!((tags(&dcel), live()), (before, count));
}

#[test]
fn a_vertex_comes_out_of_a_line_with_its_edge() {
    for gone in 0..4 {
        let data = [1, 2, 3, 4].map(Value::new).into();
        let mut dcel: Mesh = new_with_fixed_vertices(data, v(0), v(1)).unwrap();
        extend_line(&mut dcel, v(1), v(2)).unwrap();
        extend_line(&mut dcel, v(2), v(3)).unwrap();
        write_all(&mut dcel, 100);
        assert_eq!(live(), size(&dcel));
        let anchor = dcel.vertex(v(gone)).out_edge().unwrap();
        let edge = anchor.ccw();
        let gone_tags = [
            edge.data().tag,
            edge.rev().data().tag,
            edge.as_undirected().data().tag,
        ];
        let edge_tags = |dcel: &Mesh| -> HashSet<u64> {
            let halves = dcel.directed_edges().map(|edge| edge.data().tag);
            halves
                .chain(dcel.undirected_edges().map(|edge| edge.data().tag))
                .collect()
        };
        let mut left = edge_tags(&dcel);
        let removed = remove_when_degenerate(&mut dcel, v(gone)).unwrap();
        assert_eq!(removed.removed_vertex.tag, gone as u64 + 1);
        drop(removed);
        assert_eq!(live(), size(&dcel));
        assert!(gone_tags.iter().all(|tag| left.remove(tag)));
        assert_eq!(edge_tags(&dcel), left);
        while dcel.num_vertices() > 0 {
            remove_when_degenerate(&mut dcel, v(0)).unwrap();
            assert_eq!(live(), size(&dcel));
        }
        drop(dcel);
        assert_eq!(live(), 0);
    }
}

#[test]
fn clear_keeps_the_outer_face() {
    let mut dcel = written();
    let kept = dcel.outer_face().data().tag;
    dcel.clear();
    assert_eq!((live(), dcel.outer_face().data().tag), (DEFAULTS + 1, kept));
    dcel.clear();
    assert_eq!((live(), dcel.outer_face().data().tag), (DEFAULTS + 1, kept));
    append_unconnected_vertex(&mut dcel, Value::new(5)).unwrap();
    assert_eq!((live(), dcel.outer_face().data().tag), (DEFAULTS + 2, kept));

    let mut unwritten: Mesh = Dcel::default();
    unwritten.clear();
    assert_eq!(unwritten.outer_face().data().tag, 0);

    // Its key isn't the first of its kind.
    let mut other: Mesh = new_triangle([1, 2, 3].map(Value::new)).unwrap();
    other.face_data_mut(f(1)).tag = 7;
    other.face_data_mut(OUTER_FACE).tag = 8;
    other.clear();
    assert_eq!(other.outer_face().data().tag, 8);
    drop((dcel, unwritten, other));
    assert_eq!(live(), 0);
}

#[test]
fn a_triangle_in_place_of_the_mesh_drops_all() {
    let mut dcel = written();
    dcel.replace_by_triangle([7, 8, 9].map(Value::new)).unwrap();
    assert_eq!(live(), DEFAULTS + 3);
    assert!(
        dcel.vertices()
            .map(|vertex| vertex.data().tag)
            .eq([7, 8, 9])
    );
    assert!(dcel.faces().all(|face| face.data().tag == 0));
    drop(dcel);
    assert_eq!(live(), 0);
}

#[test]
fn a_clone_has_values_of_its_own() {
    let mut dcel = written();
    take_out(&mut dcel, v(3)).unwrap(); // some keys are free
    let clone = dcel.clone();
    assert_eq!(tags(&clone), tags(&dcel));
    assert_eq!(live(), 2 * size(&dcel) - 2); // the new face of each isn't written
    let vertex = append_unconnected_vertex(&mut dcel, Value::new(5)).unwrap();
    dcel.face_data_mut(f(1)).tag = 55;
    assert_ne!(tags(&clone), tags(&dcel));
    assert_eq!(dcel.vertex_data(vertex).tag, 5);
    drop(dcel);
    assert_eq!(live(), size(&clone) - 1);
    drop(clone);
    assert_eq!(live(), 0);
}

#[test]
fn refused_values_come_back() {
    let data: Vec<Value> = [1, 2, 3].map(Value::new).into();
    let refused = new_with_fixed_vertices::<_, Value, Value, Value>(data, v(0), v(3)).unwrap_err();
    assert!(refused.back.iter().map(|value| value.tag).eq([1, 2, 3]));
    assert_eq!(live(), 3);
    drop(refused);
    assert_eq!(live(), 0);
}

#[test]
fn given_values_are_dropped_once() {
    let links = written().links();
    let entries: Vec<_> = links
        .directed_edges()
        .filter_map(|edge| links.get(edge))
        .collect();
    let values = || (0..4).map(Value::new).collect::<Vec<_>>();
    let dcel: Mesh = from_links(&entries, values(), values()).unwrap();
    assert_eq!(live(), 8 + DEFAULTS);
    drop(dcel);
    assert_eq!(live(), 0);
    let made: Result<Mesh, _> = from_links(&entries[..11], values(), values());
    let refused = made.unwrap_err();
    assert_eq!((refused.back.0.len(), refused.back.1.len()), (4, 4));
    assert_eq!(live(), 8);
    drop(refused);
    let made: Result<Mesh, _> = from_faces(values(), [[v(0), v(1), v(2)], [v(2), v(1), v(3)]]);
    assert_eq!(live(), 4 + DEFAULTS);
    drop(made);
    let made: Result<Mesh, _> = from_faces(values(), [[v(0), v(1), v(4)]]);
    assert_eq!(made.unwrap_err().back.len(), 4);
    assert_eq!(live(), 0);
}

#[test]
fn updates_drop_the_old_value() {
    let mut dcel = written();
    let before = live();
    dcel.update_vertex(v(0), Value::new(77));
    assert_eq!((live(), dcel.vertex_data(v(0)).tag), (before, 77));
    dcel.vertex_data_mut(v(0)).tag = 78;
    assert_eq!(dcel.vertex_data(v(0)).tag, 78);
}

#[test]
fn mapped_values() {
    let mut dcel = written();
    take_out(&mut dcel, v(3)).unwrap();
    dcel.swap_vertices(v(0), v(2)).unwrap();
    let mut order = Vec::new();
    let mapped = dcel.map_vertices(|value| {
        order.push(value.tag);
        value.tag.to_string()
    });
    assert_eq!(order, [3, 2, 1]);
    let texts = mapped.vertices().map(|vertex| vertex.data().as_str());
    assert!(texts.eq(["3", "2", "1"]));
    let edges: Vec<u64> = mapped
        .undirected_edges()
        .map(|edge| edge.data().tag)
        .collect();
    let mapped = mapped.map_undirected_edges(|value| value.tag);
    assert!(mapped.undirected_edges().map(|edge| *edge.data()).eq(edges));
    drop(mapped);
    assert_eq!(live(), 0);
}

#[test]
fn unwritten_edges_are_mapped_each() {
    let dcel: Mesh = new_triangle([1, 2, 3].map(Value::new)).unwrap();
    let mut calls = 0;
    let mut mapped = dcel.map_undirected_edges(|value| {
        calls += 1;
        value.tag + calls
    });
    assert!(
        mapped
            .undirected_edges()
            .map(|edge| *edge.data())
            .eq([1, 2, 3])
    );
    let vertex = append_unconnected_vertex(&mut mapped, Value::new(4)).unwrap();
    insert_into_triangle(&mut mapped, vertex, f(1)).unwrap();
    assert!(
        mapped
            .undirected_edges()
            .map(|edge| *edge.data())
            .eq([1, 2, 3, 0, 0, 0])
    );
    drop(mapped);
    assert_eq!(live(), 0);
}

#[test]
fn a_panic_in_a_map_drops_all() {
    let dcel = written();
    let mut calls = 0;
    let mapped = std::panic::catch_unwind(std::panic::AssertUnwindSafe(|| {
        dcel.map_vertices(|value| {
            calls += 1;
            assert!(calls < 3, "the third");
            value
        })
    }));
    assert!(mapped.is_err());
    assert_eq!(live(), 0);
}

/// Grows and shrinks a mesh at random, and looks at the values after each step.
#[test]
fn values_follow_their_elements() {
    let mut draws = Draws(5);
    let mut dcel: Mesh = new_triangle([1, 2, 3].map(Value::new)).unwrap();
    let (mut next, mut removals) = (100, 0);
    for step in 0..600 {
        let vertices = dcel.num_vertices();
        if vertices < 40 && draws.below(3) > 0 {
            let vertex = append_unconnected_vertex(&mut dcel, Value::new(10 + step)).unwrap();
            let faces = dcel.num_faces() - 1;
            insert_into_triangle(&mut dcel, vertex, f(1 + draws.below(faces))).unwrap();
            let edge = u(draws.below(dcel.num_undirected_edges()));
            let _ = flip_cw(&mut dcel, edge);
            next = write_all(&mut dcel, next);
            let before = tags(&dcel);
            dcel.swap_vertices(vertex, v(draws.below(vertices)))
                .unwrap();
            assert_eq!(tags(&dcel), before);
        } else {
            removals += usize::from(removed(&mut dcel, v(draws.below(vertices))));
            next = write_all(&mut dcel, next);
        }
        assert_eq!(live(), size(&dcel));
    }
    assert!(dcel.sanity_check() && removals > 50);
    drop(dcel);
    assert_eq!(live(), 0);
}

/// Takes a vertex out if it can be, and looks at the values in each stage.
fn removed(dcel: &mut Mesh, vertex: FixedVertexHandle) -> bool {
    let border = border_loop(dcel.vertex(vertex));
    let Ok(mut isolated) = isolate_vertex_and_fill_hole(dcel, &border, vertex) else {
        return false;
    };
    let before = tags(dcel);
    cleanup_isolated_vertex(dcel, &mut isolated).unwrap();
    assert_eq!(tags(dcel), before);
    swap_remove_vertex(dcel, vertex).unwrap();
    assert_eq!(tags(dcel), before);
    true
}

/// All data of a mesh: of vertices, half edges, edges and faces, one after another.
fn all_data(dcel: &Dcel<i64, i64, i64, i64>) -> Vec<i64> {
    let vertices = dcel.vertices().map(|it| *it.data());
    let half_edges = dcel.directed_edges().map(|it| *it.data());
    let edges = dcel.undirected_edges().map(|it| *it.data());
    let faces = dcel.faces().map(|it| *it.data());
    vertices
        .chain(half_edges)
        .chain(edges)
        .chain(faces)
        .collect()
}

#[test]
fn a_write_changes_one_datum() {
    let mut dcel: Dcel<i64, i64, i64, i64> = new_triangle([0, 1, 2]).unwrap();
    let vertex = append_unconnected_vertex(&mut dcel, 3).unwrap();
    insert_into_triangle(&mut dcel, vertex, f(1)).unwrap();
    let (links, mut wanted) = (dcel.links(), all_data(&dcel));
    assert_eq!(wanted, [vec![0, 1, 2, 3], vec![0; 22]].concat());
    for place in 0..26 {
        let datum = 100 + place as i64;
        match place {
            0..4 => *dcel.vertex_data_mut(v(place)) = datum,
            4..16 => *dcel.directed_edge_data_mut(e(place - 4)) = datum,
            16..22 => *dcel.undirected_edge_data_mut(u(place - 16)) = datum,
            22 => *dcel.face_data_mut(OUTER_FACE) = datum,
            _ => *dcel.face_data_mut(f(place - 22)) = datum,
        }
        wanted[place] = datum;
        assert_eq!(all_data(&dcel), wanted, "{datum}");
    }
    dcel.update_vertex(v(3), -103);
    wanted[3] = -103;
    assert_eq!(all_data(&dcel), wanted);
    assert_eq!(dcel.links(), links);
}
