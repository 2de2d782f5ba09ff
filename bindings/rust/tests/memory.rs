//! Each request for memory is refused in turn, first those of the values alone, then those of the
//! library too: the call says so, gives back what it was given, and the mesh is as it was.

mod common;

use common::*;
use dcel::delaunay::{
    ConstrainedDelaunayTriangulation, ConstraintError, DelaunayTriangulation, InsertionError, Kind,
    Point2, RefinementParameters, Triangulation,
};
use dcel::operations::*;
use dcel::{Dcel, Refusal};
use std::alloc::{GlobalAlloc, Layout, System};
use std::cell::Cell;
use std::ffi::c_void;
use std::ptr;

thread_local! {
    /// How many requests of this thread's values are still met.
    static LEFT: Cell<usize> = const { Cell::new(usize::MAX) };

    /// How many requests of this thread are still met, with those of the library.
    static LEFT_OF_ALL: Cell<usize> = const { Cell::new(usize::MAX) };
}

struct Refusing;

#[global_allocator]
static REFUSING: Refusing = Refusing;

fn is_met(left: &Cell<usize>) -> bool {
    let met = left.get();
    left.set(met.saturating_sub(1));
    met > 0
}

// SAFETY: what is met is the system's, and nothing is what a refused request gets.
unsafe impl GlobalAlloc for Refusing {
    unsafe fn alloc(&self, layout: Layout) -> *mut u8 {
        if LEFT.with(is_met) {
            unsafe { System.alloc(layout) }
        } else {
            ptr::null_mut()
        }
    }

    unsafe fn dealloc(&self, block: *mut u8, layout: Layout) {
        unsafe { System.dealloc(block, layout) }
    }

    unsafe fn realloc(&self, block: *mut u8, layout: Layout, size: usize) -> *mut u8 {
        if LEFT.with(is_met) {
            unsafe { System.realloc(block, layout, size) }
        } else {
            ptr::null_mut()
        }
    }
}

unsafe extern "C" {
    fn __libc_malloc(size: usize) -> *mut c_void;
    fn __libc_realloc(block: *mut c_void, size: usize) -> *mut c_void;
}

/// What the library asks for memory, as the system does for values.
#[unsafe(no_mangle)]
extern "C" fn malloc(size: usize) -> *mut c_void {
    if LEFT_OF_ALL.with(is_met) {
        // SAFETY: it is what `malloc` is where nothing takes its place.
        unsafe { __libc_malloc(size) }
    } else {
        ptr::null_mut()
    }
}

/// # Safety
///
/// That of C's.
#[unsafe(no_mangle)]
unsafe extern "C" fn realloc(block: *mut c_void, size: usize) -> *mut c_void {
    if LEFT_OF_ALL.with(is_met) {
        // SAFETY: as above.
        unsafe { __libc_realloc(block, size) }
    } else {
        ptr::null_mut()
    }
}

/// Calls with so many requests of values met.
fn with_memory<T>(met: usize, call: impl FnOnce() -> T) -> T {
    LEFT.set(met);
    let result = call();
    LEFT.set(usize::MAX);
    result
}

/// Calls with so many requests met, of values and of the library.
fn with_memory_for_all<T>(met: usize, call: impl FnOnce() -> T) -> T {
    LEFT_OF_ALL.set(met);
    let result = call();
    LEFT_OF_ALL.set(usize::MAX);
    result
}

/// Calls with one request more each time, until nothing is refused, and returns how many were
/// needed. `check` is handed each refusal.
#[track_caller]
fn sweep<T, E>(mut call: impl FnMut(usize) -> Result<T, E>, check: impl Fn(E)) -> usize {
    for met in 0..100 {
        match call(met) {
            Ok(_) => return met,
            Err(refused) => check(refused),
        }
    }
    panic!("it finds no memory, however much there is");
}

#[test]
fn an_appended_vertex() {
    let needed = sweep(
        |met| {
            let mut dcel = round().try_clone().unwrap(); // which has no room to spare
            let made = with_memory(met, || append_unconnected_vertex(&mut dcel, 10));
            let values: Vec<_> = dcel.vertices().map(|vertex| *vertex.data()).collect();
            assert_eq!(values, [0, 1, 2, 3, 10][..4 + usize::from(made.is_ok())]);
            made
        },
        |refused| assert_eq!((refused.why, refused.back), (Refusal::OutOfMemory, 10)),
    );
    assert_eq!(needed, 1);
}

#[test]
fn room() {
    let needed = sweep(
        |met| {
            let mut dcel = round();
            with_memory(met, || dcel.reserve_capacity(100, 100, 100))
        },
        |refused| assert_eq!(refused, Refusal::OutOfMemory),
    );
    assert_eq!(needed, 1);
    // Values that no memory holds.
    let mut dcel = Dcel::<[u64; 1 << 40]>::new().unwrap();
    assert_eq!(
        dcel.reserve_capacity(1 << 10, 0, 0),
        Err(Refusal::OutOfMemory)
    );
}

#[test]
fn a_triangle() {
    let needed = sweep(
        |met| with_memory(met, || new_triangle::<_, (), (), ()>([7, 8, 9])),
        |refused| {
            assert_eq!(
                (refused.why, refused.back),
                (Refusal::OutOfMemory, [7, 8, 9])
            )
        },
    );
    assert_eq!(needed, 1);
    let needed = sweep(
        |met| with_memory_for_all(met, || new_triangle::<_, (), (), ()>([7, 8, 9])),
        |refused| {
            assert_eq!(
                (refused.why, refused.back),
                (Refusal::OutOfMemory, [7, 8, 9])
            )
        },
    );
    assert!(needed > 2);
}

#[test]
fn a_value_that_is_taken_out() {
    let mut dcel: Dcel<_> = new_triangle([7, 8, 9]).unwrap();
    append_unconnected_vertex(&mut dcel, 10).unwrap();
    append_unconnected_vertex(&mut dcel, 11).unwrap();
    let removed = with_memory_for_all(0, || swap_remove_vertex(&mut dcel, v(3)));
    assert_eq!(removed.map(|it| it.removed_vertex), Ok(10));
}

#[test]
fn an_edge_alone() {
    let needed = sweep(
        |met| {
            let given = vec![7, 8];
            with_memory(met, || {
                new_with_fixed_vertices::<_, (), (), ()>(given, v(0), v(1))
            })
        },
        |refused| {
            assert_eq!(
                (refused.why, refused.back),
                (Refusal::OutOfMemory, vec![7, 8])
            )
        },
    );
    assert!(needed > 0);
}

#[test]
fn faces_and_links() {
    let faces = [[0, 1, 2], [2, 1, 3]].map(|face| face.map(v));
    let needed = sweep(
        |met| {
            let given = vec![7, 8, 9, 10];
            with_memory(met, || from_faces::<_, (), (), (), _>(given, faces))
        },
        |refused| {
            assert_eq!(refused.reason, FacesError::OutOfMemory);
            assert_eq!(refused.back, [7, 8, 9, 10]);
        },
    );
    assert!(needed > 3);
    let dcel: Dcel<_> = new_triangle([7, 8, 9]).unwrap();
    let links = dcel.links();
    let half_edges: Vec<_> = links
        .directed_edges()
        .filter_map(|edge| links.get(edge))
        .collect();
    let needed = sweep(
        |met| {
            let (vertices, faces) = (vec![7, 8, 9], vec!["out", "in"]);
            with_memory(met, || {
                from_links::<_, (), (), _>(&half_edges, vertices, faces)
            })
        },
        |refused| {
            assert_eq!(refused.reason, LinksError::OutOfMemory);
            assert_eq!(refused.back, (vec![7, 8, 9], vec!["out", "in"]));
        },
    );
    assert!(needed > 3);
}

#[test]
fn a_clone() {
    let mut dcel: Dcel<usize, u8, u8, u8> = new_triangle([7, 8, 9]).unwrap();
    *dcel.directed_edge_data_mut(e(1)) = 1;
    *dcel.undirected_edge_data_mut(u(1)) = 2;
    *dcel.face_data_mut(f(1)) = 3;
    let needed = sweep(
        |met| with_memory(met, || dcel.try_clone()),
        |refused| assert_eq!(refused, Refusal::OutOfMemory),
    );
    assert_eq!(needed, 4);
}

#[test]
fn points() {
    let corners = [(0, 0), (4, 0), (0, 3)].map(|(x, y)| Point2::new(x, y));
    let needed = sweep(
        |met| {
            let given = corners.to_vec();
            with_memory(met, || DelaunayTriangulation::bulk_load(given))
        },
        |refused| assert_eq!(refused, InsertionError::OutOfMemory),
    );
    assert_eq!(needed, 4);
    let standing = DelaunayTriangulation::bulk_load(corners.to_vec()).unwrap();
    let needed = sweep(
        |met| {
            let mut triangulation = standing.clone(); // which has no room to spare
            let made = with_memory(met, || triangulation.insert(Point2::new(1, 1)));
            let inserted = usize::from(made.is_ok());
            assert_eq!(triangulation.num_vertices(), 3 + inserted);
            assert_eq!(triangulation.inner_faces().count(), 1 + 2 * inserted);
            made
        },
        |refused| assert_eq!(refused, InsertionError::OutOfMemory),
    );
    assert_eq!(needed, 2);
    let needed = sweep(
        |met| with_memory(met, || standing.try_clone()),
        |refused| assert_eq!(refused, Refusal::OutOfMemory),
    );
    assert_eq!(needed, 2);
}

/// Four triangles around vertex 4, without room to spare.
fn around<K: Kind>(standing: &Triangulation<Point2, K>) -> Triangulation<Point2, K> {
    let copy = standing.clone();
    assert_eq!((copy.num_vertices(), copy.num_inner_faces()), (5, 4));
    copy
}

fn points_removed<K: Kind>(standing: &Triangulation<Point2, K>) {
    let middle = standing.vertex_data(v(4));
    let removed = sweep(
        |met| {
            let mut triangulation = around(standing);
            let removed = with_memory_for_all(met, || triangulation.remove(v(4)));
            let left = 5 - usize::from(removed.is_ok());
            assert_eq!(triangulation.num_vertices(), left);
            assert_eq!(triangulation.vertices().count(), left);
            removed.inspect(|it| assert_eq!(it.removed_vertex, *middle))
        },
        |refused| assert_eq!(refused, Refusal::OutOfMemory),
    );
    let located = sweep(
        |met| {
            let mut triangulation = around(standing);
            let removed = with_memory_for_all(met, || triangulation.locate_and_remove(*middle));
            assert_eq!(
                triangulation.vertices().count(),
                5 - usize::from(removed.is_ok())
            );
            removed.inspect(|it| assert_eq!(*it, Some(*middle)))
        },
        |refused| assert_eq!(refused, Refusal::OutOfMemory),
    );
    assert!(removed > 0 && located == removed);
    let mut triangulation = around(standing);
    for nowhere in [Point2::new(7, 7), Point2::new(1 << 60, 0)] {
        let removed = with_memory_for_all(0, || triangulation.locate_and_remove(nowhere));
        assert_eq!(removed, Ok(None));
    }
}

#[test]
fn a_point_that_is_removed() {
    let points = [(0, 0), (4, 0), (4, 4), (0, 4), (2, 1)].map(|(x, y)| Point2::new(x, y));
    let mut standing = DelaunayTriangulation::new().unwrap();
    let mut constrained = ConstrainedDelaunayTriangulation::new().unwrap();
    for point in points {
        standing.insert(point).unwrap();
        constrained.insert(point).unwrap();
    }
    constrained.add_constraint(v(0), v(4)).unwrap();
    points_removed(&standing);
    points_removed(&constrained);
}

#[test]
fn points_and_constraints() {
    let corners = [(0, 0), (4, 0), (0, 3), (1, 1)].map(|(x, y)| Point2::new(x, y));
    let needed = sweep(
        |met| {
            let (given, edges) = (corners.to_vec(), vec![[0, 3]]);
            with_memory(met, || {
                ConstrainedDelaunayTriangulation::bulk_load_cdt(given, edges)
            })
        },
        |refused| {
            assert_eq!(
                (refused.why, refused.edge),
                (ConstraintError::OutOfMemory, None)
            )
        },
    );
    assert_eq!(needed, 4);
    let (given, edges) = (corners.to_vec(), vec![[0, 3]]);
    let standing = ConstrainedDelaunayTriangulation::bulk_load_cdt(given, edges).unwrap();
    let needed = sweep(
        |met| {
            let mut triangulation = standing.clone(); // which has no room to spare
            let ends = [Point2::new(2, 1), corners[3]];
            let made = with_memory(met, || triangulation.add_constraint_edge(ends[0], ends[1]));
            let added = usize::from(made.is_ok());
            assert_eq!(triangulation.num_vertices(), 4 + added);
            assert_eq!(triangulation.num_constraints(), 1 + added);
            made
        },
        |refused| assert_eq!(refused, ConstraintError::OutOfMemory),
    );
    assert_eq!(needed, 2);
    let needed = sweep(
        |met| with_memory(met, || standing.try_clone()),
        |refused| assert_eq!(refused, Refusal::OutOfMemory),
    );
    assert_eq!(needed, 2);
}

#[test]
fn a_refinement() {
    let corners = [(0, 0), (4096, 0), (4096, 1024), (0, 1024)].map(|(x, y)| Point2::new(x, y));
    let sides = vec![[0, 1], [1, 2], [2, 3], [3, 0]];
    let standing = ConstrainedDelaunayTriangulation::bulk_load_cdt(corners.to_vec(), sides);
    let standing = standing.unwrap();
    let parameters = RefinementParameters::new().exclude_outer_faces(true);
    let needed = sweep(
        |met| {
            let mut triangulation = standing.clone(); // which has no room to spare
            let made = with_memory(met, || triangulation.refine(parameters));
            let is_refined = triangulation.num_vertices() > 4;
            assert_eq!(is_refined, made.is_ok());
            assert_eq!(
                triangulation.vertices().count(),
                triangulation.num_vertices()
            );
            assert!(triangulation.num_constraints() >= 4);
            made
        },
        |refused| assert_eq!(refused, Refusal::OutOfMemory),
    );
    assert!(needed >= 5);
}
