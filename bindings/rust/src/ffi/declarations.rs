//! Made of `bindings/c/dcel.h` by `tools/bind --write`: its numbers, structs and functions.

use super::HalfEdgeEntry;
use std::ffi::c_void;
use std::mem::offset_of;

/// What a call that returns an element's number returns where there is none.
pub(crate) const NONE: u64 = u64::MAX;
/// What stands for each link of a half edge that isn't live.
pub(crate) const NO_LINK: u32 = u32::MAX;

/// What calls return.
#[allow(dead_code)]
pub(crate) mod status {
    pub(crate) const DONE: u32 = 0;
    pub(crate) const NO_SUCH_VERTEX: u32 = 1;
    pub(crate) const NO_SUCH_EDGE: u32 = 2;
    pub(crate) const NO_SUCH_FACE: u32 = 3;
    pub(crate) const REMOVAL_OPEN: u32 = 4;
    pub(crate) const NO_REMOVAL: u32 = 5;
    pub(crate) const GIVEN_UP: u32 = 6;
    pub(crate) const SAME_VERTEX: u32 = 7;
    pub(crate) const VERTEX_IN_USE: u32 = 8;
    pub(crate) const EDGES_STAND: u32 = 9;
    pub(crate) const NOT_LINE_END: u32 = 10;
    pub(crate) const NOT_BRIDGE: u32 = 11;
    pub(crate) const NOT_OUTER: u32 = 12;
    pub(crate) const NOT_TRIANGLE: u32 = 13;
    pub(crate) const WOULD_LOOP: u32 = 14;
    pub(crate) const BAD_RING: u32 = 15;
    pub(crate) const BAD_STRIP: u32 = 16;
    pub(crate) const WRONG_LISTS: u32 = 17;
    pub(crate) const NOT_PATH: u32 = 18;
    pub(crate) const NO_ROOM: u32 = 19;
    pub(crate) const OUT_OF_MEMORY: u32 = 20;
    pub(crate) const NO_MESH: u32 = 21;
    pub(crate) const SHORT: u32 = 22;
    pub(crate) const FAULTY: u32 = 23;
    pub(crate) const OUT_OF_RANGE: u32 = 24;
    pub(crate) const UNFINISHED: u32 = 25;
    pub(crate) const CROSSES: u32 = 26;
    pub(crate) const NOT_INSIDE: u32 = 27;
    pub(crate) const SECOND_EDGE: u32 = 28;
    pub(crate) const CUT_VERTEX: u32 = 29;
    pub(crate) const SHORT_BORDER: u32 = 30;
    pub(crate) const NO_SUCH_EDIT: u32 = 31;
}

/// How a legalization ended.
#[allow(dead_code)]
pub(crate) mod ended {
    pub(crate) const LEGALIZED: u32 = 0;
    pub(crate) const STOPPED: u32 = 1;
    pub(crate) const MEMORY_RAN_OUT: u32 = 2;
}

/// How far a removal has come.
#[allow(dead_code)]
pub(crate) mod removal_state {
    pub(crate) const CLOSED: u32 = 0;
    pub(crate) const ISOLATED: u32 = 1;
    pub(crate) const CLEANED: u32 = 2;
}

/// What is wrong with links or faces that no mesh is made of. With links it is the first that is
/// wrong, in this order, but that the three ranges are looked for together, and so are ONE_END,
/// APART and LEAVES_FACE. Places are those of faces in `counts`.
#[allow(dead_code)]
pub(crate) mod fault_kind {
    pub(crate) const LENGTHS: u32 = 1;
    pub(crate) const TOO_MANY: u32 = 2;
    pub(crate) const NO_FACE: u32 = 3;
    pub(crate) const MORE_FACES: u32 = 4;
    pub(crate) const NEXT_OUT_OF_RANGE: u32 = 5;
    pub(crate) const ORIGIN_OUT_OF_RANGE: u32 = 6;
    pub(crate) const FACE_OUT_OF_RANGE: u32 = 7;
    pub(crate) const TWO_LEAD_TO: u32 = 8;
    pub(crate) const ONE_END: u32 = 9;
    pub(crate) const APART: u32 = 10;
    pub(crate) const LEAVES_FACE: u32 = 11;
    pub(crate) const FACE_IN_PARTS: u32 = 12;
    pub(crate) const VERTEX_IN_PARTS: u32 = 13;
    pub(crate) const UNUSED_FACE: u32 = 14;
    pub(crate) const NOT_CONNECTED: u32 = 15;
    pub(crate) const NOT_SPHERE: u32 = 16;
    pub(crate) const OTHER_COUNT: u32 = 17;
    pub(crate) const FEW_CORNERS: u32 = 18;
    pub(crate) const TOO_MANY_CORNERS: u32 = 19;
    pub(crate) const NO_VERTEX: u32 = 20;
    pub(crate) const SIDE_AT_ONE: u32 = 21;
    pub(crate) const SIDE_TWICE: u32 = 22;
    pub(crate) const BORDER_TWICE: u32 = 23;
}

/// The calls of edits, and the numbers that each takes, in this order.
#[allow(dead_code)]
pub(crate) mod call {
    pub(crate) const APPEND_UNCONNECTED_VERTEX: u32 = 0;
    pub(crate) const NEW_TRIANGLE: u32 = 1;
    pub(crate) const SETUP_INITIAL_TWO_VERTICES: u32 = 2;
    pub(crate) const EXTEND_LINE: u32 = 3;
    pub(crate) const SPLIT_EDGE_WHEN_ALL_VERTICES_ON_LINE: u32 = 4;
    pub(crate) const CREATE_SINGLE_FACE_BETWEEN_EDGE_AND_NEXT: u32 = 5;
    pub(crate) const CREATE_NEW_FACE_ADJACENT_TO_EDGE: u32 = 6;
    pub(crate) const INSERT_INTO_TRIANGLE: u32 = 7;
    pub(crate) const SPLIT_HALF_EDGE: u32 = 8;
    pub(crate) const SPLIT_EDGE: u32 = 9;
    pub(crate) const FLIP_CW: u32 = 10;
    pub(crate) const SWAP_VERTICES: u32 = 11;
    pub(crate) const UPDATE_VERTEX: u32 = 12;
    pub(crate) const SWAP_REMOVE_VERTEX: u32 = 13;
    pub(crate) const REMOVE_WHEN_DEGENERATE: u32 = 14;
    pub(crate) const CLEAR: u32 = 15;
}

/// Where a point is, and what the `number` of a dcel_position is. Each point is at one place alone.
#[allow(dead_code)]
pub(crate) mod place {
    pub(crate) const ON_FACE: u32 = 0;
    pub(crate) const ON_EDGE: u32 = 1;
    pub(crate) const ON_VERTEX: u32 = 2;
    pub(crate) const OUTSIDE: u32 = 3;
    pub(crate) const BEYOND_LINE: u32 = 4;
    pub(crate) const NOWHERE: u32 = 5;
}

/// The names of statuses, by number.
#[cfg(test)]
pub(crate) const STATUS_NAMES: [&str; 32] = [
    "Done",
    "NoSuchVertex",
    "NoSuchEdge",
    "NoSuchFace",
    "RemovalOpen",
    "NoRemoval",
    "GivenUp",
    "SameVertex",
    "VertexInUse",
    "EdgesStand",
    "NotLineEnd",
    "NotBridge",
    "NotOuter",
    "NotTriangle",
    "WouldLoop",
    "BadRing",
    "BadStrip",
    "WrongLists",
    "NotPath",
    "NoRoom",
    "OutOfMemory",
    "NoMesh",
    "Short",
    "Faulty",
    "OutOfRange",
    "Unfinished",
    "Crosses",
    "NotInside",
    "SecondEdge",
    "CutVertex",
    "ShortBorder",
    "NoSuchEdit",
];

/// A mesh, or none: zero bytes are one that isn't open. The fields are the library's. C's
/// `dcel_mesh`.
#[repr(C)]
pub(super) struct RawMesh {
    pub(super) at: *mut c_void,
    pub(super) is_open: bool,
}

// HalfEdgeEntry is C's `dcel_half_edge`.
const _: () = {
    assert!(offset_of!(HalfEdgeEntry, next) == 0);
    assert!(offset_of!(HalfEdgeEntry, prev) == 4);
    assert!(offset_of!(HalfEdgeEntry, origin) == 8);
    assert!(offset_of!(HalfEdgeEntry, face) == 12);
    assert!(size_of::<HalfEdgeEntry>() == 16);
};

/// A vertex that was taken out: its datum, and the old number of the vertex that has its number
/// now, DCEL_NONE if none does. C's `dcel_removed`.
#[repr(C)]
#[derive(Clone, Copy, Default)]
pub(crate) struct Removed {
    pub(crate) datum: u64,
    pub(crate) moved: u64,
}

/// A removal that was opened: how many edges and faces it has given up, how many edges it has
/// added, and the number of the first of these. The others follow it. C's `dcel_opened`.
#[repr(C)]
#[derive(Clone, Copy, Default)]
pub(crate) struct Opened {
    pub(crate) edges: u64,
    pub(crate) faces: u64,
    pub(crate) new_edges: u64,
    pub(crate) smallest_new_edge: u64,
}

/// How many edges were flipped, and an enum dcel_ended. C's `dcel_legalized`.
#[repr(C)]
#[derive(Clone, Copy, Default)]
pub(crate) struct Legalized {
    pub(crate) flips: u64,
    pub(crate) ended: u32,
}

/// A fault: a dcel_fault_kind, and 0 for what that doesn't speak of. C's `dcel_fault`.
#[repr(C)]
#[derive(Clone, Copy, Default)]
pub(crate) struct Fault {
    pub(crate) kind: u32,
    pub(crate) number: u64,
    pub(crate) other: u64,
    pub(crate) from: u64,
    pub(crate) to: u64,
}

/// A point, whose coordinates are from -2^53 to 2^53. C's `dcel_point`.
#[repr(C)]
#[derive(Clone, Copy, Default)]
pub(crate) struct Point {
    pub(crate) x: i64,
    pub(crate) y: i64,
}

/// A triangulation, or none: zero bytes are one that isn't open. The fields are the library's. C's
/// `dcel_triangulation`.
#[repr(C)]
pub(super) struct RawTriangulation {
    pub(super) at: *mut c_void,
    pub(super) is_open: bool,
}

/// A place: an enum dcel_place, and the number that it speaks of. C's `dcel_position`.
#[repr(C)]
#[derive(Clone, Copy, Default)]
pub(crate) struct Position {
    pub(crate) kind: u32,
    pub(crate) number: u32,
}

/// A triangulation with constraints, or none: zero bytes are one that isn't open. The fields are
/// the library's. C's `dcel_constrained`.
#[repr(C)]
pub(super) struct RawConstrained {
    pub(super) at: *mut c_void,
    pub(super) is_open: bool,
}

/// What a refinement is to reach, and where it gives up. Each corner is to have at least the angle
/// whose tangent is rise / run, unless both its sides are constraints: for 20 degrees that is 23853
/// / 65535, and with a rise of 0 every angle will do. Each triangle is to have at most half the
/// area max_doubled_area_high * 2^64 + max_doubled_area_low, in squares of the coordinates' unit;
/// with a high half from 2^63 on, as UINT64_MAX, any area will do. With `inside` this is asked only
/// of triangles of odd depth (dcel_constrained_regions), else of all. At most
/// max_additional_vertices are added. Any numbers may be given. C's `dcel_refinement`.
#[repr(C)]
#[derive(Clone, Copy, Default)]
pub(crate) struct Refinement {
    pub(crate) max_doubled_area_high: u64,
    pub(crate) max_doubled_area_low: u64,
    pub(crate) max_additional_vertices: u64,
    pub(crate) rise: u16,
    pub(crate) run: u16,
    pub(crate) inside: bool,
}

/// With it what uses the crate is linked with no library of another version than the crate's.
#[used]
static VERSION_WANTED: extern "C" fn() -> u32 = dcel_version_0_2_0;

// SAFETY: these are the functions of the header. The safe ones ask for a mesh as the last call left it,
// which is what a `&mut RawMesh` leads to in this module, and for places to write to, which
// references are. The others ask for slices too.
unsafe extern "C" {
    pub(super) safe fn dcel_version_0_2_0() -> u32;
    pub(super) safe fn dcel_new(mesh: &mut RawMesh) -> u32;
    pub(super) safe fn dcel_free(mesh: &mut RawMesh);
    pub(super) safe fn dcel_clone(from: &mut RawMesh, to: &mut RawMesh) -> u32;
    pub(super) safe fn dcel_clear(mesh: &mut RawMesh) -> u32;
    pub(super) safe fn dcel_reserve_capacity(
        mesh: &mut RawMesh,
        vertices: u64,
        undirected_edges: u64,
        faces: u64,
    ) -> u32;
    pub(super) fn dcel_from_links(
        mesh: &mut RawMesh,
        half_edges: *const HalfEdgeEntry,
        half_edges_len: usize,
        vertices: *const u64,
        vertices_len: usize,
        faces: *const u64,
        faces_len: usize,
        fault: &mut Fault,
    ) -> u32;
    pub(super) fn dcel_from_faces(
        mesh: &mut RawMesh,
        vertices: *const u64,
        vertices_len: usize,
        corners: *const u32,
        corners_len: usize,
        counts: *const u32,
        counts_len: usize,
        fault: &mut Fault,
    ) -> u32;
    pub(super) safe fn dcel_num_vertices(mesh: &mut RawMesh) -> u64;
    pub(super) safe fn dcel_num_directed_edges(mesh: &mut RawMesh) -> u64;
    pub(super) safe fn dcel_num_undirected_edges(mesh: &mut RawMesh) -> u64;
    pub(super) safe fn dcel_num_faces(mesh: &mut RawMesh) -> u64;
    pub(super) safe fn dcel_next(mesh: &mut RawMesh, edge: u32) -> u64;
    pub(super) safe fn dcel_prev(mesh: &mut RawMesh, edge: u32) -> u64;
    pub(super) safe fn dcel_ccw(mesh: &mut RawMesh, edge: u32) -> u64;
    pub(super) safe fn dcel_cw(mesh: &mut RawMesh, edge: u32) -> u64;
    pub(super) safe fn dcel_from(mesh: &mut RawMesh, edge: u32) -> u64;
    pub(super) safe fn dcel_to(mesh: &mut RawMesh, edge: u32) -> u64;
    pub(super) safe fn dcel_face(mesh: &mut RawMesh, edge: u32) -> u64;
    pub(super) safe fn dcel_out_edge(mesh: &mut RawMesh, vertex: u32) -> u64;
    pub(super) safe fn dcel_adjacent_edge(mesh: &mut RawMesh, face: u32) -> u64;
    pub(super) safe fn dcel_get_edge_from_neighbors(mesh: &mut RawMesh, from: u32, to: u32) -> u64;
    pub(super) fn dcel_directed_edges(
        mesh: &mut RawMesh,
        half_edges: *mut HalfEdgeEntry,
        half_edges_len: usize,
        needed: &mut u64,
    ) -> u32;
    pub(super) safe fn dcel_vertex_data(mesh: &mut RawMesh, vertex: u32, datum: &mut u64) -> u32;
    pub(super) safe fn dcel_directed_edge_data(
        mesh: &mut RawMesh,
        edge: u32,
        datum: &mut u64,
    ) -> u32;
    pub(super) safe fn dcel_undirected_edge_data(
        mesh: &mut RawMesh,
        edge: u32,
        datum: &mut u64,
    ) -> u32;
    pub(super) safe fn dcel_face_data(mesh: &mut RawMesh, face: u32, datum: &mut u64) -> u32;
    pub(super) safe fn dcel_update_vertex(mesh: &mut RawMesh, vertex: u32, datum: u64) -> u32;
    pub(super) safe fn dcel_update_directed_edge(mesh: &mut RawMesh, edge: u32, datum: u64) -> u32;
    pub(super) safe fn dcel_update_undirected_edge(
        mesh: &mut RawMesh,
        edge: u32,
        datum: u64,
    ) -> u32;
    pub(super) safe fn dcel_update_face(mesh: &mut RawMesh, face: u32, datum: u64) -> u32;
    pub(super) safe fn dcel_append_unconnected_vertex(
        mesh: &mut RawMesh,
        datum: u64,
        vertex: &mut u32,
    ) -> u32;
    pub(super) safe fn dcel_new_triangle(mesh: &mut RawMesh, a: u64, b: u64, c: u64) -> u32;
    pub(super) safe fn dcel_setup_initial_two_vertices(
        mesh: &mut RawMesh,
        first: u32,
        second: u32,
    ) -> u32;
    pub(super) safe fn dcel_extend_line(mesh: &mut RawMesh, end: u32, vertex: u32) -> u32;
    pub(super) safe fn dcel_split_edge_when_all_vertices_on_line(
        mesh: &mut RawMesh,
        edge: u32,
        vertex: u32,
        second: &mut u32,
    ) -> u32;
    pub(super) safe fn dcel_create_single_face_between_edge_and_next(
        mesh: &mut RawMesh,
        edge: u32,
        half: &mut u32,
    ) -> u32;
    pub(super) safe fn dcel_create_new_face_adjacent_to_edge(
        mesh: &mut RawMesh,
        edge: u32,
        vertex: u32,
    ) -> u32;
    pub(super) safe fn dcel_insert_into_triangle(mesh: &mut RawMesh, vertex: u32, face: u32) -> u32;
    pub(super) safe fn dcel_split_half_edge(
        mesh: &mut RawMesh,
        edge: u32,
        vertex: u32,
        second: &mut u32,
    ) -> u32;
    pub(super) safe fn dcel_split_edge(
        mesh: &mut RawMesh,
        edge: u32,
        vertex: u32,
        second: &mut u32,
    ) -> u32;
    pub(super) safe fn dcel_flip_cw(mesh: &mut RawMesh, undirected_edge: u32) -> u32;
    pub(super) safe fn dcel_swap_vertices(mesh: &mut RawMesh, first: u32, second: u32) -> u32;
    pub(super) fn dcel_legalize_by_number(
        mesh: &mut RawMesh,
        max_flips: u64,
        edges: *const u32,
        edges_len: usize,
        legalized: &mut Legalized,
    ) -> u32;
    pub(super) fn dcel_isolate_vertex_and_fill_hole(
        mesh: &mut RawMesh,
        border_loop: *const u32,
        border_loop_len: usize,
        vertex: u32,
        edges: *mut u32,
        edges_len: usize,
        faces: *mut u32,
        faces_len: usize,
        opened: &mut Opened,
    ) -> u32;
    pub(super) fn dcel_remesh_edge_ring(
        mesh: &mut RawMesh,
        border_loop: *const u32,
        border_loop_len: usize,
        edges: *const u32,
        edges_len: usize,
        faces: *const u32,
        faces_len: usize,
        opened: &mut Opened,
    ) -> u32;
    pub(super) fn dcel_disconnect_edge_strip(
        mesh: &mut RawMesh,
        strip: *const u32,
        strip_len: usize,
        edges: *mut u32,
        edges_len: usize,
        faces: *mut u32,
        faces_len: usize,
        opened: &mut Opened,
    ) -> u32;
    pub(super) fn dcel_cleanup_isolated_vertex(
        mesh: &mut RawMesh,
        edges: *const u32,
        edges_len: usize,
        faces: *const u32,
        faces_len: usize,
    ) -> u32;
    pub(super) safe fn dcel_swap_remove_vertex(
        mesh: &mut RawMesh,
        vertex: u32,
        removed: &mut Removed,
    ) -> u32;
    pub(super) safe fn dcel_remove_when_degenerate(
        mesh: &mut RawMesh,
        vertex: u32,
        removed: &mut Removed,
    ) -> u32;
    pub(super) safe fn dcel_removal_state(mesh: &mut RawMesh) -> u32;
    pub(super) safe fn dcel_is_live_vertex(mesh: &mut RawMesh, vertex: u32) -> bool;
    pub(super) safe fn dcel_is_live_edge(mesh: &mut RawMesh, undirected_edge: u32) -> bool;
    pub(super) safe fn dcel_is_live_face(mesh: &mut RawMesh, face: u32) -> bool;
    pub(super) safe fn dcel_is_unconnected(mesh: &mut RawMesh, vertex: u32) -> bool;
    pub(super) safe fn dcel_is_line_end(mesh: &mut RawMesh, vertex: u32) -> bool;
    pub(super) safe fn dcel_is_triangle(mesh: &mut RawMesh, face: u32) -> bool;
    pub(super) safe fn dcel_is_bridge(mesh: &mut RawMesh, edge: u32) -> bool;
    pub(super) safe fn dcel_has_room(
        mesh: &mut RawMesh,
        vertices: u64,
        undirected_edges: u64,
        faces: u64,
    ) -> bool;
    pub(super) safe fn dcel_sanity_check(mesh: &mut RawMesh) -> bool;
    pub(super) safe fn dcel_can_setup_initial_two_vertices(
        mesh: &mut RawMesh,
        first: u32,
        second: u32,
    ) -> bool;
    pub(super) safe fn dcel_can_extend_line(mesh: &mut RawMesh, end: u32, vertex: u32) -> bool;
    pub(super) safe fn dcel_can_split_edge_when_all_vertices_on_line(
        mesh: &mut RawMesh,
        edge: u32,
        vertex: u32,
    ) -> bool;
    pub(super) safe fn dcel_can_close_outside(mesh: &mut RawMesh, edge: u32) -> bool;
    pub(super) safe fn dcel_can_create_new_face_adjacent_to_edge(
        mesh: &mut RawMesh,
        edge: u32,
        vertex: u32,
    ) -> bool;
    pub(super) safe fn dcel_can_insert_into_triangle(
        mesh: &mut RawMesh,
        vertex: u32,
        face: u32,
    ) -> bool;
    pub(super) safe fn dcel_can_split_half_edge(mesh: &mut RawMesh, edge: u32, vertex: u32) -> bool;
    pub(super) safe fn dcel_can_split_edge(mesh: &mut RawMesh, edge: u32, vertex: u32) -> bool;
    pub(super) safe fn dcel_can_flip(mesh: &mut RawMesh, undirected_edge: u32) -> bool;
    pub(super) safe fn dcel_can_swap_remove(mesh: &mut RawMesh, vertex: u32) -> bool;
    pub(super) safe fn dcel_can_remove_degenerate(mesh: &mut RawMesh, vertex: u32) -> bool;
    pub(super) fn dcel_is_border_loop(
        mesh: &mut RawMesh,
        border_loop: *const u32,
        border_loop_len: usize,
        vertex: u32,
        answer: &mut bool,
    ) -> u32;
    pub(super) fn dcel_is_ring(
        mesh: &mut RawMesh,
        border_loop: *const u32,
        border_loop_len: usize,
        edges: *const u32,
        edges_len: usize,
        faces: *const u32,
        faces_len: usize,
        answer: &mut bool,
    ) -> u32;
    pub(super) fn dcel_is_edge_strip(
        mesh: &mut RawMesh,
        strip: *const u32,
        strip_len: usize,
        answer: &mut bool,
    ) -> u32;
    pub(super) fn dcel_is_listed(
        mesh: &mut RawMesh,
        edges: *const u32,
        edges_len: usize,
        faces: *const u32,
        faces_len: usize,
        answer: &mut bool,
    ) -> u32;
    pub(super) fn dcel_can_isolate_vertex_and_fill_hole(
        mesh: &mut RawMesh,
        border_loop: *const u32,
        border_loop_len: usize,
        vertex: u32,
        answer: &mut bool,
    ) -> u32;
    pub(super) fn dcel_can_remesh_edge_ring(
        mesh: &mut RawMesh,
        border_loop: *const u32,
        border_loop_len: usize,
        edges: *const u32,
        edges_len: usize,
        faces: *const u32,
        faces_len: usize,
        answer: &mut bool,
    ) -> u32;
    pub(super) fn dcel_can_disconnect_edge_strip(
        mesh: &mut RawMesh,
        strip: *const u32,
        strip_len: usize,
        answer: &mut bool,
    ) -> u32;
    pub(super) safe fn dcel_triangulation_new(triangulation: &mut RawTriangulation) -> u32;
    pub(super) safe fn dcel_triangulation_free(triangulation: &mut RawTriangulation);
    pub(super) safe fn dcel_triangulation_clone(
        from: &mut RawTriangulation,
        to: &mut RawTriangulation,
    ) -> u32;
    pub(super) safe fn dcel_triangulation_num_vertices(triangulation: &mut RawTriangulation) -> u64;
    pub(super) safe fn dcel_triangulation_num_edges(triangulation: &mut RawTriangulation) -> u64;
    pub(super) safe fn dcel_triangulation_num_triangles(
        triangulation: &mut RawTriangulation,
    ) -> u64;
    pub(super) safe fn dcel_triangulation_is_whole(triangulation: &mut RawTriangulation) -> bool;
    pub(super) safe fn dcel_triangulation_finish(triangulation: &mut RawTriangulation) -> u32;
    pub(super) safe fn dcel_triangulation_insert(
        triangulation: &mut RawTriangulation,
        point: Point,
        vertex: &mut u32,
    ) -> u32;
    pub(super) safe fn dcel_triangulation_insert_with_hint(
        triangulation: &mut RawTriangulation,
        point: Point,
        hint: u32,
        vertex: &mut u32,
    ) -> u32;
    pub(super) fn dcel_triangulation_insert_all(
        triangulation: &mut RawTriangulation,
        points: *const Point,
        points_len: usize,
        vertices: *mut u32,
        vertices_len: usize,
        row: &mut u64,
    ) -> u32;
    pub(super) safe fn dcel_triangulation_remove(
        triangulation: &mut RawTriangulation,
        vertex: u32,
        moved: &mut u64,
    ) -> u32;
    pub(super) fn dcel_triangulation_directed_edges(
        triangulation: &mut RawTriangulation,
        half_edges: *mut HalfEdgeEntry,
        half_edges_len: usize,
        needed: &mut u64,
    ) -> u32;
    pub(super) safe fn dcel_triangulation_locate(
        triangulation: &mut RawTriangulation,
        point: Point,
        position: &mut Position,
    ) -> u32;
    pub(super) safe fn dcel_triangulation_locate_with_hint(
        triangulation: &mut RawTriangulation,
        point: Point,
        hint: u32,
        position: &mut Position,
    ) -> u32;
    pub(super) safe fn dcel_triangulation_nearest(
        triangulation: &mut RawTriangulation,
        point: Point,
        vertex: &mut u32,
    ) -> u32;
    pub(super) safe fn dcel_constrained_new(triangulation: &mut RawConstrained) -> u32;
    pub(super) safe fn dcel_constrained_free(triangulation: &mut RawConstrained);
    pub(super) safe fn dcel_constrained_clone(
        from: &mut RawConstrained,
        to: &mut RawConstrained,
    ) -> u32;
    pub(super) safe fn dcel_constrained_from_triangulation(
        from: &mut RawTriangulation,
        to: &mut RawConstrained,
    ) -> u32;
    pub(super) safe fn dcel_constrained_num_vertices(triangulation: &mut RawConstrained) -> u64;
    pub(super) safe fn dcel_constrained_num_edges(triangulation: &mut RawConstrained) -> u64;
    pub(super) safe fn dcel_constrained_num_triangles(triangulation: &mut RawConstrained) -> u64;
    pub(super) safe fn dcel_constrained_num_constraints(triangulation: &mut RawConstrained) -> u64;
    pub(super) safe fn dcel_constrained_is_whole(triangulation: &mut RawConstrained) -> bool;
    pub(super) safe fn dcel_constrained_finish(triangulation: &mut RawConstrained) -> u32;
    pub(super) safe fn dcel_constrained_insert(
        triangulation: &mut RawConstrained,
        point: Point,
        vertex: &mut u32,
    ) -> u32;
    pub(super) fn dcel_constrained_insert_all(
        triangulation: &mut RawConstrained,
        points: *const Point,
        points_len: usize,
        vertices: *mut u32,
        vertices_len: usize,
        row: &mut u64,
    ) -> u32;
    pub(super) safe fn dcel_constrained_remove(
        triangulation: &mut RawConstrained,
        vertex: u32,
        moved: &mut u64,
    ) -> u32;
    pub(super) safe fn dcel_constrained_locate(
        triangulation: &mut RawConstrained,
        point: Point,
        position: &mut Position,
    ) -> u32;
    pub(super) safe fn dcel_constrained_can_add_constraint(
        triangulation: &mut RawConstrained,
        from: u32,
        to: u32,
        answer: &mut bool,
    ) -> u32;
    pub(super) safe fn dcel_constrained_add_constraint(
        triangulation: &mut RawConstrained,
        from: u32,
        to: u32,
        added: &mut bool,
    ) -> u32;
    pub(super) safe fn dcel_constrained_remove_constraint(
        triangulation: &mut RawConstrained,
        edge: u32,
        was: &mut bool,
    ) -> u32;
    pub(super) safe fn dcel_constrained_is_constraint(
        triangulation: &mut RawConstrained,
        edge: u32,
    ) -> bool;
    pub(super) safe fn dcel_constrained_exists_constraint(
        triangulation: &mut RawConstrained,
        from: u32,
        to: u32,
    ) -> bool;
    pub(super) fn dcel_constrained_points(
        triangulation: &mut RawConstrained,
        points: *mut Point,
        points_len: usize,
        needed: &mut u64,
    ) -> u32;
    pub(super) fn dcel_constrained_directed_edges(
        triangulation: &mut RawConstrained,
        half_edges: *mut HalfEdgeEntry,
        half_edges_len: usize,
        needed: &mut u64,
    ) -> u32;
    pub(super) fn dcel_constrained_regions(
        triangulation: &mut RawConstrained,
        depths: *mut u32,
        depths_len: usize,
        needed: &mut u64,
    ) -> u32;
    pub(super) safe fn dcel_constrained_refine(
        triangulation: &mut RawConstrained,
        parameters: &mut Refinement,
        added: &mut u64,
        excepted: &mut u64,
        reached: &mut bool,
    ) -> u32;
}
