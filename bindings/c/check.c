/* Calls each function of the library on small meshes and triangulations, and compares what it answers. */
#include "dcel.h"

#include <inttypes.h>
#include <stdio.h>
#include <stdlib.h>
#include <string.h>

static int checks = 0;

#define CHECK(holds)                                                     \
    do {                                                                 \
        checks++;                                                        \
        if (!(holds)) {                                                  \
            fprintf(stderr, "%s:%d: %s\n", __FILE__, __LINE__, #holds); \
            exit(EXIT_FAILURE);                                          \
        }                                                                \
    } while (0)

/* A triangle round vertex 3. Half edges 0, 2 and 4 lie on the outer face. */
static void make_round(dcel_mesh *mesh) {
    uint32_t vertex = 9;
    CHECK(dcel_new(mesh) == DCEL_DONE);
    CHECK(dcel_new_triangle(mesh, 7, 8, 9) == DCEL_DONE);
    CHECK(dcel_append_unconnected_vertex(mesh, 10, &vertex) == DCEL_DONE && vertex == 3);
    CHECK(dcel_insert_into_triangle(mesh, vertex, 1) == DCEL_DONE);
}

/* A line from vertex 0 to 1, and vertex 2 without an edge. */
static void make_line(dcel_mesh *mesh) {
    uint32_t vertex;
    CHECK(dcel_new(mesh) == DCEL_DONE);
    for (uint64_t datum = 20; datum < 23; datum++)
        CHECK(dcel_append_unconnected_vertex(mesh, datum, &vertex) == DCEL_DONE);
    CHECK(dcel_can_setup_initial_two_vertices(mesh, 0, 1) && !dcel_can_setup_initial_two_vertices(mesh, 0, 0));
    CHECK(dcel_setup_initial_two_vertices(mesh, 0, 0) == DCEL_SAME_VERTEX);
    CHECK(dcel_setup_initial_two_vertices(mesh, 0, 3) == DCEL_NO_SUCH_VERTEX);
    CHECK(dcel_setup_initial_two_vertices(mesh, 0, 1) == DCEL_DONE);
}

/* Puts the border loop of a vertex there, and returns how long it is. */
static size_t border_of(dcel_mesh *mesh, uint32_t vertex, uint32_t border[8]) {
    uint32_t out[8];
    uint64_t count;
    CHECK(dcel_out_edges(mesh, vertex, out, 8, &count) == DCEL_DONE && count <= 8);
    for (size_t i = 0; i < count; i++)
        border[i] = (uint32_t)dcel_next(mesh, out[count - 1 - i]);
    return (size_t)count;
}

static void check_version(void) {
    CHECK(dcel_version() == DCEL_VERSION_NUMBER && dcel_version_0_2_0() == DCEL_VERSION_NUMBER);
}

/* A mesh that isn't open answers all calls, and is given nothing. */
static void check_none(void) {
    dcel_mesh mesh = DCEL_MESH_INIT, other = DCEL_MESH_INIT;
    uint32_t number = 77, list[3] = {77, 77, 77};
    uint64_t datum = 77, needed = 77;
    bool answer = true;
    dcel_free(&mesh);
    CHECK(dcel_clone(&mesh, &other) == DCEL_NO_MESH);
    CHECK(dcel_clear(&mesh) == DCEL_NO_MESH && dcel_reserve_capacity(&mesh, 1, 1, 1) == DCEL_NO_MESH);
    CHECK(dcel_num_vertices(&mesh) == 0 && dcel_num_directed_edges(&mesh) == 0);
    CHECK(dcel_num_undirected_edges(&mesh) == 0 && dcel_num_faces(&mesh) == 0);
    CHECK(dcel_next(&mesh, 0) == DCEL_NONE && dcel_out_edge(&mesh, 0) == DCEL_NONE);
    CHECK(dcel_get_edge_from_neighbors(&mesh, 0, 1) == DCEL_NONE && dcel_adjacent_edge(&mesh, 0) == DCEL_NONE);
    CHECK(dcel_out_edges(&mesh, 0, list, 3, &needed) == DCEL_NO_MESH && needed == 0 && list[0] == 77);
    CHECK(dcel_vertex_data(&mesh, 0, &datum) == DCEL_NO_MESH && datum == 77);
    CHECK(dcel_update_face(&mesh, 0, 5) == DCEL_NO_MESH);
    CHECK(dcel_append_unconnected_vertex(&mesh, 1, &number) == DCEL_NO_MESH && number == 77);
    CHECK(dcel_flip_cw(&mesh, 0) == DCEL_NO_MESH && dcel_new_triangle(&mesh, 1, 2, 3) == DCEL_NO_MESH);
    CHECK(dcel_removal_state(&mesh) == DCEL_CLOSED && !dcel_sanity_check(&mesh) && !dcel_has_room(&mesh, 0, 0, 0));
    CHECK(dcel_is_edge_strip(&mesh, list, 3, &answer) == DCEL_NO_MESH && answer);
    CHECK(dcel_is_border_loop(&mesh, list, 3, 0, &answer) == DCEL_NO_MESH && answer);
    CHECK(dcel_is_ring(&mesh, list, 3, list, 3, list, 3, &answer) == DCEL_NO_MESH && answer);
    CHECK(dcel_is_listed(&mesh, list, 3, list, 3, &answer) == DCEL_NO_MESH && answer);
    CHECK(dcel_can_isolate_vertex_and_fill_hole(&mesh, list, 3, 0, &answer) == DCEL_NO_MESH && answer);
    CHECK(dcel_can_remesh_edge_ring(&mesh, list, 3, list, 3, list, 3, &answer) == DCEL_NO_MESH && answer);
    CHECK(dcel_can_disconnect_edge_strip(&mesh, list, 3, &answer) == DCEL_NO_MESH && answer);
    CHECK(strcmp(dcel_status_name(DCEL_NO_MESH), "NoMesh") == 0 && *dcel_status_name(99) == '\0');
}

static void check_steps(void) {
    dcel_mesh mesh = DCEL_MESH_INIT;
    make_round(&mesh);
    CHECK(dcel_num_vertices(&mesh) == 4 && dcel_num_undirected_edges(&mesh) == 6);
    CHECK(dcel_num_directed_edges(&mesh) == 12 && dcel_num_faces(&mesh) == 4);
    dcel_half_edge links, all[13];
    uint64_t needed;
    CHECK(dcel_directed_edges(&mesh, all, 5, &needed) == DCEL_SHORT && needed == 12);
    all[12].next = 77;
    CHECK(dcel_directed_edges(&mesh, all, 13, &needed) == DCEL_DONE && needed == 12 && all[12].next == 77);
    for (uint32_t h = 0; h < 12; h++) {
        dcel_directed_edge(&mesh, h, &links);
        CHECK(memcmp(&links, &all[h], sizeof links) == 0);
        CHECK(dcel_next(&mesh, h) == links.next && dcel_prev(&mesh, h) == links.prev);
        CHECK(dcel_rev(&mesh, h) == (h ^ 1) && dcel_face(&mesh, h) == links.face);
        CHECK(dcel_from(&mesh, h) == links.origin && dcel_to(&mesh, h) == all[h ^ 1].origin);
        CHECK(dcel_ccw(&mesh, h) == (links.prev ^ 1) && dcel_cw(&mesh, h) == all[h ^ 1].next);
        CHECK(dcel_get_edge_from_neighbors(&mesh, links.origin, all[h ^ 1].origin) == h);
    }
    dcel_directed_edge(&mesh, 12, &links);
    CHECK(links.next == DCEL_NO_LINK && links.face == DCEL_NO_LINK && dcel_next(&mesh, 12) == DCEL_NONE);
    CHECK(dcel_out_edge(&mesh, 4) == DCEL_NONE && dcel_adjacent_edge(&mesh, 4) == DCEL_NONE);
    CHECK(dcel_from(&mesh, (uint32_t)dcel_out_edge(&mesh, 3)) == 3 && dcel_face(&mesh, (uint32_t)dcel_adjacent_edge(&mesh, 2)) == 2);
    dcel_free(&mesh);
}

static void check_walks(void) {
    dcel_mesh mesh = DCEL_MESH_INIT;
    uint32_t edges[4] = {77, 77, 77, 77};
    uint64_t needed = 77;
    make_round(&mesh);
    CHECK(dcel_out_edges(&mesh, 3, edges, 2, &needed) == DCEL_SHORT && needed == 3 && edges[2] == 77);
    CHECK(dcel_out_edges(&mesh, 3, edges, 4, &needed) == DCEL_DONE && needed == 3 && edges[3] == 77);
    CHECK(edges[0] == dcel_out_edge(&mesh, 3) && edges[1] == dcel_ccw(&mesh, edges[0]));
    CHECK(dcel_out_edges(&mesh, 4, edges, 4, &needed) == DCEL_NO_SUCH_VERTEX && needed == 0);
    CHECK(dcel_face_edges(&mesh, 0, edges, 4, &needed) == DCEL_DONE && needed == 3 && edges[3] == 77);
    CHECK(edges[0] == dcel_adjacent_edge(&mesh, 0) && edges[1] == dcel_next(&mesh, edges[0]));
    CHECK(dcel_face_edges(&mesh, 4, edges, 4, &needed) == DCEL_NO_SUCH_FACE && needed == 0);
    CHECK(dcel_clear(&mesh) == DCEL_DONE && dcel_face_edges(&mesh, 0, edges, 0, &needed) == DCEL_DONE && needed == 0);
    dcel_free(&mesh);
}

static void check_data(void) {
    dcel_mesh mesh = DCEL_MESH_INIT;
    uint64_t datum = 77;
    make_round(&mesh);
    CHECK(dcel_vertex_data(&mesh, 1, &datum) == DCEL_DONE && datum == 8);
    CHECK(dcel_vertex_data(&mesh, 4, &datum) == DCEL_NO_SUCH_VERTEX && datum == 8);
    CHECK(dcel_directed_edge_data(&mesh, 11, &datum) == DCEL_DONE && datum == 0);
    CHECK(dcel_directed_edge_data(&mesh, 12, &datum) == DCEL_NO_SUCH_EDGE);
    CHECK(dcel_undirected_edge_data(&mesh, 6, &datum) == DCEL_NO_SUCH_EDGE);
    CHECK(dcel_face_data(&mesh, 4, &datum) == DCEL_NO_SUCH_FACE);
    CHECK(dcel_update_vertex(&mesh, 3, UINT64_MAX) == DCEL_DONE && dcel_update_vertex(&mesh, 4, 1) == DCEL_NO_SUCH_VERTEX);
    CHECK(dcel_update_directed_edge(&mesh, 3, 30) == DCEL_DONE && dcel_update_directed_edge(&mesh, 12, 1) == DCEL_NO_SUCH_EDGE);
    CHECK(dcel_update_undirected_edge(&mesh, 3, 31) == DCEL_DONE && dcel_update_undirected_edge(&mesh, 6, 1) == DCEL_NO_SUCH_EDGE);
    CHECK(dcel_update_face(&mesh, 3, 32) == DCEL_DONE && dcel_update_face(&mesh, 4, 1) == DCEL_NO_SUCH_FACE);
    CHECK(dcel_vertex_data(&mesh, 3, &datum) == DCEL_DONE && datum == UINT64_MAX);
    CHECK(dcel_directed_edge_data(&mesh, 3, &datum) == DCEL_DONE && datum == 30);
    CHECK(dcel_directed_edge_data(&mesh, 2, &datum) == DCEL_DONE && datum == 0);
    CHECK(dcel_undirected_edge_data(&mesh, 3, &datum) == DCEL_DONE && datum == 31);
    CHECK(dcel_face_data(&mesh, 3, &datum) == DCEL_DONE && datum == 32);
    dcel_free(&mesh);
}

static void check_lines(void) {
    dcel_mesh mesh = DCEL_MESH_INIT;
    uint32_t number = 77;
    make_line(&mesh);
    CHECK(dcel_is_line_end(&mesh, 0) && !dcel_is_line_end(&mesh, 2) && dcel_is_unconnected(&mesh, 2) && !dcel_is_unconnected(&mesh, 0));
    CHECK(dcel_can_extend_line(&mesh, 1, 2) && !dcel_can_extend_line(&mesh, 2, 1));
    CHECK(dcel_extend_line(&mesh, 1, 0) == DCEL_VERTEX_IN_USE && dcel_extend_line(&mesh, 1, 2) == DCEL_DONE);
    CHECK(dcel_append_unconnected_vertex(&mesh, 23, &number) == DCEL_DONE && number == 3);
    CHECK(dcel_is_bridge(&mesh, 0) && dcel_can_split_edge_when_all_vertices_on_line(&mesh, 0, 3));
    CHECK(dcel_split_edge_when_all_vertices_on_line(&mesh, 0, 3, &number) == DCEL_DONE && number == dcel_next(&mesh, 0));
    CHECK(dcel_to(&mesh, 0) == 3 && dcel_to(&mesh, number) == 1);
    CHECK(dcel_can_close_outside(&mesh, 0) && dcel_create_single_face_between_edge_and_next(&mesh, 0, &number) == DCEL_DONE);
    CHECK(dcel_face(&mesh, number) == 0 && dcel_num_faces(&mesh) == 2 && !dcel_is_bridge(&mesh, 0));
    CHECK(dcel_create_single_face_between_edge_and_next(&mesh, 0, &number) == DCEL_NOT_OUTER);
    dcel_free(&mesh);
}

static void check_triangles(void) {
    dcel_mesh mesh = DCEL_MESH_INIT;
    uint32_t vertex, second = 77;
    make_round(&mesh);
    CHECK(dcel_append_unconnected_vertex(&mesh, 11, &vertex) == DCEL_DONE);
    CHECK(dcel_is_triangle(&mesh, 1) && !dcel_is_triangle(&mesh, 4) && dcel_can_insert_into_triangle(&mesh, 4, 1));
    CHECK(!dcel_can_insert_into_triangle(&mesh, 4, 0) && dcel_insert_into_triangle(&mesh, 4, 0) == DCEL_NO_SUCH_FACE);
    CHECK(dcel_can_split_half_edge(&mesh, 1, 4) && dcel_can_split_edge(&mesh, 1, 4) && !dcel_can_split_edge(&mesh, 1, 3));
    CHECK(dcel_split_half_edge(&mesh, 1, 4, &second) == DCEL_DONE && dcel_to(&mesh, 1) == 4 && dcel_from(&mesh, second) == 4);
    CHECK(dcel_num_faces(&mesh) == 5 && !dcel_is_triangle(&mesh, 0));
    CHECK(dcel_append_unconnected_vertex(&mesh, 12, &vertex) == DCEL_DONE);
    CHECK(dcel_split_edge(&mesh, 6, 5, &second) == DCEL_DONE && dcel_to(&mesh, 6) == 5 && dcel_from(&mesh, second) == 5);
    CHECK(dcel_append_unconnected_vertex(&mesh, 13, &vertex) == DCEL_DONE);
    CHECK(dcel_can_create_new_face_adjacent_to_edge(&mesh, 0, 6));
    CHECK(dcel_create_new_face_adjacent_to_edge(&mesh, 0, 6) == DCEL_DONE && dcel_num_faces(&mesh) == 8);
    CHECK(dcel_sanity_check(&mesh) && dcel_is_live_vertex(&mesh, 6) && !dcel_is_live_vertex(&mesh, 7));
    CHECK(dcel_has_room(&mesh, UINT32_MAX - 7, 0, 0) && !dcel_has_room(&mesh, UINT64_C(1) << 33, 0, 0));
    CHECK(dcel_reserve_capacity(&mesh, 10, 10, 10) == DCEL_DONE);
    CHECK(dcel_reserve_capacity(&mesh, UINT64_MAX, 0, 0) == DCEL_NO_ROOM);
    CHECK(dcel_swap_vertices(&mesh, 0, 7) == DCEL_NO_SUCH_VERTEX && dcel_swap_vertices(&mesh, 0, 6) == DCEL_DONE);
    uint64_t datum;
    CHECK(dcel_vertex_data(&mesh, 0, &datum) == DCEL_DONE && datum == 13);
    dcel_free(&mesh);
}

/* Vertices that are inserted and removed by one call, and edges that are collapsed. */
static void check_convenience(void) {
    dcel_mesh mesh = DCEL_MESH_INIT;
    dcel_removed removed = {77, 77};
    uint32_t vertex = 77;
    CHECK(dcel_insert_vertex(&mesh, 1, 5, &vertex) == DCEL_NO_MESH && vertex == 77 && !dcel_can_collapse_edge(&mesh, 0));
    CHECK(dcel_collapse_edge(&mesh, 0, &removed) == DCEL_NO_MESH && dcel_remove_vertex(&mesh, 0, &removed) == DCEL_NO_MESH);
    make_round(&mesh);
    CHECK(dcel_insert_vertex(&mesh, 0, 5, &vertex) == DCEL_NOT_TRIANGLE && dcel_insert_vertex(&mesh, 9, 5, &vertex) == DCEL_NOT_TRIANGLE);
    CHECK(vertex == 77 && dcel_insert_vertex(&mesh, 1, 5, &vertex) == DCEL_DONE && vertex == 4);
    CHECK(dcel_num_undirected_edges(&mesh) == 9 && dcel_num_faces(&mesh) == 6);
    const uint32_t out = (uint32_t)dcel_out_edge(&mesh, 4);
    CHECK(dcel_can_collapse_edge(&mesh, out) && !dcel_can_collapse_edge(&mesh, 1) && !dcel_can_collapse_edge(&mesh, 99));
    CHECK(dcel_collapse_edge(&mesh, 0, &removed) == DCEL_NOT_INSIDE && removed.datum == 77);
    CHECK(dcel_collapse_edge(&mesh, out, &removed) == DCEL_DONE && removed.datum == 5 && removed.moved == DCEL_NONE);
    CHECK(dcel_num_undirected_edges(&mesh) == 6 && dcel_num_faces(&mesh) == 4 && dcel_sanity_check(&mesh));
    CHECK(dcel_remove_vertex(&mesh, 9, &removed) == DCEL_NO_SUCH_VERTEX && removed.datum == 5);
    CHECK(dcel_remove_vertex(&mesh, 0, &removed) == DCEL_DONE && removed.datum == 7 && removed.moved == 3);
    CHECK(dcel_num_vertices(&mesh) == 3 && dcel_num_undirected_edges(&mesh) == 3 && dcel_num_faces(&mesh) == 2);
    dcel_free(&mesh);
}

/* A square with one more edge at vertex 0, outside of it. */
static void make_flag(dcel_mesh *mesh) {
    const uint32_t corners[] = {0, 1, 2, 3}, counts[] = {4};
    const uint64_t data[] = {10, 11, 12, 13};
    uint32_t vertex;
    dcel_fault fault;
    dcel_removed removed;
    CHECK(dcel_from_faces(mesh, data, 4, corners, 4, counts, 1, &fault) == DCEL_DONE);
    for (uint32_t beside = 1; beside < 5; beside += 3) {
        const uint32_t edge = (uint32_t)dcel_get_edge_from_neighbors(mesh, beside, 0);
        CHECK(dcel_face(mesh, edge) == 0 && dcel_append_unconnected_vertex(mesh, 14, &vertex) == DCEL_DONE);
        CHECK(dcel_create_new_face_adjacent_to_edge(mesh, edge, vertex) == DCEL_DONE);
    }
    CHECK(dcel_remove_vertex(mesh, 4, &removed) == DCEL_DONE && removed.moved == 5);
    CHECK(dcel_num_undirected_edges(mesh) == 5 && dcel_num_faces(mesh) == 2);
}

/* Of several refusals that apply the first is returned. */
static void check_first_refusals(void) {
    dcel_mesh mesh = DCEL_MESH_INIT;
    uint32_t vertex = 77, border[8], edges[4], faces[4];
    dcel_opened opened;
    dcel_removed removed = {77, 77};
    make_round(&mesh);
    CHECK(dcel_insert_vertex(&mesh, (uint32_t)dcel_face(&mesh, 1), 5, &vertex) == DCEL_DONE && vertex == 4);
    /* Vertex 0 is on the border, and vertices 2, 3 and 4 are neighbors of both ends. */
    CHECK(dcel_from(&mesh, 0) == 0 && dcel_to(&mesh, 0) == 1 && dcel_face(&mesh, 0) == 0);
    CHECK(dcel_collapse_edge(&mesh, 0, &removed) == DCEL_NOT_INSIDE);
    const size_t length = border_of(&mesh, 4, border);
    CHECK(dcel_isolate_vertex_and_fill_hole(&mesh, border, length, 4, edges, 4, faces, 4, &opened) == DCEL_DONE);
    CHECK(dcel_collapse_edge(&mesh, 0, &removed) == DCEL_REMOVAL_OPEN && dcel_collapse_edge(&mesh, 99, &removed) == DCEL_REMOVAL_OPEN);
    CHECK(dcel_insert_vertex(&mesh, 0, 5, &vertex) == DCEL_REMOVAL_OPEN && dcel_insert_vertex(&mesh, 99, 5, &vertex) == DCEL_REMOVAL_OPEN);
    CHECK(dcel_remove_vertex(&mesh, 99, &removed) == DCEL_NO_SUCH_VERTEX && dcel_remove_vertex(&mesh, 0, &removed) == DCEL_REMOVAL_OPEN);
    dcel_free(&mesh);
    make_flag(&mesh);
    CHECK(dcel_remove_vertex(&mesh, 0, &removed) == DCEL_NOT_TRIANGLE && dcel_num_vertices(&mesh) == 5);
    CHECK(removed.datum == 77 && removed.moved == 77 && vertex == 4);
    dcel_free(&mesh);
}

/* A list of edits leaves the mesh that its calls leave one by one. */
static void check_edits(void) {
    dcel_mesh mesh = DCEL_MESH_INIT, other = DCEL_MESH_INIT;
    const dcel_edit edits[] = {
        {DCEL_CALL_NEW_TRIANGLE, 7, 8, 9},
        {DCEL_CALL_APPEND_UNCONNECTED_VERTEX, 10, 0, 0},
        {DCEL_CALL_INSERT_INTO_TRIANGLE, 3, 0, 0}, /* refused: it is the outer face */
        {DCEL_CALL_INSERT_INTO_TRIANGLE, 3, 1, 0},
        {99, 0, 0, 0},
        {DCEL_CALL_APPEND_UNCONNECTED_VERTEX, 11, 0, 0},
        {DCEL_CALL_SPLIT_EDGE, 6, 4, 0},
        {DCEL_CALL_UPDATE_VERTEX, 4, 12, 0},
        {DCEL_CALL_APPEND_UNCONNECTED_VERTEX, 13, 0, 0},
        {DCEL_CALL_SWAP_VERTICES, 0, 5, 0},
        {DCEL_CALL_SWAP_REMOVE_VERTEX, 0, 0, 0},
    };
    enum { COUNT = sizeof edits / sizeof *edits };
    dcel_reply replies[COUNT + 1];
    memset(replies, 0x55, sizeof replies);
    CHECK(dcel_apply_all(&mesh, edits, COUNT, replies, COUNT) == DCEL_NO_MESH && replies[0].status == UINT64_C(0x5555555555555555));
    make_round(&mesh);
    CHECK(dcel_new(&other) == DCEL_DONE);
    CHECK(dcel_apply_all(&other, edits, COUNT, replies, COUNT - 1) == DCEL_SHORT && dcel_num_vertices(&other) == 0);
    CHECK(dcel_apply_all(&other, edits, 0, replies, 0) == DCEL_DONE && replies[0].status == UINT64_C(0x5555555555555555));
    CHECK(dcel_apply_all(&other, edits, COUNT, replies, COUNT + 1) == DCEL_DONE);
    CHECK(replies[COUNT].status == UINT64_C(0x5555555555555555));
    CHECK(replies[0].status == DCEL_DONE && replies[0].number == DCEL_NONE && replies[1].number == 3);
    CHECK(replies[2].status == DCEL_NO_SUCH_FACE && replies[2].number == DCEL_NONE && replies[3].number == 3);
    CHECK(replies[4].status == DCEL_NO_SUCH_EDIT && replies[5].number == 4);
    uint32_t vertex, second;
    CHECK(dcel_append_unconnected_vertex(&mesh, 11, &vertex) == DCEL_DONE && dcel_split_edge(&mesh, 6, 4, &second) == DCEL_DONE);
    CHECK(replies[6].status == DCEL_DONE && replies[6].number == second);
    CHECK(replies[10].status == DCEL_DONE && replies[10].number == 13 && replies[10].moved == 5);
    uint64_t halves = dcel_num_directed_edges(&mesh), datum = 0;
    CHECK(halves == dcel_num_directed_edges(&other) && dcel_num_vertices(&other) == 5);
    for (uint32_t h = 0; h < halves; h++)
        CHECK(dcel_next(&mesh, h) == dcel_next(&other, h) && dcel_from(&mesh, h) == dcel_from(&other, h));
    CHECK(dcel_vertex_data(&other, 4, &datum) == DCEL_DONE && datum == 12);
    dcel_free(&mesh);
    dcel_free(&other);
}

/* An edit that inserts a vertex which is there tells that vertex, one that inserts none tells no number. */
static void check_edit_numbers(void) {
    dcel_mesh mesh = DCEL_MESH_INIT;
    const dcel_edit edits[] = {
        {DCEL_CALL_APPEND_UNCONNECTED_VERTEX, 20, 0, 0},
        {DCEL_CALL_APPEND_UNCONNECTED_VERTEX, 21, 0, 0},
        {DCEL_CALL_APPEND_UNCONNECTED_VERTEX, 22, 0, 0},
        {DCEL_CALL_APPEND_UNCONNECTED_VERTEX, 23, 0, 0},
        {DCEL_CALL_APPEND_UNCONNECTED_VERTEX, 24, 0, 0},
        {DCEL_CALL_SETUP_INITIAL_TWO_VERTICES, 0, 1, 0},
        {DCEL_CALL_EXTEND_LINE, 1, 2, 0},
        {DCEL_CALL_CREATE_SINGLE_FACE_BETWEEN_EDGE_AND_NEXT, 0, 0, 0},
        {DCEL_CALL_CREATE_NEW_FACE_ADJACENT_TO_EDGE, 1, 4, 0},
        {DCEL_CALL_INSERT_INTO_TRIANGLE, 3, 1, 0},
        {DCEL_CALL_FLIP_CW, 0, 0, 0},
        {DCEL_CALL_SWAP_VERTICES, 0, 1, 0},
        {DCEL_CALL_UPDATE_VERTEX, 0, 5, 0},
        {DCEL_CALL_REMOVE_WHEN_DEGENERATE, 0, 0, 0},
        {DCEL_CALL_CLEAR, 0, 0, 0},
    };
    const uint64_t none = DCEL_NONE, numbers[] = {0, 1, 2, 3, 4, none, 2, 5, 4, 3, none, none, none, none, none};
    enum { COUNT = sizeof edits / sizeof *edits };
    dcel_reply replies[COUNT];
    CHECK(dcel_new(&mesh) == DCEL_DONE && dcel_apply_all(&mesh, edits, COUNT, replies, COUNT) == DCEL_DONE);
    for (size_t i = 0; i < COUNT; i++) {
        CHECK(replies[i].status == (edits[i].call == DCEL_CALL_REMOVE_WHEN_DEGENERATE ? DCEL_NOT_PATH : DCEL_DONE));
        CHECK(replies[i].number == numbers[i] && replies[i].moved == DCEL_NONE);
    }
    dcel_free(&mesh);
}

static void check_flips(void) {
    dcel_mesh mesh = DCEL_MESH_INIT;
    make_round(&mesh);
    CHECK(dcel_can_flip(&mesh, 0) && !dcel_can_flip(&mesh, 99) && dcel_flip_cw(&mesh, 99) == DCEL_NO_SUCH_EDGE);
    CHECK(dcel_flip_cw(&mesh, 0) == DCEL_DONE);
    uint32_t ends[2] = {(uint32_t)dcel_from(&mesh, 0), (uint32_t)dcel_to(&mesh, 0)};
    CHECK((ends[0] == 2 && ends[1] == 3) || (ends[0] == 3 && ends[1] == 2));
    const uint32_t all[] = {0, 1, 2, 3, 4, 5};
    dcel_legalized legalized;
    CHECK(dcel_legalize_by_number(&mesh, 0, all, 6, &legalized) == DCEL_DONE && legalized.flips == 0);
    CHECK(legalized.ended == DCEL_STOPPED);
    CHECK(dcel_legalize_by_number(&mesh, 100, all, 6, &legalized) == DCEL_DONE && legalized.ended == DCEL_LEGALIZED);
    CHECK(legalized.flips > 0 && legalized.ended != DCEL_MEMORY_RAN_OUT);
    const uint32_t none[] = {99};
    CHECK(dcel_legalize_by_number(&mesh, 1, none, 1, &legalized) == DCEL_NO_SUCH_EDGE);
    dcel_free(&mesh);
}

/* A removal in its stages: opened, cleaned up, closed. */
static void check_isolation(void) {
    dcel_mesh mesh = DCEL_MESH_INIT;
    uint32_t border[8], edges[4] = {77, 77, 77, 77}, faces[4] = {77, 77, 77, 77};
    dcel_opened opened;
    dcel_removed removed = {77, 77};
    bool answer = false;
    make_round(&mesh);
    size_t length = border_of(&mesh, 3, border);
    CHECK(dcel_is_border_loop(&mesh, border, length, 3, &answer) == DCEL_DONE && answer);
    CHECK(dcel_is_border_loop(&mesh, border, length, 2, &answer) == DCEL_DONE && !answer);
    CHECK(dcel_can_isolate_vertex_and_fill_hole(&mesh, border, length, 3, &answer) == DCEL_DONE && answer);
    CHECK(dcel_isolate_vertex_and_fill_hole(&mesh, border, length, 3, edges, 2, faces, 4, &opened) == DCEL_SHORT);
    CHECK(dcel_isolate_vertex_and_fill_hole(&mesh, border, length, 2, edges, 4, faces, 4, &opened) == DCEL_BAD_RING);
    CHECK(edges[0] == 77 && dcel_removal_state(&mesh) == DCEL_CLOSED);
    CHECK(dcel_isolate_vertex_and_fill_hole(&mesh, border, length, 3, edges, 4, faces, 4, &opened) == DCEL_DONE);
    CHECK(opened.edges == 3 && opened.faces == 3 && opened.new_edges == 0 && edges[3] == 77 && faces[3] == 77);
    CHECK(dcel_removal_state(&mesh) == DCEL_ISOLATED && !dcel_is_live_vertex(&mesh, 3) && !dcel_is_live_edge(&mesh, edges[0]));
    CHECK(!dcel_is_live_face(&mesh, faces[0]) && dcel_is_live_face(&mesh, 0) && dcel_num_undirected_edges(&mesh) == 6);
    CHECK(dcel_next(&mesh, 2 * edges[0]) == DCEL_NONE && dcel_rev(&mesh, 2 * edges[0]) == DCEL_NONE);
    CHECK(dcel_is_listed(&mesh, edges, 3, faces, 3, &answer) == DCEL_DONE && answer);
    CHECK(dcel_is_listed(&mesh, edges, 2, faces, 3, &answer) == DCEL_DONE && !answer);
    CHECK(dcel_swap_remove_vertex(&mesh, 0, &removed) == DCEL_REMOVAL_OPEN && removed.datum == 77);
    CHECK(dcel_cleanup_isolated_vertex(&mesh, edges, 2, faces, 3) == DCEL_WRONG_LISTS);
    CHECK(dcel_cleanup_isolated_vertex(&mesh, edges, 3, faces, 3) == DCEL_DONE);
    CHECK(dcel_removal_state(&mesh) == DCEL_CLEANED && dcel_can_swap_remove(&mesh, 3) && !dcel_can_swap_remove(&mesh, 0));
    CHECK(dcel_swap_remove_vertex(&mesh, 3, &removed) == DCEL_DONE && removed.datum == 10 && removed.moved == DCEL_NONE);
    CHECK(dcel_removal_state(&mesh) == DCEL_CLOSED && dcel_num_vertices(&mesh) == 3 && dcel_num_faces(&mesh) == 2);
    dcel_free(&mesh);
}

/* The same vertex, given up by its ring with the edges and faces inside; and a region without one. */
static void check_remeshing(void) {
    dcel_mesh mesh = DCEL_MESH_INIT;
    uint32_t border[8], out[4], edges[4], faces[4];
    uint64_t count;
    dcel_opened opened;
    bool answer = false;
    make_round(&mesh);
    size_t length = border_of(&mesh, 3, border);
    CHECK(dcel_out_edges(&mesh, 3, out, 4, &count) == DCEL_DONE && count == 3);
    for (size_t i = 0; i < 3; i++) {
        edges[i] = out[i] / 2;
        faces[i] = (uint32_t)dcel_face(&mesh, out[i]);
    }
    CHECK(dcel_is_ring(&mesh, border, length, edges, 3, faces, 3, &answer) == DCEL_DONE && answer);
    CHECK(dcel_can_remesh_edge_ring(&mesh, border, length, edges, 2, faces, 3, &answer) == DCEL_DONE && !answer);
    CHECK(dcel_remesh_edge_ring(&mesh, border, length, edges, 2, faces, 3, &opened) == DCEL_BAD_RING);
    CHECK(dcel_remesh_edge_ring(&mesh, border, length, edges, 3, faces, 3, &opened) == DCEL_DONE);
    CHECK(opened.edges == 3 && opened.faces == 3 && opened.new_edges == 0 && opened.smallest_new_edge == 6);
    CHECK(dcel_remesh_edge_ring(&mesh, border, length, edges, 3, faces, 3, &opened) == DCEL_REMOVAL_OPEN);
    CHECK(dcel_cleanup_isolated_vertex(&mesh, edges, 3, faces, 3) == DCEL_DONE);
    CHECK(dcel_removal_state(&mesh) == DCEL_CLEANED);
    dcel_free(&mesh);
}

/* Vertex 3 beyond an edge of a triangle is cut off. */
static void check_strips(void) {
    dcel_mesh mesh = DCEL_MESH_INIT;
    uint32_t vertex, edges[4] = {77, 77, 77, 77}, faces[4] = {77, 77, 77, 77};
    dcel_opened opened;
    dcel_removed removed;
    bool answer = false;
    CHECK(dcel_new(&mesh) == DCEL_DONE && dcel_new_triangle(&mesh, 7, 8, 9) == DCEL_DONE);
    CHECK(dcel_append_unconnected_vertex(&mesh, 10, &vertex) == DCEL_DONE);
    CHECK(dcel_create_new_face_adjacent_to_edge(&mesh, 0, vertex) == DCEL_DONE);
    /* From the half edge that leaves the vertex along the outer face on, what comes after each. */
    uint32_t outer = (uint32_t)dcel_out_edge(&mesh, vertex);
    while (dcel_face(&mesh, outer) != 0)
        outer = (uint32_t)dcel_ccw(&mesh, outer);
    const uint32_t strip[2] = {(uint32_t)dcel_next(&mesh, (uint32_t)dcel_ccw(&mesh, outer)), (uint32_t)dcel_next(&mesh, outer)};
    CHECK(dcel_is_edge_strip(&mesh, strip, 2, &answer) == DCEL_DONE && answer);
    CHECK(dcel_can_disconnect_edge_strip(&mesh, strip, 1, &answer) == DCEL_DONE && !answer);
    CHECK(dcel_disconnect_edge_strip(&mesh, strip, 2, edges, 1, faces, 4, &opened) == DCEL_SHORT);
    CHECK(dcel_disconnect_edge_strip(&mesh, strip, 1, edges, 4, faces, 4, &opened) == DCEL_BAD_STRIP);
    CHECK(dcel_disconnect_edge_strip(&mesh, strip, 2, edges, 4, faces, 4, &opened) == DCEL_DONE);
    CHECK(opened.edges == 2 && opened.faces == 1 && opened.new_edges == 0 && edges[2] == 77 && faces[1] == 77);
    CHECK(dcel_cleanup_isolated_vertex(&mesh, edges, 2, faces, 1) == DCEL_DONE);
    CHECK(dcel_swap_remove_vertex(&mesh, vertex, &removed) == DCEL_DONE && removed.datum == 10);
    CHECK(dcel_num_faces(&mesh) == 2 && dcel_num_undirected_edges(&mesh) == 3);
    dcel_free(&mesh);
}

static void check_degenerate(void) {
    dcel_mesh mesh = DCEL_MESH_INIT;
    dcel_removed removed;
    make_line(&mesh);
    CHECK(!dcel_can_remove_degenerate(&mesh, 0) && dcel_remove_when_degenerate(&mesh, 0, &removed) == DCEL_NOT_PATH);
    CHECK(dcel_extend_line(&mesh, 1, 2) == DCEL_DONE && dcel_can_remove_degenerate(&mesh, 1));
    CHECK(dcel_remove_when_degenerate(&mesh, 1, &removed) == DCEL_DONE && removed.datum == 21 && removed.moved == 2);
    CHECK(dcel_num_vertices(&mesh) == 2 && dcel_num_undirected_edges(&mesh) == 1);
    dcel_free(&mesh);
}

/* A clone is a mesh of its own, and a triangle in place of a mesh is one too. */
static void check_whole(void) {
    dcel_mesh mesh = DCEL_MESH_INIT, other = DCEL_MESH_INIT;
    make_round(&mesh);
    CHECK(dcel_clone(&mesh, &other) == DCEL_DONE && dcel_flip_cw(&other, 0) == DCEL_DONE);
    CHECK(dcel_to(&mesh, 0) == 1 && dcel_to(&other, 0) != 1);
    CHECK(dcel_clone(&other, &mesh) == DCEL_DONE && dcel_to(&mesh, 0) == dcel_to(&other, 0));
    dcel_free(&other);
    CHECK(dcel_num_vertices(&mesh) == 4 && dcel_num_vertices(&other) == 0);
    CHECK(dcel_new_triangle(&mesh, 1, 2, 3) == DCEL_DONE && dcel_num_vertices(&mesh) == 3);
    CHECK(dcel_update_face(&mesh, 0, 5) == DCEL_DONE && dcel_clear(&mesh) == DCEL_DONE);
    uint64_t datum;
    CHECK(dcel_num_vertices(&mesh) == 0 && dcel_face_data(&mesh, 0, &datum) == DCEL_DONE && datum == 5);
    dcel_mesh moved = mesh; /* moved in memory: `mesh` is used no more */
    CHECK(dcel_new(&moved) == DCEL_DONE && dcel_face_data(&moved, 0, &datum) == DCEL_DONE && datum == 0);
    dcel_free(&moved);
    dcel_free(&moved);
}

/* A mesh is made again of its links, and refused with one of them changed. */
static void check_links(void) {
    dcel_mesh mesh = DCEL_MESH_INIT, other = DCEL_MESH_INIT;
    dcel_half_edge all[12], link;
    dcel_fault fault = {77, 77, 77, 77, 77};
    const uint64_t vertices[] = {1, 2, 3, 4}, faces[] = {5, 6, 7, 8};
    uint64_t needed, datum;
    make_round(&mesh);
    CHECK(dcel_directed_edges(&mesh, all, 12, &needed) == DCEL_DONE && needed == 12);
    CHECK(dcel_from_links(&other, all, 12, vertices, 4, faces, 4, &fault) == DCEL_DONE && fault.kind == 77);
    for (uint32_t h = 0; h < 12; h++) {
        dcel_directed_edge(&other, h, &link);
        CHECK(memcmp(&link, &all[h], sizeof link) == 0);
        all[h].prev = 77;
    }
    CHECK(dcel_vertex_data(&other, 3, &datum) == DCEL_DONE && datum == 4);
    CHECK(dcel_face_data(&other, 3, &datum) == DCEL_DONE && datum == 8);
    CHECK(dcel_directed_edge_data(&other, 11, &datum) == DCEL_DONE && datum == 0);
    CHECK(dcel_from_links(&mesh, all, 12, vertices, 4, faces, 4, &fault) == DCEL_DONE);
    CHECK(dcel_vertex_data(&mesh, 0, &datum) == DCEL_DONE && datum == 1);
    CHECK(dcel_from_links(&mesh, all, 11, vertices, 4, faces, 4, &fault) == DCEL_FAULTY);
    CHECK(fault.kind == DCEL_FAULT_LENGTHS && fault.number == 0 && fault.other == 0);
    CHECK(dcel_from_links(&mesh, all, 12, vertices, 4, faces, 0, &fault) == DCEL_FAULTY && fault.kind == DCEL_FAULT_NO_FACE);
    CHECK(dcel_from_links(&mesh, all, 12, vertices, 3, faces, 4, &fault) == DCEL_FAULTY);
    CHECK(fault.kind == DCEL_FAULT_ORIGIN_OUT_OF_RANGE && all[fault.number].origin == 3);
    all[5].next = 12;
    CHECK(dcel_from_links(&mesh, all, 12, vertices, 4, faces, 4, &fault) == DCEL_FAULTY);
    CHECK(fault.kind == DCEL_FAULT_NEXT_OUT_OF_RANGE && fault.number == 5 && dcel_num_vertices(&mesh) == 4);
    CHECK(dcel_from_links(&mesh, all, 0, vertices, 2, faces, 1, &fault) == DCEL_DONE && dcel_num_vertices(&mesh) == 2);
    dcel_free(&mesh);
    dcel_free(&other);
}

/* Two triangles beside each other, and faces that are refused. */
static void check_faces(void) {
    dcel_mesh mesh = DCEL_MESH_INIT;
    dcel_fault fault = {77, 77, 77, 77, 77};
    const uint64_t vertices[] = {1, 2, 3, 4, 5};
    const uint32_t corners[] = {0, 1, 2, 2, 1, 3}, twice[] = {0, 1, 2, 0, 1, 3}, same[] = {0, 1, 1}, counts[] = {3, 3, 1};
    uint32_t edges[4];
    uint64_t needed, datum;
    CHECK(dcel_from_faces(&mesh, vertices, 5, corners, 6, counts, 2, &fault) == DCEL_DONE && fault.kind == 77);
    CHECK(dcel_num_vertices(&mesh) == 5 && dcel_num_undirected_edges(&mesh) == 5 && dcel_num_faces(&mesh) == 3);
    CHECK(dcel_from(&mesh, 2) == 1 && dcel_to(&mesh, 2) == 2 && dcel_face(&mesh, 2) == 1 && dcel_face(&mesh, 3) == 2);
    CHECK(dcel_face_edges(&mesh, 2, edges, 4, &needed) == DCEL_DONE && needed == 3 && dcel_is_unconnected(&mesh, 4));
    CHECK(dcel_vertex_data(&mesh, 4, &datum) == DCEL_DONE && datum == 5);
    CHECK(dcel_from_faces(&mesh, vertices, 5, corners, 6, counts, 1, &fault) == DCEL_FAULTY);
    CHECK(fault.kind == DCEL_FAULT_OTHER_COUNT && fault.number == 0);
    CHECK(dcel_from_faces(&mesh, vertices, 5, corners, 5, counts, 2, &fault) == DCEL_FAULTY && fault.kind == DCEL_FAULT_OTHER_COUNT);
    CHECK(dcel_from_faces(&mesh, vertices, 5, corners, 1, counts + 2, 1, &fault) == DCEL_FAULTY && fault.kind == DCEL_FAULT_FEW_CORNERS);
    CHECK(dcel_from_faces(&mesh, vertices, 3, corners, 6, counts, 2, &fault) == DCEL_FAULTY);
    CHECK(fault.kind == DCEL_FAULT_NO_VERTEX && fault.number == 1 && fault.from == 3);
    CHECK(dcel_from_faces(&mesh, vertices, 5, same, 3, counts, 1, &fault) == DCEL_FAULTY);
    CHECK(fault.kind == DCEL_FAULT_SIDE_AT_ONE && fault.number == 0 && fault.from == 1 && fault.to == 1);
    CHECK(dcel_from_faces(&mesh, vertices, 5, twice, 6, counts, 2, &fault) == DCEL_FAULTY);
    CHECK(fault.kind == DCEL_FAULT_SIDE_TWICE && fault.number == 0 && fault.other == 1 && fault.from == 0 && fault.to == 1);
    CHECK(dcel_num_vertices(&mesh) == 5 && dcel_num_faces(&mesh) == 3);
    dcel_free(&mesh);
}

/* What a flip leaves, by its numbers, and that a mesh isn't there before and after. */
static void check_numbers(void) {
    dcel_mesh mesh = DCEL_MESH_INIT;
    uint32_t vertex = 9;
    CHECK(dcel_append_unconnected_vertex(&mesh, 7, &vertex) == DCEL_NO_MESH && vertex == 9);
    make_round(&mesh);
    CHECK(dcel_insert_into_triangle(&mesh, 3, 1) == DCEL_VERTEX_IN_USE);
    CHECK(dcel_flip_cw(&mesh, 9) == DCEL_NO_SUCH_EDGE);
    CHECK(dcel_flip_cw(&mesh, 3) == DCEL_DONE);
    CHECK(dcel_next(&mesh, 6) == 8 && dcel_from(&mesh, 6) == 1 && dcel_face(&mesh, 6) == 1);
    CHECK(dcel_next(&mesh, 12) == DCEL_NONE);
    dcel_free(&mesh);
    CHECK(dcel_num_vertices(&mesh) == 0 && dcel_flip_cw(&mesh, 3) == DCEL_NO_MESH);
}

/* A vertex that is taken out again leaves a triangle, with its numbers. */
static void check_coming_and_going(void) {
    dcel_mesh mesh = DCEL_MESH_INIT;
    const uint32_t border[] = {1, 3, 5};
    uint32_t edges[3], faces[3];
    dcel_opened opened = {9, 9, 9, 9};
    dcel_removed removed = {0, 0};
    const dcel_half_edge none = {9, 9, 9, 9};
    dcel_half_edge all[7] = {none, none, none, none, none, none, none};
    uint64_t needed = 0;
    make_round(&mesh);
    CHECK(dcel_isolate_vertex_and_fill_hole(&mesh, border, 3, 3, edges, 3, faces, 3, &opened) == DCEL_DONE);
    CHECK(opened.edges == 3 && opened.faces == 3 && opened.new_edges == 0);
    CHECK(dcel_cleanup_isolated_vertex(&mesh, edges, 3, faces, 3) == DCEL_DONE);
    CHECK(dcel_swap_remove_vertex(&mesh, 3, &removed) == DCEL_DONE && removed.datum == 10 && removed.moved == DCEL_NONE);
    CHECK(dcel_directed_edges(&mesh, all, 7, &needed) == DCEL_DONE && needed == 6);
    CHECK(all[0].next == 2 && all[6].face == 9);
    dcel_free(&mesh);
}

/* A mesh that is given by faces, and again by its links; a fault leaves it as it is. */
static void check_given(void) {
    dcel_mesh mesh = DCEL_MESH_INIT;
    dcel_fault fault = {9, 9, 9, 9, 9};
    const uint64_t data[] = {1, 2, 3, 4}, names[] = {7, 8, 9, 10}, faces[] = {0, 5, 6};
    const uint32_t corners[] = {0, 1, 2, 2, 1, 3}, twice[] = {0, 1, 2, 0, 1, 3}, counts[] = {3, 3};
    dcel_half_edge links[10];
    uint64_t needed;
    CHECK(dcel_from_faces(&mesh, names, 4, corners, 6, counts, 2, &fault) == DCEL_DONE);
    CHECK(dcel_num_undirected_edges(&mesh) == 5 && dcel_to(&mesh, 2) == 2 && fault.kind == 9);
    CHECK(dcel_directed_edges(&mesh, links, 10, &needed) == DCEL_DONE);
    CHECK(dcel_from_links(&mesh, links, 10, data, 4, faces, 3, &fault) == DCEL_DONE);
    CHECK(dcel_next(&mesh, 2) == links[2].next);
    links[3].origin = 4;
    CHECK(dcel_from_links(&mesh, links, 10, data, 4, faces, 3, &fault) == DCEL_FAULTY);
    CHECK(fault.kind == DCEL_FAULT_ORIGIN_OUT_OF_RANGE && fault.number == 3);
    CHECK(dcel_from_faces(&mesh, data, 4, twice, 6, counts, 2, &fault) == DCEL_FAULTY);
    CHECK(fault.kind == DCEL_FAULT_SIDE_TWICE && fault.other == 1 && fault.to == 1);
    CHECK(dcel_num_vertices(&mesh) == 4);
    dcel_free(&mesh);
}

/* The replies to lines come whole, or from the front. The lines make a triangle; one is refused, and one is
   none. */
static void check_replies(void) {
    static const char lines[] = "triangle 7 8 9\nflip 0\nfoo\nhull";
    static const char wanted[] = "ok\nrefused 14 WouldLoop\nbad line\nhull 0 2 4\n....";
    uint8_t replies[sizeof wanted - 1];
    uint64_t needed = 77;
    memset(replies, '.', sizeof replies);
    CHECK(dcel_replies((const uint8_t *)lines, sizeof lines - 1, replies, sizeof replies, &needed) == DCEL_DONE);
    CHECK(needed == 44 && memcmp(replies, wanted, sizeof replies) == 0);
    memset(replies, '.', sizeof replies);
    CHECK(dcel_replies((const uint8_t *)lines, sizeof lines - 1, replies, 4, &needed) == DCEL_SHORT && needed == 44);
    CHECK(memcmp(replies, "ok\nr....", 8) == 0);
    CHECK(dcel_replies((const uint8_t *)lines, 0, replies, 0, &needed) == DCEL_DONE && needed == 0 && replies[0] == 'o');
}

/* A triangulation that isn't open answers all calls, and is given nothing. */
static void check_no_triangulation(void) {
    dcel_triangulation none = DCEL_TRIANGULATION_INIT;
    dcel_point point = {1, 2};
    uint32_t vertex = 77;
    uint64_t number = 77;
    dcel_triangulation_free(&none);
    CHECK(dcel_triangulation_num_vertices(&none) == 0 && dcel_triangulation_num_triangles(&none) == 0);
    CHECK(!dcel_triangulation_is_whole(&none) && dcel_triangulation_finish(&none) == DCEL_NO_MESH);
    CHECK(dcel_triangulation_insert(&none, point, &vertex) == DCEL_NO_MESH && vertex == 77);
    CHECK(dcel_triangulation_insert_all(&none, &point, 1, &vertex, 1, &number) == DCEL_NO_MESH && vertex == 77);
    CHECK(dcel_triangulation_remove(&none, 0, &number) == DCEL_NO_MESH && number == 77);
    CHECK(dcel_triangulation_insert_with_hint(&none, point, 0, &vertex) == DCEL_NO_MESH && vertex == 77);
    CHECK(dcel_triangulation_num_edges(&none) == 0);
}

/* One that isn't open has no lists and no places, and no clone. */
static void check_nothing_told(void) {
    dcel_triangulation none = DCEL_TRIANGULATION_INIT, other = DCEL_TRIANGULATION_INIT;
    dcel_point point = {1, 2};
    dcel_triangle triangle = {77, 77, 77};
    dcel_across across = {77, 77, 77};
    dcel_ends ends = {77, 77};
    dcel_half_edge half = {77, 77, 77, 77};
    dcel_position position = {77, 77};
    uint32_t vertex = 77;
    uint64_t needed = 77, row = 77;
    CHECK(dcel_triangulation_points(&none, &point, 1, &needed) == DCEL_NO_MESH && needed == 0 && point.x == 1);
    needed = 77;
    CHECK(dcel_triangulation_triangles(&none, &triangle, 1, &needed) == DCEL_NO_MESH && needed == 0 && triangle.first == 77);
    needed = 77;
    CHECK(dcel_triangulation_neighbors(&none, &across, 1, &needed) == DCEL_NO_MESH && needed == 0 && across.first == 77);
    needed = 77;
    CHECK(dcel_triangulation_edges(&none, &ends, 1, &needed) == DCEL_NO_MESH && needed == 0 && ends.from == 77);
    needed = 77;
    CHECK(dcel_triangulation_hull(&none, &vertex, 1, &needed) == DCEL_NO_MESH && needed == 0 && vertex == 77);
    needed = 77;
    CHECK(dcel_triangulation_directed_edges(&none, &half, 1, &needed) == DCEL_NO_MESH && needed == 0 && half.next == 77);
    CHECK(dcel_triangulation_locate(&none, point, &position) == DCEL_NO_MESH);
    CHECK(dcel_triangulation_locate_with_hint(&none, point, 0, &position) == DCEL_NO_MESH);
    CHECK(dcel_triangulation_locate_all(&none, &point, 1, &position, 1, &row) == DCEL_NO_MESH && position.kind == 77 && row == 77);
    CHECK(dcel_triangulation_nearest(&none, point, &vertex) == DCEL_NO_MESH);
    CHECK(dcel_triangulation_nearest_all(&none, &point, 1, &vertex, 1, &row) == DCEL_NO_MESH && vertex == 77 && row == 77);
    CHECK(dcel_triangulation_new(&other) == DCEL_DONE && dcel_triangulation_clone(&none, &other) == DCEL_NO_MESH);
    CHECK(dcel_triangulation_is_whole(&other));
    dcel_triangulation_free(&other);
}

/* Twice the area of the triangle of three points, with small coordinates, and 0 or less if it goes clockwise. */
static int64_t area(dcel_point a, dcel_point b, dcel_point c) {
    return (b.x - a.x) * (c.y - a.y) - (b.y - a.y) * (c.x - a.x);
}

/* Above 0 if the point lies inside the circle of the triangle. */
static int64_t in_circle(dcel_point a, dcel_point b, dcel_point c, dcel_point p) {
    int64_t x[3] = {a.x - p.x, b.x - p.x, c.x - p.x}, y[3] = {a.y - p.y, b.y - p.y, c.y - p.y}, sum = 0;
    for (int i = 0; i < 3; i++) {
        int j = (i + 1) % 3, k = (i + 2) % 3;
        sum += (x[i] * x[i] + y[i] * y[i]) * (x[j] * y[k] - x[k] * y[j]);
    }
    return sum;
}

/* Four triangles round the fifth point. The second and the last one are equal. */
static const dcel_point POINTS[6] = {{0, 0}, {4, 0}, {0, 3}, {5, 5}, {2, 2}, {4, 0}};
static const dcel_point FAR[3] = {{1, 1}, {0, (INT64_C(1) << 53) + 1}, {INT64_MIN, 2}};

static void check_triangulate(void) {
    dcel_triangle triangles[5] = {{77, 77, 77}, {77, 77, 77}, {77, 77, 77}, {77, 77, 77}, {77, 77, 77}};
    uint64_t needed = 77, row = 77;
    int64_t all = 0;
    CHECK(dcel_triangulate(FAR, 3, triangles, 5, &needed, &row) == DCEL_OUT_OF_RANGE && row == 1 && needed == 0);
    CHECK(dcel_triangulate(POINTS, 2, triangles, 5, &needed, &row) == DCEL_DONE && needed == 0 && triangles[0].first == 77);
    CHECK(dcel_triangulate(POINTS, 6, triangles, 2, &needed, &row) == DCEL_SHORT && needed == 4 && triangles[2].first == 77);
    CHECK(dcel_triangulate(POINTS, 6, triangles, 5, &needed, &row) == DCEL_DONE && needed == 4 && triangles[4].first == 77);
    for (int i = 0; i < 4; i++) {
        CHECK(triangles[i].first < 5 && triangles[i].second < 5 && triangles[i].third < 5);
        dcel_point a = POINTS[triangles[i].first], b = POINTS[triangles[i].second], c = POINTS[triangles[i].third];
        CHECK(area(a, b, c) > 0);
        all += area(a, b, c);
        for (int j = 0; j < 6; j++)
            CHECK(in_circle(a, b, c, POINTS[j]) <= 0);
    }
    CHECK(all == 35 && row == 1);
}

/* Points that are put in and taken out. */
static void check_points(void) {
    dcel_triangulation made = DCEL_TRIANGULATION_INIT;
    const dcel_point limit = {INT64_C(1) << 53, -(INT64_C(1) << 53)};
    uint32_t vertices[6], vertex = 77, others[4] = {77, 77, 77, 77};
    uint64_t row = 77, moved = 77;
    CHECK(dcel_triangulation_new(&made) == DCEL_DONE && dcel_triangulation_is_whole(&made));
    CHECK(dcel_triangulation_insert_all(&made, POINTS, 6, vertices, 6, &row) == DCEL_DONE && row == 77);
    CHECK(dcel_triangulation_num_vertices(&made) == 5 && vertices[1] == vertices[5]);
    CHECK(dcel_triangulation_num_triangles(&made) == 4 && dcel_triangulation_is_whole(&made));
    CHECK(dcel_triangulation_insert(&made, POINTS[4], &vertex) == DCEL_DONE && vertex == vertices[4]);
    CHECK(dcel_triangulation_insert(&made, FAR[1], &vertex) == DCEL_OUT_OF_RANGE && vertex == vertices[4]);
    CHECK(dcel_triangulation_insert_all(&made, FAR, 3, others, 2, &row) == DCEL_SHORT && row == 77);
    CHECK(dcel_triangulation_insert_all(&made, FAR, 3, others, 4, &row) == DCEL_OUT_OF_RANGE && row == 1);
    CHECK(dcel_triangulation_insert_all(&made, POINTS, 0, others, 4, &row) == DCEL_DONE && others[0] == 77);
    CHECK(dcel_triangulation_num_vertices(&made) == 5);
    CHECK(dcel_triangulation_remove(&made, 5, &moved) == DCEL_NO_SUCH_VERTEX && moved == 77);
    CHECK(dcel_triangulation_remove(&made, vertices[4], &moved) == DCEL_DONE);
    CHECK(moved == (vertices[4] == 4 ? DCEL_NONE : 4) && dcel_triangulation_num_triangles(&made) == 2);
    CHECK(dcel_triangulation_insert(&made, limit, &vertex) == DCEL_DONE && vertex == 4);
    CHECK(dcel_triangulation_finish(&made) == DCEL_DONE && dcel_triangulation_is_whole(&made));
    for (uint32_t left = 5; left > 0; left--)
        CHECK(dcel_triangulation_remove(&made, 0, &moved) == DCEL_DONE && moved == (left > 1 ? left - 1 : DCEL_NONE));
    CHECK(dcel_triangulation_num_vertices(&made) == 0 && dcel_triangulation_remove(&made, 0, &moved) == DCEL_NO_SUCH_VERTEX);
    CHECK(dcel_triangulation_insert(&made, limit, &vertex) == DCEL_DONE && vertex == 0);
    CHECK(dcel_triangulation_new(&made) == DCEL_DONE && dcel_triangulation_num_vertices(&made) == 0);
    CHECK(strcmp(dcel_status_name(DCEL_OUT_OF_RANGE), "OutOfRange") == 0 && strcmp(dcel_status_name(DCEL_UNFINISHED), "Unfinished") == 0);
    dcel_triangulation_free(&made);
    CHECK(!dcel_triangulation_is_whole(&made));
}

/* Lists go into a buffer whole, or it stays. */
static void check_lists(void) {
    dcel_triangulation made = DCEL_TRIANGULATION_INIT;
    dcel_point points[6] = {{77, 77}, {77, 77}, {77, 77}, {77, 77}, {77, 77}, {77, 77}};
    dcel_triangle triangles[5] = {{77, 77, 77}, {77, 77, 77}, {77, 77, 77}, {77, 77, 77}, {77, 77, 77}};
    dcel_across across[5] = {{77, 77, 77}, {77, 77, 77}, {77, 77, 77}, {77, 77, 77}, {77, 77, 77}};
    dcel_ends edges[9] = {{77, 77}, {77, 77}, {77, 77}, {77, 77}, {77, 77}, {77, 77}, {77, 77}, {77, 77}, {77, 77}};
    dcel_half_edge halves[17];
    uint32_t vertices[6], hull[5] = {77, 77, 77, 77, 77};
    uint64_t row, needed = 77;
    memset(halves, 77, sizeof halves);
    CHECK(dcel_triangulation_new(&made) == DCEL_DONE);
    CHECK(dcel_triangulation_hull(&made, hull, 5, &needed) == DCEL_DONE && needed == 0);
    CHECK(dcel_triangulation_insert_all(&made, POINTS, 6, vertices, 6, &row) == DCEL_DONE);
    CHECK(dcel_triangulation_points(&made, points, 4, &needed) == DCEL_SHORT && needed == 5 && points[0].x == 77);
    CHECK(dcel_triangulation_triangles(&made, triangles, 3, &needed) == DCEL_SHORT && needed == 4 && triangles[0].first == 77);
    CHECK(dcel_triangulation_neighbors(&made, across, 3, &needed) == DCEL_SHORT && needed == 4 && across[0].first == 77);
    CHECK(dcel_triangulation_edges(&made, edges, 7, &needed) == DCEL_SHORT && needed == 8 && edges[0].from == 77);
    CHECK(dcel_triangulation_hull(&made, hull, 3, &needed) == DCEL_SHORT && needed == 4 && hull[0] == 77);
    CHECK(dcel_triangulation_directed_edges(&made, halves, 15, &needed) == DCEL_SHORT && needed == 16 && halves[0].next == halves[16].next);
    CHECK(dcel_triangulation_points(&made, points, 6, &needed) == DCEL_DONE && needed == 5 && points[4].x != 77 && points[5].x == 77);
    CHECK(dcel_triangulation_triangles(&made, triangles, 5, &needed) == DCEL_DONE && needed == 4 && triangles[3].first < 5 && triangles[4].first == 77);
    CHECK(dcel_triangulation_neighbors(&made, across, 5, &needed) == DCEL_DONE && needed == 4 && across[4].first == 77);
    CHECK(dcel_triangulation_edges(&made, edges, 9, &needed) == DCEL_DONE && needed == 8 && edges[7].from < 5 && edges[8].from == 77);
    CHECK(dcel_triangulation_hull(&made, hull, 5, &needed) == DCEL_DONE && needed == 4 && hull[3] < 5 && hull[4] == 77);
    CHECK(dcel_triangulation_directed_edges(&made, halves, 17, &needed) == DCEL_DONE && needed == 16 && halves[15].next < 16);
    CHECK(dcel_triangulation_num_edges(&made) == 8);
    dcel_triangulation_free(&made);
}

/* Points that are asked for in vain, and those that there are. */
static void check_places(void) {
    dcel_triangulation made = DCEL_TRIANGULATION_INIT;
    const dcel_point asked[3] = {{4, 0}, {1, 0}, {-9, 3}};
    dcel_position positions[4] = {{77, 77}, {77, 77}, {77, 77}, {77, 77}}, one = {77, 77};
    uint32_t vertices[6], nearest[4] = {77, 77, 77, 77}, vertex = 77;
    uint64_t row = 77;
    CHECK(dcel_triangulation_new(&made) == DCEL_DONE);
    CHECK(dcel_triangulation_locate(&made, asked[0], &one) == DCEL_DONE && one.kind == DCEL_NOWHERE && one.number == UINT32_MAX);
    CHECK(dcel_triangulation_nearest(&made, asked[0], &vertex) == DCEL_DONE && vertex == UINT32_MAX);
    CHECK(dcel_triangulation_insert_all(&made, POINTS, 6, vertices, 6, &row) == DCEL_DONE);
    CHECK(dcel_triangulation_locate(&made, FAR[1], &one) == DCEL_OUT_OF_RANGE && one.kind == DCEL_NOWHERE);
    CHECK(dcel_triangulation_locate_with_hint(&made, FAR[2], 0, &one) == DCEL_OUT_OF_RANGE && one.kind == DCEL_NOWHERE);
    CHECK(dcel_triangulation_nearest(&made, FAR[1], &vertex) == DCEL_OUT_OF_RANGE && vertex == UINT32_MAX);
    CHECK(dcel_triangulation_insert_with_hint(&made, FAR[1], 0, &vertex) == DCEL_OUT_OF_RANGE && vertex == UINT32_MAX);
    CHECK(dcel_triangulation_locate_all(&made, FAR, 3, positions, 2, &row) == DCEL_SHORT && row == 77);
    CHECK(dcel_triangulation_locate_all(&made, FAR, 3, positions, 4, &row) == DCEL_OUT_OF_RANGE && row == 1 && positions[0].kind == 77);
    row = 77;
    CHECK(dcel_triangulation_nearest_all(&made, FAR, 3, nearest, 2, &row) == DCEL_SHORT && row == 77);
    CHECK(dcel_triangulation_nearest_all(&made, FAR, 3, nearest, 4, &row) == DCEL_OUT_OF_RANGE && row == 1 && nearest[0] == 77);
    CHECK(dcel_triangulation_locate_all(&made, asked, 3, positions, 4, &row) == DCEL_DONE && positions[3].kind == 77);
    CHECK(positions[0].kind == DCEL_ON_VERTEX && positions[0].number == vertices[1]);
    CHECK(positions[1].kind == DCEL_ON_EDGE && positions[2].kind == DCEL_OUTSIDE);
    CHECK(dcel_triangulation_nearest_all(&made, asked, 3, nearest, 4, &row) == DCEL_DONE && nearest[3] == 77);
    CHECK(nearest[0] == vertices[1] && nearest[1] == vertices[0] && nearest[2] == vertices[2]);
    CHECK(dcel_triangulation_locate_with_hint(&made, asked[0], UINT32_MAX, &one) == DCEL_DONE && one.kind == DCEL_ON_VERTEX);
    CHECK(dcel_triangulation_insert_with_hint(&made, asked[0], UINT32_MAX, &vertex) == DCEL_DONE && vertex == vertices[1]);
    dcel_triangulation_free(&made);
}

static void check_clone(void) {
    dcel_triangulation from = DCEL_TRIANGULATION_INIT, to = DCEL_TRIANGULATION_INIT;
    uint32_t vertices[6];
    uint64_t row, moved;
    CHECK(dcel_triangulation_new(&from) == DCEL_DONE && dcel_triangulation_new(&to) == DCEL_DONE);
    CHECK(dcel_triangulation_insert_all(&from, POINTS, 6, vertices, 6, &row) == DCEL_DONE);
    CHECK(dcel_triangulation_clone(&from, &to) == DCEL_DONE && dcel_triangulation_num_vertices(&to) == 5);
    CHECK(dcel_triangulation_remove(&from, 0, &moved) == DCEL_DONE && dcel_triangulation_num_vertices(&to) == 5);
    dcel_triangulation_free(&from);
    CHECK(dcel_triangulation_num_triangles(&to) == 4 && dcel_triangulation_is_whole(&to));
    dcel_triangulation_free(&to);
}

/* Any triangle will do. */
static const dcel_refinement ANYTHING = {UINT64_MAX, 0, 100, 0, 1, false};

/* One with constraints that isn't open answers all calls, and is given nothing. */
static void check_no_constrained(void) {
    dcel_constrained none = DCEL_CONSTRAINED_INIT, other = DCEL_CONSTRAINED_INIT;
    dcel_triangulation no_triangulation = DCEL_TRIANGULATION_INIT;
    const dcel_ends segment = {0, 1};
    dcel_point point = {1, 2};
    dcel_position position = {77, 77};
    uint32_t vertex = 77;
    uint64_t number = 77;
    bool answer = true;
    dcel_constrained_free(&none);
    CHECK(dcel_constrained_num_vertices(&none) == 0 && dcel_constrained_num_edges(&none) == 0);
    CHECK(dcel_constrained_num_triangles(&none) == 0 && dcel_constrained_num_constraints(&none) == 0);
    CHECK(!dcel_constrained_is_whole(&none) && dcel_constrained_finish(&none) == DCEL_NO_MESH);
    CHECK(dcel_constrained_insert(&none, point, &vertex) == DCEL_NO_MESH && vertex == 77);
    CHECK(dcel_constrained_insert_all(&none, &point, 1, &vertex, 1, &number) == DCEL_NO_MESH && vertex == 77 && number == 77);
    CHECK(dcel_constrained_remove(&none, 0, &number) == DCEL_NO_MESH && number == 77);
    CHECK(dcel_constrained_locate(&none, point, &position) == DCEL_NO_MESH && position.kind == 77);
    CHECK(dcel_constrained_locate_all(&none, &point, 1, &position, 1, &number) == DCEL_NO_MESH && position.kind == 77 && number == 77);
    CHECK(dcel_constrained_can_add_constraint(&none, 0, 0, &answer) == DCEL_NO_MESH && answer);
    CHECK(dcel_constrained_add_constraint(&none, 0, 1, &answer) == DCEL_NO_MESH && answer);
    CHECK(dcel_constrained_add_constraints(&none, &segment, 1, &number) == DCEL_NO_MESH && number == 0);
    CHECK(dcel_constrained_remove_constraint(&none, 0, &answer) == DCEL_NO_MESH && answer);
    CHECK(dcel_constrained_refine(&none, &ANYTHING, &number, &number, &answer) == DCEL_NO_MESH && number == 0 && answer);
    CHECK(!dcel_constrained_is_constraint(&none, 0) && !dcel_constrained_exists_constraint(&none, 0, 1));
    CHECK(dcel_constrained_new(&other) == DCEL_DONE && dcel_constrained_is_whole(&other));
    CHECK(dcel_constrained_clone(&none, &other) == DCEL_NO_MESH && dcel_constrained_is_whole(&other));
    CHECK(dcel_constrained_from_triangulation(&no_triangulation, &other) == DCEL_NO_MESH && dcel_constrained_is_whole(&other));
    dcel_constrained_free(&other);
}

/* Nor has it lists. */
static void check_nothing_listed(void) {
    dcel_constrained none = DCEL_CONSTRAINED_INIT;
    dcel_point point = {77, 77};
    dcel_triangle triangle = {77, 77, 77};
    dcel_across across = {77, 77, 77};
    dcel_ends ends = {77, 77};
    dcel_half_edge half = {77, 77, 77, 77};
    uint32_t number = 77;
    uint64_t needed[8] = {77, 77, 77, 77, 77, 77, 77, 77};
    CHECK(dcel_constrained_points(&none, &point, 1, &needed[0]) == DCEL_NO_MESH && point.x == 77);
    CHECK(dcel_constrained_triangles(&none, &triangle, 1, &needed[1]) == DCEL_NO_MESH && triangle.first == 77);
    CHECK(dcel_constrained_neighbors(&none, &across, 1, &needed[2]) == DCEL_NO_MESH && across.first == 77);
    CHECK(dcel_constrained_edges(&none, &ends, 1, &needed[3]) == DCEL_NO_MESH && ends.from == 77);
    CHECK(dcel_constrained_hull(&none, &number, 1, &needed[4]) == DCEL_NO_MESH && number == 77);
    CHECK(dcel_constrained_directed_edges(&none, &half, 1, &needed[5]) == DCEL_NO_MESH && half.next == 77);
    CHECK(dcel_constrained_constraints(&none, &ends, 1, &needed[6]) == DCEL_NO_MESH && ends.from == 77);
    CHECK(dcel_constrained_regions(&none, &number, 1, &needed[7]) == DCEL_NO_MESH && number == 77);
    for (int i = 0; i < 8; i++)
        CHECK(needed[i] == 0);
}

/* A square with a point inside, and its corner again. */
static const dcel_point SQUARE[6] = {{0, 0}, {10, 0}, {10, 10}, {0, 10}, {5, 6}, {10, 10}};
static const dcel_ends SIDES[4] = {{0, 1}, {1, 2}, {2, 3}, {3, 0}};

/* Points and segments come in together, or nothing changes. */
static void check_loading(void) {
    dcel_constrained made = DCEL_CONSTRAINED_INIT;
    const dcel_ends crossing[3] = {{0, 1}, {0, 2}, {3, 1}}, nowhere[2] = {{0, 2}, {1, 6}};
    uint32_t vertices[7] = {77, 77, 77, 77, 77, 77, 77};
    uint64_t row = 77;
    CHECK(dcel_constrained_bulk_load(&made, SQUARE, 6, SIDES, 4, vertices, 5, &row) == DCEL_SHORT && row == 77);
    CHECK(dcel_constrained_bulk_load(&made, FAR, 3, SIDES, 4, vertices, 7, &row) == DCEL_OUT_OF_RANGE && row == 1);
    CHECK(dcel_constrained_bulk_load(&made, SQUARE, 6, crossing, 3, vertices, 7, &row) == DCEL_CROSSES && row == 2);
    row = 77;
    CHECK(dcel_constrained_bulk_load(&made, SQUARE, 6, nowhere, 2, vertices, 7, &row) == DCEL_NO_SUCH_VERTEX && row == 1);
    row = 77;
    CHECK(!made.is_open && vertices[0] == 77);
    CHECK(dcel_constrained_bulk_load(&made, SQUARE, 6, SIDES, 4, vertices, 7, &row) == DCEL_DONE && row == 77);
    CHECK(vertices[2] == vertices[5] && vertices[6] == 77 && dcel_constrained_is_whole(&made));
    CHECK(dcel_constrained_num_vertices(&made) == 5 && dcel_constrained_num_constraints(&made) == 4);
    CHECK(dcel_constrained_exists_constraint(&made, vertices[3], vertices[2]) && !dcel_constrained_exists_constraint(&made, vertices[0], vertices[4]));
    CHECK(dcel_constrained_bulk_load(&made, SQUARE, 6, crossing, 3, vertices, 7, &row) == DCEL_CROSSES);
    CHECK(dcel_constrained_num_constraints(&made) == 4);
    CHECK(strcmp(dcel_status_name(DCEL_CROSSES), "Crosses") == 0);
    dcel_constrained_free(&made);
    CHECK(!dcel_constrained_is_whole(&made));
}

/* The number of the edge between two vertices. */
static uint32_t edge_between(const dcel_constrained *made, uint32_t from, uint32_t to) {
    dcel_ends edges[16];
    uint64_t count;
    CHECK(dcel_constrained_edges(made, edges, 16, &count) == DCEL_DONE);
    for (uint32_t u = 0; u < count; u++)
        if ((edges[u].from == from && edges[u].to == to) || (edges[u].from == to && edges[u].to == from))
            return u;
    return UINT32_MAX;
}

/* Segments become constraints, unless one is in the way, and are freed again. */
static void check_constraints(void) {
    dcel_constrained made = DCEL_CONSTRAINED_INIT;
    dcel_ends segments[5];
    uint32_t v[6], vertex = 77;
    uint64_t row = 77, done = 77, moved = 77;
    bool answer = false, added = false, was = true;
    CHECK(dcel_constrained_new(&made) == DCEL_DONE && dcel_constrained_insert_all(&made, SQUARE, 6, v, 6, &row) == DCEL_DONE);
    CHECK(row == 77 && v[2] == v[5] && dcel_constrained_num_triangles(&made) == 4);
    CHECK(dcel_constrained_can_add_constraint(&made, v[0], v[2], &answer) == DCEL_DONE && answer);
    CHECK(dcel_constrained_add_constraint(&made, v[0], v[2], &added) == DCEL_DONE && added);
    CHECK(dcel_constrained_add_constraint(&made, v[2], v[0], &added) == DCEL_DONE && !added);
    CHECK(dcel_constrained_can_add_constraint(&made, v[1], v[3], &answer) == DCEL_DONE && !answer);
    CHECK(dcel_constrained_can_add_constraint(&made, v[1], 9, &answer) == DCEL_DONE && !answer);
    CHECK(dcel_constrained_add_constraint(&made, v[1], v[3], &added) == DCEL_CROSSES && !added);
    CHECK(dcel_constrained_add_constraint(&made, v[1], 9, &added) == DCEL_NO_SUCH_VERTEX && !added);
    CHECK(dcel_constrained_exists_constraint(&made, v[0], v[2]) && !dcel_constrained_exists_constraint(&made, v[1], v[3]));
    for (int i = 0; i < 4; i++) {
        segments[i].from = v[SIDES[i].from];
        segments[i].to = v[SIDES[i].to];
    }
    segments[4].from = v[3];
    segments[4].to = v[1];
    CHECK(dcel_constrained_add_constraints(&made, segments, 5, &done) == DCEL_CROSSES && done == 4);
    CHECK(dcel_constrained_add_constraints(&made, segments, 4, &done) == DCEL_DONE && done == 4);
    CHECK(dcel_constrained_add_constraints(&made, segments, 0, &done) == DCEL_DONE && done == 0);
    CHECK(dcel_constrained_num_constraints(&made) == 5);
    uint32_t diagonal = edge_between(&made, v[0], v[2]);
    CHECK(dcel_constrained_is_constraint(&made, diagonal) && !dcel_constrained_is_constraint(&made, UINT32_MAX));
    CHECK(dcel_constrained_remove_constraint(&made, UINT32_MAX, &was) == DCEL_DONE && !was);
    CHECK(dcel_constrained_remove_constraint(&made, diagonal, &was) == DCEL_DONE && was);
    CHECK(dcel_constrained_remove_constraint(&made, diagonal, &was) == DCEL_DONE && !was);
    CHECK(dcel_constrained_num_constraints(&made) == 4 && edge_between(&made, v[0], v[2]) == UINT32_MAX);
    /* A point on a side makes two of it, and a corner takes two away. */
    const dcel_point on_side = {4, 0};
    CHECK(dcel_constrained_insert(&made, on_side, &vertex) == DCEL_DONE && vertex == 5);
    CHECK(dcel_constrained_insert(&made, FAR[1], &vertex) == DCEL_OUT_OF_RANGE && vertex == 5);
    CHECK(dcel_constrained_num_constraints(&made) == 5 && dcel_constrained_exists_constraint(&made, v[0], 5));
    CHECK(dcel_constrained_remove(&made, 6, &moved) == DCEL_NO_SUCH_VERTEX && moved == 77);
    CHECK(dcel_constrained_remove(&made, v[2], &moved) == DCEL_DONE && moved == 5);
    CHECK(dcel_constrained_num_constraints(&made) == 3 && dcel_constrained_finish(&made) == DCEL_DONE);
    CHECK(dcel_constrained_insert_all(&made, FAR, 3, v, 2, &row) == DCEL_SHORT && row == 77);
    CHECK(dcel_constrained_insert_all(&made, FAR, 3, v, 6, &row) == DCEL_OUT_OF_RANGE && row == 1);
    dcel_constrained_free(&made);
}

/* Lists go into a buffer whole, or it stays; points are where they are. */
static void check_constrained_lists(void) {
    dcel_constrained made = DCEL_CONSTRAINED_INIT;
    dcel_point points[6] = {{77, 77}, {77, 77}, {77, 77}, {77, 77}, {77, 77}, {77, 77}};
    dcel_triangle triangles[5] = {{77, 77, 77}, {77, 77, 77}, {77, 77, 77}, {77, 77, 77}, {77, 77, 77}};
    dcel_across across[5] = {{77, 77, 77}, {77, 77, 77}, {77, 77, 77}, {77, 77, 77}, {77, 77, 77}};
    dcel_ends edges[9], constraints[5] = {{77, 77}, {77, 77}, {77, 77}, {77, 77}, {77, 77}};
    dcel_half_edge halves[17];
    dcel_position position = {77, 77};
    uint32_t v[6], hull[5] = {77, 77, 77, 77, 77}, depths[5] = {77, 77, 77, 77, 77};
    uint64_t row, needed = 77;
    memset(halves, 77, sizeof halves);
    memset(edges, 77, sizeof edges);
    CHECK(dcel_constrained_bulk_load(&made, SQUARE, 6, SIDES, 4, v, 6, &row) == DCEL_DONE);
    CHECK(dcel_constrained_points(&made, points, 4, &needed) == DCEL_SHORT && needed == 5 && points[0].x == 77);
    CHECK(dcel_constrained_triangles(&made, triangles, 3, &needed) == DCEL_SHORT && needed == 4 && triangles[0].first == 77);
    CHECK(dcel_constrained_neighbors(&made, across, 3, &needed) == DCEL_SHORT && needed == 4 && across[0].first == 77);
    CHECK(dcel_constrained_edges(&made, edges, 7, &needed) == DCEL_SHORT && needed == 8 && edges[0].from == edges[8].from);
    CHECK(dcel_constrained_hull(&made, hull, 3, &needed) == DCEL_SHORT && needed == 4 && hull[0] == 77);
    CHECK(dcel_constrained_directed_edges(&made, halves, 15, &needed) == DCEL_SHORT && needed == 16 && halves[0].next == halves[16].next);
    CHECK(dcel_constrained_constraints(&made, constraints, 3, &needed) == DCEL_SHORT && needed == 4 && constraints[0].from == 77);
    CHECK(dcel_constrained_regions(&made, depths, 3, &needed) == DCEL_SHORT && needed == 4 && depths[0] == 77);
    CHECK(dcel_constrained_points(&made, points, 6, &needed) == DCEL_DONE && points[v[4]].y == 6 && points[5].x == 77);
    CHECK(dcel_constrained_triangles(&made, triangles, 5, &needed) == DCEL_DONE && triangles[3].first < 5 && triangles[4].first == 77);
    CHECK(dcel_constrained_neighbors(&made, across, 5, &needed) == DCEL_DONE && across[4].first == 77);
    CHECK(dcel_constrained_edges(&made, edges, 9, &needed) == DCEL_DONE && edges[7].from < 5);
    CHECK(dcel_constrained_hull(&made, hull, 5, &needed) == DCEL_DONE && hull[3] < 5 && hull[4] == 77);
    CHECK(dcel_constrained_directed_edges(&made, halves, 17, &needed) == DCEL_DONE && halves[15].next < 16);
    CHECK(dcel_constrained_constraints(&made, constraints, 5, &needed) == DCEL_DONE && constraints[3].from < 5 && constraints[4].from == 77);
    CHECK(dcel_constrained_regions(&made, depths, 5, &needed) == DCEL_DONE && depths[0] == 1 && depths[3] == 1 && depths[4] == 77);
    CHECK(dcel_constrained_locate(&made, FAR[1], &position) == DCEL_OUT_OF_RANGE && position.kind == 77);
    CHECK(dcel_constrained_locate(&made, SQUARE[4], &position) == DCEL_DONE && position.kind == DCEL_ON_VERTEX && position.number == v[4]);
    CHECK(dcel_constrained_num_edges(&made) == 8);
    dcel_constrained_free(&made);
}

/* Points that are asked for at once, among constraints. */
static void check_constrained_places(void) {
    dcel_constrained made = DCEL_CONSTRAINED_INIT;
    const dcel_point asked[4] = {{5, 6}, {5, 0}, {-9, 3}, {5, 1}};
    dcel_position positions[5] = {{77, 77}, {77, 77}, {77, 77}, {77, 77}, {77, 77}};
    uint32_t v[6];
    uint64_t row;
    CHECK(dcel_constrained_bulk_load(&made, SQUARE, 6, SIDES, 4, v, 6, &row) == DCEL_DONE);
    row = 77;
    CHECK(dcel_constrained_locate_all(&made, FAR, 3, positions, 2, &row) == DCEL_SHORT && row == 77);
    CHECK(dcel_constrained_locate_all(&made, FAR, 3, positions, 5, &row) == DCEL_OUT_OF_RANGE && row == 1 && positions[0].kind == 77);
    CHECK(dcel_constrained_locate_all(&made, asked, 4, positions, 5, &row) == DCEL_DONE && positions[4].kind == 77);
    CHECK(positions[0].kind == DCEL_ON_VERTEX && positions[0].number == v[4]);
    CHECK(positions[1].kind == DCEL_ON_EDGE && positions[2].kind == DCEL_OUTSIDE && positions[3].kind == DCEL_ON_FACE);
    dcel_constrained_free(&made);
}

/* Refines it, and returns whether that is reached. */
static bool refine(dcel_constrained *made, dcel_refinement wanted, uint64_t *added) {
    uint64_t before = dcel_constrained_num_vertices(made);
    uint64_t excepted = 77;
    bool reached = true;
    CHECK(dcel_constrained_refine(made, &wanted, added, &excepted, &reached) == DCEL_DONE && dcel_constrained_is_whole(made));
    CHECK(dcel_constrained_num_vertices(made) == before + *added && *added <= wanted.max_additional_vertices);
    CHECK(excepted == 0);
    return reached;
}

/* A square is refined to an angle of 30 degrees and an area; no vertex is added where none is wanted, allowed or possible. */
static void check_refined(void) {
    const dcel_point large[5] = {{0, 0}, {40960, 0}, {40960, 40960}, {0, 40960}, {20480, 20480}}, small[3] = {{0, 0}, {1, 0}, {0, 1}};
    const dcel_ends sides[3] = {{0, 1}, {1, 2}, {2, 0}};
    const dcel_refinement fine = {0, 8000000, 5000, 37837, 65535, true}, none = {0, 8000000, 0, 37837, 65535, true};
    const dcel_refinement wide = {1, 0, 100, 0, 0, false}, empty = {0, 0, 100, 0, 1, false}, right = {UINT64_MAX, 0, 9, 1, 0, true};
    dcel_constrained made = DCEL_CONSTRAINED_INIT;
    uint32_t v[5];
    uint64_t row, added = 77;
    CHECK(dcel_constrained_bulk_load(&made, large, 5, SIDES, 4, v, 5, &row) == DCEL_DONE);
    CHECK(refine(&made, ANYTHING, &added) && added == 0);
    CHECK(refine(&made, wide, &added) && added == 0);
    CHECK(!refine(&made, none, &added) && added == 0);
    CHECK(refine(&made, fine, &added) && added > 200 && added < 2000);
    CHECK(dcel_constrained_num_constraints(&made) > 20 && !dcel_constrained_exists_constraint(&made, v[0], v[1]));
    CHECK(refine(&made, fine, &added) && added == 0);
    CHECK(!refine(&made, right, &added));
    CHECK(dcel_constrained_bulk_load(&made, small, 3, sides, 3, v, 3, &row) == DCEL_DONE);
    CHECK(!refine(&made, empty, &added) && added == 0);
    dcel_constrained_free(&made);
}

/* A copy has memory of its own. */
static void check_copies(void) {
    dcel_triangulation from = DCEL_TRIANGULATION_INIT;
    dcel_constrained made = DCEL_CONSTRAINED_INIT, copy = DCEL_CONSTRAINED_INIT;
    uint32_t v[6];
    uint64_t row;
    bool added;
    CHECK(dcel_triangulation_new(&from) == DCEL_DONE && dcel_triangulation_insert_all(&from, SQUARE, 6, v, 6, &row) == DCEL_DONE);
    CHECK(dcel_constrained_from_triangulation(&from, &made) == DCEL_DONE && dcel_constrained_num_constraints(&made) == 0);
    dcel_triangulation_free(&from);
    CHECK(dcel_constrained_num_triangles(&made) == 4 && dcel_constrained_add_constraint(&made, v[1], v[3], &added) == DCEL_DONE);
    CHECK(dcel_constrained_clone(&made, &copy) == DCEL_DONE && dcel_constrained_exists_constraint(&copy, v[3], v[1]));
    CHECK(dcel_constrained_add_constraint(&made, v[0], v[1], &added) == DCEL_DONE && dcel_constrained_num_constraints(&copy) == 1);
    dcel_constrained_free(&made);
    CHECK(dcel_constrained_num_vertices(&copy) == 5 && dcel_constrained_is_whole(&copy));
    dcel_constrained_free(&copy);
}

int main(void) {
    check_version();
    check_none();
    check_steps();
    check_walks();
    check_data();
    check_lines();
    check_triangles();
    check_convenience();
    check_first_refusals();
    check_edits();
    check_edit_numbers();
    check_flips();
    check_isolation();
    check_remeshing();
    check_strips();
    check_degenerate();
    check_whole();
    check_links();
    check_faces();
    check_numbers();
    check_coming_and_going();
    check_given();
    check_replies();
    check_no_triangulation();
    check_triangulate();
    check_points();
    check_nothing_told();
    check_lists();
    check_places();
    check_clone();
    check_no_constrained();
    check_nothing_listed();
    check_loading();
    check_constraints();
    check_constrained_lists();
    check_constrained_places();
    check_refined();
    check_copies();
    printf("%d checks passed\n", checks);
    return EXIT_SUCCESS;
}
