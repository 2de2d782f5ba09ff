/* Makes a mesh, walks round a vertex, flips an edge, and takes the vertex out again. */
#include "dcel.h"

#include <inttypes.h>
#include <stdio.h>
#include <stdlib.h>

enum { ROOM = 8 };

/* Says what a call returned, and ends the program if it isn't what was to come. */
static void expect(const char *call, dcel_status status, dcel_status wanted) {
    printf("%s: %s\n", call, dcel_status_name(status));
    if (status != wanted)
        exit(EXIT_FAILURE);
}

/* Prints where the half edges out of a vertex lead. */
static void show_neighbors(dcel_mesh *mesh, uint32_t vertex) {
    uint32_t edges[ROOM];
    uint64_t count;
    expect("out edges", dcel_out_edges(mesh, vertex, edges, ROOM, &count), DCEL_DONE);
    for (uint64_t i = 0; i < count; i++)
        printf("half edge %" PRIu32 " to %" PRIu64 "\n", edges[i], dcel_to(mesh, edges[i]));
}

/* Puts what comes after the out edges into the border, from the last one to the first: the border loop. */
static size_t border_of(dcel_mesh *mesh, uint32_t vertex, uint32_t border[ROOM]) {
    uint64_t count;
    expect("border", dcel_out_edges(mesh, vertex, border, ROOM, &count), DCEL_DONE);
    for (uint64_t i = 0, j = count - 1; i <= j; i++, j--) {
        uint32_t edge = border[i];
        border[i] = (uint32_t)dcel_next(mesh, border[j]);
        border[j] = (uint32_t)dcel_next(mesh, edge);
    }
    return (size_t)count;
}

/* Takes a vertex out that lies inside triangles. */
static void take_out(dcel_mesh *mesh, uint32_t vertex) {
    uint32_t border[ROOM], edges[ROOM], faces[ROOM];
    size_t length = border_of(mesh, vertex, border);
    dcel_opened opened;
    expect("isolate",
           dcel_isolate_vertex_and_fill_hole(mesh, border, length, vertex, edges, ROOM, faces, ROOM, &opened),
           DCEL_DONE);
    printf("given up: %" PRIu64 " edges, %" PRIu64 " faces\n", opened.edges, opened.faces);
    expect("clean up", dcel_cleanup_isolated_vertex(mesh, edges, opened.edges, faces, opened.faces), DCEL_DONE);
    dcel_removed removed;
    expect("remove", dcel_swap_remove_vertex(mesh, vertex, &removed), DCEL_DONE);
    printf("its datum was %" PRIu64 "\n", removed.datum);
}

int main(void) {
    dcel_mesh mesh = DCEL_MESH_INIT;
    uint32_t vertex;
    expect("append to none", dcel_append_unconnected_vertex(&mesh, 10, &vertex), DCEL_NO_MESH);
    expect("new", dcel_new(&mesh), DCEL_DONE);
    expect("triangle", dcel_new_triangle(&mesh, 7, 8, 9), DCEL_DONE);
    expect("append", dcel_append_unconnected_vertex(&mesh, 10, &vertex), DCEL_DONE);
    expect("insert", dcel_insert_into_triangle(&mesh, vertex, 1), DCEL_DONE);
    expect("insert again", dcel_insert_into_triangle(&mesh, vertex, 1), DCEL_VERTEX_IN_USE);
    expect("flip of none", dcel_flip_cw(&mesh, 99), DCEL_NO_SUCH_EDGE);
    uint32_t other, edge;
    expect("append", dcel_append_unconnected_vertex(&mesh, 11, &other), DCEL_DONE);
    expect("insert", dcel_insert_into_triangle(&mesh, other, 2), DCEL_DONE);
    show_neighbors(&mesh, vertex);
    edge = (uint32_t)dcel_get_edge_from_neighbors(&mesh, vertex, 0) / 2;
    expect("flip", dcel_flip_cw(&mesh, edge), DCEL_DONE);
    show_neighbors(&mesh, vertex);
    take_out(&mesh, vertex);
    printf("%" PRIu64 " vertices, %" PRIu64 " edges, %" PRIu64 " faces\n", dcel_num_vertices(&mesh),
           dcel_num_undirected_edges(&mesh), dcel_num_faces(&mesh));
    dcel_free(&mesh);
    expect("flip after free", dcel_flip_cw(&mesh, 0), DCEL_NO_MESH);
    return EXIT_SUCCESS;
}
