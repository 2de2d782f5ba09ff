/* Grows a mesh of 10,000 vertices by edits, flips many of its edges, walks round each vertex, and takes a
   tenth of the vertices out. It writes each edit as a line (docs/LINES.md) into the file that is named, and
   then to its output what the line `words` shows of the mesh that is left. */
#include "dcel.h"

#include <inttypes.h>
#include <stdio.h>
#include <stdlib.h>

enum { VERTICES = 10000, ROOM = 4 * VERTICES };

static FILE *lines;
static uint32_t walk[2 * ROOM], border[2 * ROOM], edges[2 * ROOM], faces[2 * ROOM];

static void must(bool holds, const char *what) {
    if (holds)
        return;
    fprintf(stderr, "%s\n", what);
    exit(EXIT_FAILURE);
}

/* Numbers that look random, the same on every machine. */
static uint32_t draw(uint32_t below) {
    static uint64_t state = 1;
    state = state * UINT64_C(6364136223846793005) + UINT64_C(1442695040888963407);
    return (uint32_t)((state >> 33) % below);
}

static void grow(dcel_mesh *mesh) {
    must(dcel_new_triangle(mesh, 0, 1, 2) == DCEL_DONE, "triangle");
    fprintf(lines, "triangle 0 1 2\n");
    for (uint32_t datum = 3; datum < VERTICES; datum++) {
        uint32_t vertex, face = 1 + draw((uint32_t)dcel_num_faces(mesh) - 1);
        must(dcel_append_unconnected_vertex(mesh, datum, &vertex) == DCEL_DONE && vertex == datum, "append");
        must(dcel_insert_into_triangle(mesh, vertex, face) == DCEL_DONE, "insert");
        fprintf(lines, "append %" PRIu32 "\ninsert %" PRIu32 " %" PRIu32 "\n", datum, vertex, face);
        uint32_t edge = draw((uint32_t)dcel_num_undirected_edges(mesh));
        bool can = dcel_can_flip(mesh, edge);
        must((dcel_flip_cw(mesh, edge) == DCEL_DONE) == can, "flip");
        fprintf(lines, "flip %" PRIu32 "\n", edge);
    }
}

/* Goes round each vertex, and counts the half edges. */
static void walk_round(dcel_mesh *mesh) {
    uint64_t count, sum = 0;
    for (uint32_t v = 0; v < dcel_num_vertices(mesh); v++) {
        must(dcel_out_edges(mesh, v, walk, 2 * ROOM, &count) == DCEL_DONE, "out edges");
        for (uint64_t i = 0; i < count; i++)
            must(dcel_from(mesh, walk[i]) == v && dcel_ccw(mesh, walk[i]) == walk[(i + 1) % count], "turn");
        sum += count;
    }
    must(sum == dcel_num_directed_edges(mesh), "each half edge starts at one vertex");
}

static void list(const char *before, const uint32_t *numbers, uint64_t count) {
    fprintf(lines, "%s", before);
    for (uint64_t i = 0; i < count; i++)
        fprintf(lines, " %" PRIu32, numbers[i]);
}

/* Takes a vertex out, if it lies inside triangles with no other edge between the same vertices. */
static bool take_out(dcel_mesh *mesh, uint32_t vertex) {
    uint64_t count;
    must(dcel_out_edges(mesh, vertex, walk, 2 * ROOM, &count) == DCEL_DONE, "out edges");
    for (uint64_t i = 0; i < count; i++)
        border[i] = (uint32_t)dcel_next(mesh, walk[count - 1 - i]);
    dcel_opened opened;
    uint32_t status = dcel_isolate_vertex_and_fill_hole(mesh, border, count, vertex, edges, 2 * ROOM, faces, 2 * ROOM, &opened);
    fprintf(lines, "isolate %" PRIu32, vertex);
    list("", border, count);
    fprintf(lines, "\n");
    if (status == DCEL_BAD_RING)
        return false;
    must(status == DCEL_DONE && opened.edges == count && opened.faces == count, "isolate");
    dcel_removed removed;
    must(dcel_cleanup_isolated_vertex(mesh, edges, opened.edges, faces, opened.faces) == DCEL_DONE, "cleanup");
    must(dcel_swap_remove_vertex(mesh, vertex, &removed) == DCEL_DONE, "remove");
    list("cleanup", edges, opened.edges);
    list(" /", faces, opened.faces);
    fprintf(lines, "\nremove %" PRIu32 "\n", vertex);
    return true;
}

/* Writes the half edges round each face, from the least on. */
static void write_words(dcel_mesh *mesh) {
    for (uint32_t f = 0; f < dcel_num_faces(mesh); f++) {
        uint64_t count, least = 0;
        must(dcel_face_edges(mesh, f, walk, 2 * ROOM, &count) == DCEL_DONE, "face edges");
        for (uint64_t i = 0; i < count; i++)
            least = walk[i] < walk[least] ? i : least;
        printf("F%" PRIu32, f);
        for (uint64_t i = 0; i < count; i++)
            printf(" %" PRIu32, walk[(least + i) % count]);
        printf("\n");
    }
}

int main(int argc, char **argv) {
    must(argc == 2, "name the file for the lines");
    lines = fopen(argv[1], "w");
    must(lines != NULL, "the file for the lines can't be written");
    dcel_mesh mesh = DCEL_MESH_INIT;
    must(dcel_new(&mesh) == DCEL_DONE, "new");
    grow(&mesh);
    walk_round(&mesh);
    for (uint32_t gone = 0; gone < VERTICES / 10;)
        gone += take_out(&mesh, draw((uint32_t)dcel_num_vertices(&mesh)));
    must(dcel_num_vertices(&mesh) == VERTICES - VERTICES / 10, "a tenth is gone");
    fprintf(lines, "words\n");
    must(fclose(lines) == 0, "the file for the lines wasn't written");
    write_words(&mesh);
    dcel_free(&mesh);
    return EXIT_SUCCESS;
}
