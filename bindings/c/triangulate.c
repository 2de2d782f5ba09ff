/* Triangulates points and prints the triangles, and keeps a triangulation in which points are put in and taken out. */
#include "dcel.h"

#include <inttypes.h>
#include <stdio.h>
#include <stdlib.h>

enum { POINTS = 5 };

static const dcel_point points[POINTS] = {{0, 0}, {4, 0}, {0, 3}, {5, 5}, {2, 2}};

/* Ends the program if a call was refused. */
static void must(const char *call, dcel_status status) {
    if (status == DCEL_DONE)
        return;
    fprintf(stderr, "%s: %s\n", call, dcel_status_name(status));
    exit(EXIT_FAILURE);
}

/* Prints the corners of each triangle by their places in the list of points, counterclockwise. */
static void show_triangles(void) {
    dcel_triangle triangles[2 * POINTS];
    uint64_t count, row;
    must("triangulate", dcel_triangulate(points, POINTS, triangles, 2 * POINTS, &count, &row));
    for (uint64_t i = 0; i < count; i++)
        printf("%" PRIu32 " %" PRIu32 " %" PRIu32 "\n", triangles[i].first, triangles[i].second, triangles[i].third);
}

static void show(const dcel_triangulation *triangulation) {
    uint64_t vertices = dcel_triangulation_num_vertices(triangulation), triangles = dcel_triangulation_num_triangles(triangulation);
    printf("%" PRIu64 " vertices, %" PRIu64 " triangles\n", vertices, triangles);
}

int main(void) {
    dcel_triangulation triangulation = DCEL_TRIANGULATION_INIT;
    const dcel_point more = {3, 1}, far = {INT64_MAX, 0};
    uint32_t vertices[POINTS], vertex;
    uint64_t row, moved;
    show_triangles();
    must("new", dcel_triangulation_new(&triangulation));
    must("insert all", dcel_triangulation_insert_all(&triangulation, points, POINTS, vertices, POINTS, &row));
    show(&triangulation);
    must("insert", dcel_triangulation_insert(&triangulation, more, &vertex));
    show(&triangulation);
    printf("too far: %s\n", dcel_status_name(dcel_triangulation_insert(&triangulation, far, &vertex)));
    must("remove", dcel_triangulation_remove(&triangulation, vertices[4], &moved));
    printf("vertex %" PRIu64 " has the free number now\n", moved);
    show(&triangulation);
    dcel_triangulation_free(&triangulation);
    return EXIT_SUCCESS;
}
