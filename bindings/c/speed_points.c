/* Measures triangulations: `speed_points POINTS PLACES`, files of pairs of int64_t, x before y.

   It prints the nanoseconds in which the points become a list of triangles, and those in which the places
   are found among them, each with a sum that other programs of the same work print too. */
#define _POSIX_C_SOURCE 199309L /* C99 alone has no clock that is fine enough */
#include "dcel.h"

#include <inttypes.h>
#include <stdio.h>
#include <stdlib.h>
#include <time.h>

static void must(bool holds, const char *what) {
    if (holds)
        return;
    fprintf(stderr, "%s\n", what);
    exit(EXIT_FAILURE);
}

static void *room_for(size_t count, size_t size) {
    void *block = calloc(count + 1, size);
    must(block != NULL, "no memory");
    return block;
}

static uint64_t now(void) {
    struct timespec time;
    clock_gettime(CLOCK_MONOTONIC, &time);
    return (uint64_t)time.tv_sec * 1000000000 + (uint64_t)time.tv_nsec;
}

static dcel_point *read_points(const char *name, size_t *count) {
    FILE *file = fopen(name, "rb");
    must(file != NULL && fseek(file, 0, SEEK_END) == 0, name);
    *count = (size_t)ftell(file) / sizeof(dcel_point);
    dcel_point *points = room_for(*count, sizeof *points);
    must(fseek(file, 0, SEEK_SET) == 0 && fread(points, sizeof *points, *count, file) == *count, name);
    fclose(file);
    return points;
}

int main(int count, char **words) {
    must(count == 3, "name a file of points and one of places");
    size_t points_len, places_len;
    dcel_point *points = read_points(words[1], &points_len), *places = read_points(words[2], &places_len);
    uint32_t *vertices = room_for(points_len, sizeof *vertices);
    dcel_triangle *triangles = room_for(2 * points_len, sizeof *triangles);
    dcel_position *positions = room_for(places_len, sizeof *positions);
    dcel_triangulation made = DCEL_TRIANGULATION_INIT;
    uint64_t row, needed, inside = 0, start = now();
    must(dcel_triangulation_new(&made) == DCEL_DONE, "new");
    must(dcel_triangulation_insert_all(&made, points, points_len, vertices, points_len, &row) == DCEL_DONE, "insert");
    must(dcel_triangulation_triangles(&made, triangles, 2 * points_len, &needed) == DCEL_DONE, "triangles");
    printf("triangulate %" PRIu64 " %" PRIu64 "\n", now() - start, needed);
    start = now();
    must(dcel_triangulation_locate_all(&made, places, places_len, positions, places_len, &row) == DCEL_DONE, "locate");
    for (size_t i = 0; i < places_len; i++)
        inside += positions[i].kind == DCEL_ON_FACE;
    printf("locate %" PRIu64 " %" PRIu64 "\n", now() - start, inside);
    dcel_triangulation_free(&made);
    free(points), free(places), free(vertices), free(triangles), free(positions);
    return EXIT_SUCCESS;
}
