/* Measures what dcel_speed measures, with a mesh of dcel.h: `insert`, `walk`, `flip` and `remove`, and
   `walk_links`, the same walk over links that were taken out.

   `speed insert,walk 1000,100000` runs these workloads at these sizes. Its lines are those of dcel_speed: the
   nanoseconds for an operation, the checksum, and the number of operations. So are further words, but that
   `checksums` has to be the last, and `full` changes nothing: all elements have data here. */
#define _POSIX_C_SOURCE 199309L /* C99 alone has no clock that is fine enough */
#include "dcel.h"

#include <inttypes.h>
#include <stdio.h>
#include <stdlib.h>
#include <string.h>
#include <time.h>

enum { ROUNDS = 3, LONG_ENOUGH = 100000000, SEED = 20240607 };

/* The mesh that a workload begins with, and what is taken from it while no clock runs. */
static dcel_mesh built = DCEL_MESH_INIT;
static dcel_half_edge *links;
static uint32_t *anchors, *plan, *numbers, *border; /* parts of one block */
static uint32_t size, planned;
static uint64_t checksum, operations; /* of the last run */

static void must(bool holds, const char *what) {
    if (holds)
        return;
    fprintf(stderr, "%s\n", what);
    exit(EXIT_FAILURE);
}

static uint64_t now(void) {
    struct timespec time;
    clock_gettime(CLOCK_MONOTONIC, &time);
    return (uint64_t)time.tv_sec * 1000000000 + (uint64_t)time.tv_nsec;
}

/* Numbers that look random, the same on every machine. */
static uint32_t draw(uint64_t *state, uint64_t below) {
    *state = *state * UINT64_C(6364136223846793005) + UINT64_C(1442695040888963407);
    return (uint32_t)((*state >> 33) * below >> 31);
}

static uint64_t mix(uint64_t state, uint64_t number) { return (state ^ number) * UINT64_C(0x100000001b3); }

/* A sum over the counts of a mesh and the links of its half edges. */
static uint64_t digest_of(dcel_mesh *mesh) {
    uint64_t state = mix(UINT64_C(0xcbf29ce484222325), dcel_num_vertices(mesh));
    state = mix(mix(state, dcel_num_undirected_edges(mesh)), dcel_num_faces(mesh));
    for (uint32_t h = 0, halves = (uint32_t)dcel_num_directed_edges(mesh); h < halves; h++) {
        dcel_half_edge it;
        dcel_directed_edge(mesh, h, &it);
        state = mix(mix(mix(mix(state, it.next), it.prev), it.origin), it.face);
    }
    return state;
}

/* Builds a triangle, and puts so many vertices more into inner faces drawn at random. */
static uint64_t triangulate(dcel_mesh *mesh) {
    must(dcel_new(mesh) == DCEL_DONE && dcel_new_triangle(mesh, 0, 1, 2) == DCEL_DONE, "triangle");
    uint64_t state = SEED;
    for (uint32_t datum = 3; datum < size + 3; datum++) {
        uint32_t vertex, face = 1 + draw(&state, dcel_num_faces(mesh) - 1);
        must(dcel_append_unconnected_vertex(mesh, datum, &vertex) == DCEL_DONE, "append");
        must(dcel_insert_into_triangle(mesh, vertex, face) == DCEL_DONE, "insert");
    }
    return 0;
}

/* Goes round each vertex, and sums the numbers of its neighbors. */
static uint64_t walk(dcel_mesh *mesh) {
    uint64_t sum = 0, count = 0;
    for (uint32_t v = 0, vertices = (uint32_t)dcel_num_vertices(mesh); v < vertices; v++) {
        uint32_t first = (uint32_t)dcel_out_edge(mesh, v), edge = first;
        do {
            sum += dcel_to(mesh, edge);
            count++;
            edge = (uint32_t)dcel_ccw(mesh, edge);
        } while (edge != first);
    }
    operations = count;
    return sum;
}

/* The same by links, in records as dcel_directed_edges puts them. */
static uint64_t walk_links(dcel_mesh *mesh) {
    uint64_t sum = 0, count = 0;
    for (uint32_t v = 0, vertices = (uint32_t)dcel_num_vertices(mesh); v < vertices; v++) {
        uint32_t first = anchors[v], edge = first;
        do {
            sum += links[edge ^ 1].origin;
            count++;
            edge = links[edge].prev ^ 1;
        } while (edge != first);
    }
    operations = count;
    return sum;
}

/* Draws edges, flips those that can be flipped, and returns how many were. */
static uint64_t flip_drawn(dcel_mesh *mesh) {
    uint64_t state = SEED + 3, flips = 0, edges = dcel_num_undirected_edges(mesh);
    for (uint32_t i = 0; i < size; i++)
        flips += dcel_flip_cw(mesh, draw(&state, edges)) == DCEL_DONE;
    return flips;
}

/* Puts what comes after the out edges of a vertex into the border, clockwise and the least one last. */
static size_t border_of(dcel_mesh *mesh, uint32_t vertex) {
    uint32_t first = (uint32_t)dcel_out_edge(mesh, vertex), edge = first, least = first;
    do {
        edge = (uint32_t)dcel_ccw(mesh, edge);
        least = edge < least ? edge : least;
    } while (edge != first);
    size_t count = 0;
    edge = least;
    do {
        edge = (uint32_t)dcel_cw(mesh, edge);
        border[count++] = (uint32_t)dcel_next(mesh, edge);
    } while (edge != least);
    return count;
}

/* Takes a vertex out and returns its datum, or DCEL_NONE if its border isn't one. */
static uint64_t take_out(dcel_mesh *mesh, uint32_t vertex) {
    size_t count = border_of(mesh, vertex);
    uint32_t *edges = border + count, *faces = edges + count; /* what is given up */
    dcel_opened opened;
    dcel_removed removed;
    uint32_t status = dcel_isolate_vertex_and_fill_hole(mesh, border, count, vertex, edges, count, faces, count, &opened);
    if (status == DCEL_BAD_RING)
        return DCEL_NONE;
    must(status == DCEL_DONE, "isolate");
    must(dcel_cleanup_isolated_vertex(mesh, edges, opened.edges, faces, opened.faces) == DCEL_DONE, "cleanup");
    must(dcel_swap_remove_vertex(mesh, vertex, &removed) == DCEL_DONE, "remove");
    return removed.datum;
}

/* Draws an order in which vertices can be taken out, each under the number that it has by then. */
static void make_plan(void) {
    uint64_t state = SEED + 6, datum;
    for (uint32_t place = size; place-- > 1;) {
        uint32_t other = draw(&state, place + 1), kept = plan[place];
        plan[place] = plan[other];
        plan[other] = kept;
    }
    dcel_mesh mesh = DCEL_MESH_INIT;
    must(dcel_clone(&built, &mesh) == DCEL_DONE, "clone");
    for (uint32_t i = 0; i < size; i++) {
        uint32_t vertex = numbers[plan[i]];
        if (take_out(&mesh, vertex) == DCEL_NONE)
            continue;
        plan[planned++] = vertex; /* where it was read, or before */
        if (dcel_vertex_data(&mesh, vertex, &datum) == DCEL_DONE)
            numbers[datum] = vertex; /* the datum of what moved there is its first number */
    }
    dcel_free(&mesh);
}

/* Takes the vertices of the plan out, and returns a hash of their data. */
static uint64_t remove_all(dcel_mesh *mesh) {
    uint64_t sum = 0;
    for (uint32_t i = 0; i < planned; i++)
        sum = sum * 31 + take_out(mesh, plan[i]);
    operations = planned;
    return sum;
}

/* Makes the mesh that others begin with, and what they take from it. */
static void prepare(void) {
    triangulate(&built);
    uint64_t vertices = dcel_num_vertices(&built), halves = dcel_num_directed_edges(&built);
    links = (dcel_half_edge *)realloc(links, halves * sizeof *links);
    anchors = (uint32_t *)realloc(anchors, 3 * (vertices + halves / 2) * sizeof *anchors);
    must(links != NULL && anchors != NULL, "there is no memory");
    must(dcel_directed_edges(&built, links, halves, &halves) == DCEL_DONE, "links");
    plan = anchors + vertices;
    numbers = plan + vertices;
    border = numbers + vertices; /* no border is longer than there are edges */
    for (uint32_t v = 0; v < vertices; v++) {
        anchors[v] = (uint32_t)dcel_out_edge(&built, v);
        plan[v] = v + 3;
        numbers[v] = v;
    }
    planned = 0;
}

/* Which mesh a workload is given, and its checksum: of the mesh, what is answered, or of both. */
typedef enum { NEW, BUILT, CLONE } kind;

static const struct workload {
    const char *name;
    uint64_t (*work)(dcel_mesh *mesh);
    kind on;
} WORKLOADS[] = {
    {"insert", triangulate, NEW}, {"walk", walk, BUILT},         {"walk_links", walk_links, BUILT},
    {"flip", flip_drawn, CLONE},  {"remove", remove_all, CLONE},
};

/* Runs a workload, and returns how many nanoseconds it took. */
static uint64_t run(const struct workload *it) {
    dcel_mesh own = DCEL_MESH_INIT, *mesh = it->on == BUILT ? &built : &own;
    must(it->on != CLONE || dcel_clone(&built, &own) == DCEL_DONE, "clone");
    operations = size; /* but if the workload says otherwise */
    uint64_t start = now(), answer = it->work(mesh), elapsed = now() - start;
    uint64_t digest = it->on == BUILT ? answer : digest_of(mesh), mixed = mix(digest, answer);
    checksum = it->on == CLONE ? mixed << 17 | mixed >> 47 : digest;
    dcel_free(&own);
    return elapsed;
}

/* Runs a workload until it ran often and long enough, and returns how long the fastest run took. */
static uint64_t fastest(const struct workload *it) {
    uint64_t best = UINT64_MAX, total = 0;
    for (int rounds = 0; rounds < ROUNDS || total < LONG_ENOUGH; rounds++) {
        uint64_t elapsed = run(it);
        total += elapsed;
        best = elapsed < best ? elapsed : best;
    }
    return best;
}

static void measure(const struct workload *it, bool is_timed) {
    prepare();
    if (it->work == remove_all)
        make_plan();
    uint64_t elapsed = is_timed ? fastest(it) : run(it);
    uint64_t tenths = elapsed * 10 / (operations == 0 ? 1 : operations);
    printf("%s %" PRIu32 " ", it->name, size);
    if (is_timed)
        printf("%" PRIu64 ".%" PRIu64 " ", tenths / 10, tenths % 10);
    printf("%" PRIu64 " %" PRIu64 "\n", checksum, operations);
}

static const struct workload *named(const char *name) {
    size_t place = 0, count = sizeof WORKLOADS / sizeof *WORKLOADS;
    while (place < count && strcmp(WORKLOADS[place].name, name) != 0)
        place++;
    must(place < count, "there is no such workload");
    return &WORKLOADS[place];
}

int main(int argc, char **argv) {
    must(argc > 2, "name workloads and sizes");
    bool is_timed = strcmp(argv[argc - 1], "checksums") != 0;
    for (char *name = strtok(argv[1], ","); name != NULL; name = strtok(NULL, ",")) {
        char *end = argv[2];
        do {
            unsigned long number = strtoul(end + (*end == ','), &end, 10);
            must((*end == ',' || *end == '\0') && number < UINT32_MAX / 8, "a size is no number, or too great");
            size = (uint32_t)number;
            measure(named(name), is_timed);
        } while (*end == ',');
    }
    return EXIT_SUCCESS;
}
