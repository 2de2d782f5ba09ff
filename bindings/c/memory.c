/* Refuses each request for memory in turn: a call that finds none says so, and leaves the mesh as it was.
   Link with -Wl,--wrap=malloc,--wrap=realloc. */
#include "dcel.h"

#include <stdio.h>
#include <stdlib.h>
#include <string.h>

/* How many requests are still met, or below 0 if all are. */
static long left = -1;

void *__real_malloc(size_t size);
void *__real_realloc(void *block, size_t size);

static bool is_refused(void) {
    if (left < 0)
        return false;
    if (left == 0)
        return true;
    left--;
    return false;
}

void *__wrap_malloc(size_t size) { return is_refused() ? NULL : __real_malloc(size); }
void *__wrap_realloc(void *block, size_t size) { return is_refused() ? NULL : __real_realloc(block, size); }

static void must(bool holds, const char *what) {
    if (holds)
        return;
    fprintf(stderr, "%s\n", what);
    exit(EXIT_FAILURE);
}

/* Returns whether two meshes have the same links, anchors and data. */
static bool are_equal(dcel_mesh *one, dcel_mesh *other) {
    uint64_t halves = dcel_num_directed_edges(one), vertices = dcel_num_vertices(one), faces = dcel_num_faces(one);
    bool same = halves == dcel_num_directed_edges(other) && vertices == dcel_num_vertices(other) &&
                faces == dcel_num_faces(other) && dcel_removal_state(one) == dcel_removal_state(other);
    for (uint32_t h = 0; same && h < halves; h++) {
        dcel_half_edge a, b;
        dcel_directed_edge(one, h, &a);
        dcel_directed_edge(other, h, &b);
        same = memcmp(&a, &b, sizeof a) == 0;
    }
    for (uint32_t v = 0; same && v < vertices; v++) {
        uint64_t a = 0, b = 1;
        dcel_vertex_data(one, v, &a);
        dcel_vertex_data(other, v, &b);
        same = a == b && dcel_out_edge(one, v) == dcel_out_edge(other, v);
    }
    for (uint32_t f = 0; same && f < faces; f++)
        same = dcel_adjacent_edge(one, f) == dcel_adjacent_edge(other, f);
    return same;
}

/* A triangle round vertex 3, and vertex 4 without an edge. Its vectors are full. */
static void make(dcel_mesh *mesh) {
    uint32_t vertex;
    must(dcel_new(mesh) == DCEL_DONE && dcel_new_triangle(mesh, 7, 8, 9) == DCEL_DONE &&
             dcel_append_unconnected_vertex(mesh, 10, &vertex) == DCEL_DONE &&
             dcel_insert_into_triangle(mesh, 3, 1) == DCEL_DONE &&
             dcel_append_unconnected_vertex(mesh, 11, &vertex) == DCEL_DONE,
         "there was no memory for the mesh");
    dcel_mesh full = DCEL_MESH_INIT;
    must(dcel_clone(mesh, &full) == DCEL_DONE, "there was no memory for its clone");
    dcel_free(mesh);
    *mesh = full;
}

static const uint32_t BORDER[] = {3, 1, 5};
static uint32_t edges[8], faces[8];

static uint32_t call_new(dcel_mesh *mesh) { return dcel_new(mesh); }
static uint32_t call_triangle(dcel_mesh *mesh) { return dcel_new_triangle(mesh, 1, 2, 3); }
static uint32_t call_insert(dcel_mesh *mesh) { return dcel_insert_into_triangle(mesh, 4, 1); }
static uint32_t call_split(dcel_mesh *mesh) {
    uint32_t second;
    return dcel_split_edge(mesh, 0, 4, &second);
}
static uint32_t call_reserve(dcel_mesh *mesh) { return dcel_reserve_capacity(mesh, 1000, 1000, 1000); }
static uint32_t call_append(dcel_mesh *mesh) {
    uint32_t vertex;
    return dcel_append_unconnected_vertex(mesh, 12, &vertex);
}
static uint32_t call_isolate(dcel_mesh *mesh) {
    uint32_t out[8], border[8];
    uint64_t count;
    dcel_opened opened;
    if (dcel_out_edges(mesh, 3, out, 8, &count) != DCEL_DONE || count != sizeof BORDER / sizeof BORDER[0])
        return DCEL_NO_MESH;
    for (size_t i = 0; i < count; i++)
        border[i] = (uint32_t)dcel_next(mesh, out[count - 1 - i]);
    return dcel_isolate_vertex_and_fill_hole(mesh, border, (size_t)count, 3, edges, 8, faces, 8, &opened);
}

static uint32_t call_insert_vertex(dcel_mesh *mesh) {
    uint32_t vertex;
    return dcel_insert_vertex(mesh, 1, 12, &vertex);
}
static uint32_t call_remove_vertex(dcel_mesh *mesh) {
    dcel_removed removed;
    return dcel_remove_vertex(mesh, 3, &removed);
}
static uint32_t call_collapse(dcel_mesh *mesh) {
    dcel_removed removed;
    return dcel_collapse_edge(mesh, (uint32_t)dcel_out_edge(mesh, 3), &removed);
}
static uint32_t call_edits(dcel_mesh *mesh) {
    const dcel_edit edit = {DCEL_CALL_INSERT_INTO_TRIANGLE, 4, 1, 0};
    dcel_reply reply;
    uint32_t status = dcel_apply_all(mesh, &edit, 1, &reply, 1);
    return status == DCEL_DONE ? (uint32_t)reply.status : status;
}

static uint32_t call_links(dcel_mesh *mesh) {
    dcel_half_edge all[12];
    const uint64_t data[5] = {1, 2, 3, 4, 5};
    uint64_t count;
    dcel_fault fault;
    if (dcel_directed_edges(mesh, all, 12, &count) != DCEL_DONE)
        return DCEL_NO_MESH;
    return dcel_from_links(mesh, all, 12, data, 5, data, 4, &fault);
}
static uint32_t call_faces(dcel_mesh *mesh) {
    const uint64_t data[4] = {1, 2, 3, 4};
    const uint32_t corners[] = {0, 1, 2, 2, 1, 3}, counts[] = {3, 3};
    dcel_fault fault;
    return dcel_from_faces(mesh, data, 4, corners, 6, counts, 2, &fault);
}

typedef struct {
    const char *name;
    uint32_t (*call)(dcel_mesh *mesh);
} growth;

static const growth CALLS[] = {
    {"new", call_new},       {"triangle", call_triangle}, {"insert", call_insert},   {"split", call_split},
    {"append", call_append}, {"reserve", call_reserve},   {"isolate", call_isolate},
    {"links", call_links},   {"faces", call_faces},       {"edits", call_edits},     {"collapse", call_collapse},
    {"insert vertex", call_insert_vertex}, {"remove vertex", call_remove_vertex},
};

/* Refuses the requests of a call from the first on, then from the second on, until it has enough. */
static void sweep(const growth *it) {
    for (long met = 0;; met++) {
        dcel_mesh mesh = DCEL_MESH_INIT, before = DCEL_MESH_INIT;
        make(&mesh);
        must(dcel_clone(&mesh, &before) == DCEL_DONE, "there was no memory for a clone");
        left = met;
        uint32_t status = it->call(&mesh);
        left = -1;
        bool is_same = are_equal(&mesh, &before);
        dcel_free(&mesh);
        dcel_free(&before);
        if (status == DCEL_DONE) {
            printf("%s: %ld requests\n", it->name, met);
            return;
        }
        must(status == DCEL_OUT_OF_MEMORY, it->name);
        must(is_same, "a call that found no memory has changed the mesh");
    }
}

/* A clone that finds no memory leaves the mesh that was there. */
static void sweep_clone(void) {
    for (long met = 0;; met++) {
        dcel_mesh from = DCEL_MESH_INIT, to = DCEL_MESH_INIT, before = DCEL_MESH_INIT;
        make(&from);
        must(dcel_new(&to) == DCEL_DONE && dcel_clone(&to, &before) == DCEL_DONE, "there was no memory");
        left = met;
        uint32_t status = dcel_clone(&from, &to);
        left = -1;
        bool is_same = are_equal(&to, status == DCEL_DONE ? &from : &before);
        dcel_free(&from);
        dcel_free(&to);
        dcel_free(&before);
        must(is_same, "a clone is another mesh");
        if (status == DCEL_DONE) {
            printf("clone: %ld requests\n", met);
            return;
        }
        must(status == DCEL_OUT_OF_MEMORY, "clone");
    }
}

/* The replies to lines are all there, or there was no memory, and the buffer is as it was. */
static void sweep_replies(void) {
    static const char lines[] = "triangle 7 8 9\nappend 10\ninsert 3 1\nwords\n";
    for (long met = 0;; met++) {
        uint8_t replies[256] = {0};
        uint64_t needed = 77;
        left = met;
        uint32_t status = dcel_replies((const uint8_t *)lines, sizeof lines - 1, replies, sizeof replies, &needed);
        left = -1;
        if (status == DCEL_DONE && strstr((const char *)replies, "refused 20") == NULL) {
            printf("replies: %ld requests\n", met);
            return;
        }
        must(status == DCEL_DONE || (status == DCEL_OUT_OF_MEMORY && needed == 0 && replies[0] == 0), "replies");
    }
}

/* Nothing is located in a triangulation that isn't whole. */
static void check_unfinished(const dcel_triangulation *triangulation) {
    const dcel_point point = {1, 1};
    dcel_position position = {77, 77};
    uint32_t vertex = 77;
    uint64_t row;
    if (!triangulation->is_open || dcel_triangulation_is_whole(triangulation))
        return;
    must(dcel_triangulation_locate(triangulation, point, &position) == DCEL_UNFINISHED && position.kind == 77, "locate, unfinished");
    must(dcel_triangulation_locate_with_hint(triangulation, point, 0, &position) == DCEL_UNFINISHED, "locate with a hint, unfinished");
    must(dcel_triangulation_locate_all(triangulation, &point, 1, &position, 1, &row) == DCEL_UNFINISHED, "locate all, unfinished");
    must(dcel_triangulation_nearest(triangulation, point, &vertex) == DCEL_UNFINISHED && vertex == 77, "nearest, unfinished");
    must(dcel_triangulation_nearest_all(triangulation, &point, 1, &vertex, 1, &row) == DCEL_UNFINISHED && vertex == 77, "nearest all, unfinished");
    must(position.kind == 77, "nothing is told of an unfinished triangulation");
}

/* A triangulation of points that finds no memory for more has those that it had, and it is whole or can be finished. */
static void sweep_triangulation(void) {
    static const dcel_point points[6] = {{0, 0}, {4, 0}, {0, 3}, {5, 5}, {2, 2}, {9, 1}};
    for (long met = 0;; met++) {
        dcel_triangulation triangulation = DCEL_TRIANGULATION_INIT;
        dcel_triangle triangles[16];
        uint32_t vertices[6], status;
        uint64_t number = 0, row = 0;
        left = met;
        status = dcel_triangulation_new(&triangulation);
        if (status == DCEL_DONE)
            status = dcel_triangulation_insert_all(&triangulation, points, 6, vertices, 6, &number);
        if (status == DCEL_DONE)
            status = dcel_triangulation_remove(&triangulation, vertices[4], &number);
        if (status == DCEL_DONE)
            status = dcel_triangulation_insert(&triangulation, points[4], vertices);
        if (status == DCEL_DONE)
            status = dcel_triangulate(points, 6, triangles, 16, &number, &row);
        left = -1;
        must(status != DCEL_UNFINISHED || !dcel_triangulation_is_whole(&triangulation), "a whole triangulation is unfinished");
        check_unfinished(&triangulation);
        must(dcel_triangulation_finish(&triangulation) == (triangulation.is_open ? DCEL_DONE : DCEL_NO_MESH), "it can't be finished");
        dcel_triangulation_free(&triangulation);
        if (status == DCEL_DONE) {
            printf("triangulation: %ld requests\n", met);
            return;
        }
        must(status == DCEL_OUT_OF_MEMORY || status == DCEL_UNFINISHED, "triangulation");
    }
}

/* What is told of a triangulation, or made of it, in a buffer. */
typedef struct {
    dcel_triangulation clone;
    dcel_point points[8];
    dcel_triangle triangles[8];
    dcel_across across[8];
    dcel_ends edges[16];
    uint32_t hull[8], nearest[8];
    dcel_position positions[8];
    uint64_t needed;
} told;

static const dcel_point ASKED[3] = {{1, 1}, {2, 2}, {9, 9}};

static dcel_status tell_clone(dcel_triangulation *of, told *it) { return dcel_triangulation_clone(of, &it->clone); }
static dcel_status tell_points(dcel_triangulation *of, told *it) { return dcel_triangulation_points(of, it->points, 8, &it->needed); }
static dcel_status tell_triangles(dcel_triangulation *of, told *it) {
    return dcel_triangulation_triangles(of, it->triangles, 8, &it->needed);
}
static dcel_status tell_neighbors(dcel_triangulation *of, told *it) {
    return dcel_triangulation_neighbors(of, it->across, 8, &it->needed);
}
static dcel_status tell_edges(dcel_triangulation *of, told *it) { return dcel_triangulation_edges(of, it->edges, 16, &it->needed); }
static dcel_status tell_hull(dcel_triangulation *of, told *it) { return dcel_triangulation_hull(of, it->hull, 8, &it->needed); }
static dcel_status tell_places(dcel_triangulation *of, told *it) {
    uint64_t row;
    return dcel_triangulation_locate_all(of, ASKED, 3, it->positions, 8, &row);
}
static dcel_status tell_nearest(dcel_triangulation *of, told *it) {
    uint64_t row;
    return dcel_triangulation_nearest_all(of, ASKED, 3, it->nearest, 8, &row);
}

typedef struct {
    const char *name;
    dcel_status (*call)(dcel_triangulation *of, told *it);
} telling;

static const telling TELLINGS[] = {
    {"clone of a triangulation", tell_clone}, {"points", tell_points}, {"triangles", tell_triangles}, {"neighbors", tell_neighbors},
    {"edges", tell_edges},                    {"hull", tell_hull},     {"places", tell_places},       {"nearest", tell_nearest},
};

/* A call that finds no memory to tell of a triangulation leaves its buffer. */
static void sweep_telling(const telling *it) {
    static const dcel_point points[6] = {{0, 0}, {4, 0}, {0, 3}, {5, 5}, {2, 2}, {9, 1}};
    dcel_triangulation of = DCEL_TRIANGULATION_INIT;
    uint32_t vertices[6];
    uint64_t row;
    must(dcel_triangulation_new(&of) == DCEL_DONE && dcel_triangulation_insert_all(&of, points, 6, vertices, 6, &row) == DCEL_DONE,
         "there was no memory for the points");
    for (long met = 0;; met++) {
        static told before, after;
        memset(&before, 0, sizeof before);
        memset(&after, 0, sizeof after);
        left = met;
        dcel_status status = it->call(&of, &after);
        left = -1;
        bool is_same = memcmp(&before, &after, sizeof after) == 0;
        dcel_triangulation_free(&after.clone);
        must(status == DCEL_DONE || (status == DCEL_OUT_OF_MEMORY && is_same), it->name);
        if (status == DCEL_DONE) {
            must(!is_same, it->name);
            printf("%s: %ld requests\n", it->name, met);
            break;
        }
    }
    dcel_triangulation_free(&of);
}

/* Four corners, a point inside, and the sides. */
static const dcel_point CORNERS[5] = {{0, 0}, {9, 0}, {9, 9}, {0, 9}, {4, 5}};
static const dcel_ends SIDES[4] = {{0, 1}, {1, 2}, {2, 3}, {3, 0}};

/* Nothing is located in one with constraints that isn't whole, nor made of it. */
static void check_unfinished_constrained(const dcel_constrained *made) {
    const dcel_point point = {1, 1};
    dcel_position position = {77, 77};
    uint64_t row;
    bool answer = true;
    if (!made->is_open || dcel_constrained_is_whole(made))
        return;
    must(dcel_constrained_locate(made, point, &position) == DCEL_UNFINISHED && position.kind == 77, "locate, unfinished");
    must(dcel_constrained_locate_all(made, &point, 1, &position, 1, &row) == DCEL_UNFINISHED && position.kind == 77, "locate all, unfinished");
    must(dcel_constrained_can_add_constraint(made, 0, 1, &answer) == DCEL_UNFINISHED && answer, "can add, unfinished");
}

/* Inserts the points, makes segments constraints, frees one, and takes a vertex out: `done` is how far it comes. */
static uint32_t work_on(dcel_constrained *made, uint32_t *vertices, int *done) {
    uint64_t number;
    bool answer = false;
    uint32_t status = dcel_constrained_new(made);
    *done = 0;
    if (status == DCEL_DONE)
        status = dcel_constrained_insert_all(made, CORNERS, 5, vertices, 5, &number);
    if (status != DCEL_DONE)
        return status;
    const dcel_ends sides[3] = {{vertices[0], vertices[1]}, {vertices[1], vertices[2]}, {vertices[0], vertices[2]}};
    *done = 1;
    status = dcel_constrained_add_constraints(made, sides, 3, &number);
    must(status == DCEL_DONE ? number == 3 : number < 3, "as many segments as are done");
    if (status == DCEL_DONE)
        status = dcel_constrained_add_constraint(made, vertices[2], vertices[3], &answer);
    if (status != DCEL_DONE)
        return status;
    must(answer && dcel_constrained_num_constraints(made) == 4, "four constraints");
    *done = 2;
    status = dcel_constrained_remove_constraint(made, 0, &answer);
    if (status == DCEL_DONE)
        status = dcel_constrained_remove(made, vertices[4], &number);
    if (status == DCEL_DONE)
        status = dcel_constrained_insert(made, CORNERS[4], vertices);
    return status;
}

/* A triangulation with constraints that finds no memory keeps its points and constraints, and it is whole or can be finished. */
static void sweep_constrained(void) {
    for (long met = 0;; met++) {
        dcel_constrained made = DCEL_CONSTRAINED_INIT;
        uint32_t v[5];
        int done;
        left = met;
        uint32_t status = work_on(&made, v, &done);
        left = -1;
        must(status != DCEL_UNFINISHED || !dcel_constrained_is_whole(&made), "a whole triangulation is unfinished");
        check_unfinished_constrained(&made);
        must(dcel_constrained_finish(&made) == (made.is_open ? DCEL_DONE : DCEL_NO_MESH), "it can't be finished");
        must(dcel_constrained_is_whole(&made) == made.is_open, "it isn't whole once it is finished");
        must(done < 1 || dcel_constrained_num_vertices(&made) >= 4, "vertices are kept");
        must(done < 2 || dcel_constrained_num_constraints(&made) >= 2, "constraints are kept");
        dcel_constrained_free(&made);
        if (status == DCEL_DONE) {
            printf("constrained: %ld requests\n", met);
            return;
        }
        must(status == DCEL_OUT_OF_MEMORY || status == DCEL_UNFINISHED, "constrained");
    }
}

/* Points and segments that find no memory leave what was there. */
static void sweep_load(void) {
    for (long met = 0;; met++) {
        dcel_constrained made = DCEL_CONSTRAINED_INIT;
        uint32_t vertices[5] = {77, 77, 77, 77, 77};
        uint64_t row = 77;
        must(dcel_constrained_bulk_load(&made, CORNERS, 3, SIDES, 2, vertices, 5, &row) == DCEL_DONE, "there was no memory");
        vertices[0] = 77;
        left = met;
        dcel_status status = dcel_constrained_bulk_load(&made, CORNERS, 5, SIDES, 4, vertices, 5, &row);
        left = -1;
        uint64_t count = dcel_constrained_num_constraints(&made);
        dcel_constrained_free(&made);
        must(row == 77, "no row is told");
        if (status == DCEL_DONE) {
            must(count == 4 && vertices[0] < 5, "all is loaded");
            printf("load: %ld requests\n", met);
            return;
        }
        must(status == DCEL_OUT_OF_MEMORY && count == 2 && vertices[0] == 77, "load");
    }
}

/* A refinement that finds no memory keeps points and constraints, and tells nothing; the triangulation is whole or can be finished. */
static void sweep_refine(void) {
    const dcel_point corners[4] = {{0, 0}, {4096, 0}, {4096, 1024}, {0, 1024}};
    const dcel_refinement wanted = {0, 300000, 100, 1, 2, true};
    for (long met = 0;; met++) {
        dcel_constrained made = DCEL_CONSTRAINED_INIT;
        dcel_point points[104];
        uint32_t v[4];
        uint64_t row, needed, added = 77, excepted = 77;
        bool reached = false;
        must(dcel_constrained_bulk_load(&made, corners, 4, SIDES, 4, v, 4, &row) == DCEL_DONE, "there was no memory");
        left = met;
        dcel_status status = dcel_constrained_refine(&made, &wanted, &added, &excepted, &reached);
        left = -1;
        must(dcel_constrained_is_whole(&made) == (status != DCEL_UNFINISHED), "it is unfinished if that is said");
        must(status == DCEL_DONE || (added == 77 && excepted == 77 && !reached), "refine tells nothing");
        check_unfinished_constrained(&made);
        must(dcel_constrained_finish(&made) == DCEL_DONE && dcel_constrained_is_whole(&made), "it can't be finished");
        must(dcel_constrained_points(&made, points, 104, &needed) == DCEL_DONE && needed >= 4, "points are kept");
        for (int i = 0; i < 4; i++)
            must(points[v[i]].x == corners[i].x && points[v[i]].y == corners[i].y, "points stay where they were");
        must(dcel_constrained_num_constraints(&made) >= 4, "constraints are kept");
        dcel_constrained_free(&made);
        if (status == DCEL_DONE) {
            must(reached && added == needed - 4 && added > 10 && excepted == 0, "it is refined");
            printf("refine: %ld requests\n", met);
            return;
        }
        must(status == DCEL_OUT_OF_MEMORY || status == DCEL_UNFINISHED, "refine");
    }
}

/* What is told of one with constraints, or made of it. */
typedef struct {
    dcel_constrained copy;
    dcel_point points[8];
    dcel_triangle triangles[8];
    dcel_across across[8];
    dcel_ends edges[16], constraints[16];
    dcel_position positions[8];
    uint32_t hull[8], depths[8];
    uint64_t needed;
} listed;

static dcel_status list_copy(dcel_constrained *of, listed *it) { return dcel_constrained_clone(of, &it->copy); }
static dcel_status list_points(dcel_constrained *of, listed *it) { return dcel_constrained_points(of, it->points, 8, &it->needed); }
static dcel_status list_triangles(dcel_constrained *of, listed *it) {
    return dcel_constrained_triangles(of, it->triangles, 8, &it->needed);
}
static dcel_status list_neighbors(dcel_constrained *of, listed *it) { return dcel_constrained_neighbors(of, it->across, 8, &it->needed); }
static dcel_status list_edges(dcel_constrained *of, listed *it) { return dcel_constrained_edges(of, it->edges, 16, &it->needed); }
static dcel_status list_hull(dcel_constrained *of, listed *it) { return dcel_constrained_hull(of, it->hull, 8, &it->needed); }
static dcel_status list_constraints(dcel_constrained *of, listed *it) {
    return dcel_constrained_constraints(of, it->constraints, 16, &it->needed);
}
static dcel_status list_regions(dcel_constrained *of, listed *it) { return dcel_constrained_regions(of, it->depths, 8, &it->needed); }
static dcel_status list_places(dcel_constrained *of, listed *it) {
    uint64_t row;
    return dcel_constrained_locate_all(of, ASKED, 3, it->positions, 8, &row);
}
static dcel_status list_made(dcel_constrained *of, listed *it) {
    static dcel_triangulation from = DCEL_TRIANGULATION_INIT;
    (void)of;
    long allowed = left;
    left = -1;
    if (!from.is_open) {
        uint32_t vertices[5];
        uint64_t row;
        must(dcel_triangulation_new(&from) == DCEL_DONE && dcel_triangulation_insert_all(&from, CORNERS, 5, vertices, 5, &row) == DCEL_DONE,
             "there was no memory for the points");
    }
    left = allowed;
    dcel_status status = dcel_constrained_from_triangulation(&from, &it->copy);
    if (status == DCEL_DONE)
        dcel_triangulation_free(&from);
    return status;
}

typedef struct {
    const char *name;
    dcel_status (*call)(dcel_constrained *of, listed *it);
} listing;

static const listing LISTINGS[] = {
    {"clone, constrained", list_copy},      {"points, constrained", list_points}, {"triangles, constrained", list_triangles},
    {"neighbors, constrained", list_neighbors}, {"edges, constrained", list_edges},   {"hull, constrained", list_hull},
    {"constraints", list_constraints},      {"regions", list_regions},            {"constrained of a triangulation", list_made},
    {"places, constrained", list_places},
};

/* A call that finds no memory to list what one with constraints has leaves its buffer. */
static void sweep_listing(const listing *it) {
    dcel_constrained of = DCEL_CONSTRAINED_INIT;
    uint32_t vertices[5];
    uint64_t row;
    must(dcel_constrained_bulk_load(&of, CORNERS, 5, SIDES, 4, vertices, 5, &row) == DCEL_DONE, "there was no memory for the points");
    for (long met = 0;; met++) {
        static listed before, after;
        memset(&before, 0, sizeof before);
        memset(&after, 0, sizeof after);
        left = met;
        dcel_status status = it->call(&of, &after);
        left = -1;
        bool is_same = memcmp(&before, &after, sizeof after) == 0;
        dcel_constrained_free(&after.copy);
        must(status == DCEL_DONE || (status == DCEL_OUT_OF_MEMORY && is_same), it->name);
        if (status == DCEL_DONE) {
            must(!is_same, it->name);
            printf("%s: %ld requests\n", it->name, met);
            break;
        }
    }
    dcel_constrained_free(&of);
}

int main(void) {
    for (size_t i = 0; i < sizeof TELLINGS / sizeof TELLINGS[0]; i++)
        sweep_telling(&TELLINGS[i]);
    for (size_t i = 0; i < sizeof CALLS / sizeof CALLS[0]; i++)
        sweep(&CALLS[i]);
    sweep_clone();
    sweep_replies();
    sweep_triangulation();
    for (size_t i = 0; i < sizeof LISTINGS / sizeof LISTINGS[0]; i++)
        sweep_listing(&LISTINGS[i]);
    sweep_constrained();
    sweep_load();
    sweep_refine();
    return EXIT_SUCCESS;
}
