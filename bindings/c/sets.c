/* Triangulates 200 sets of points, without and with constraints, and compares what is told of each triangulation with what the
   definitions say, exactly. */
#include "dcel.h"

#include <inttypes.h>
#include <stdio.h>
#include <stdlib.h>
#include <string.h>

enum { SETS = 200, MOST = 40, SIDE = 24, PLACES = (SIDE + 2) * (SIDE + 2), SEGMENTS = 12 };

/* What is told of a triangulation. No list is longer. */
typedef struct {
    dcel_point points[MOST];
    dcel_triangle triangles[2 * MOST];
    dcel_across across[2 * MOST];
    dcel_ends edges[3 * MOST];
    dcel_half_edge halves[6 * MOST];
    uint32_t hull[2 * MOST], depths[2 * MOST];
    dcel_ends constraints[3 * MOST];
    size_t vertices, faces, sides, around, marked;
} told;

static int set = -1, refined = 0;
static uint32_t state = 1;

static void must(bool holds, const char *what) {
    if (holds)
        return;
    fprintf(stderr, "set %d: %s\n", set, what);
    exit(EXIT_FAILURE);
}

static void done(dcel_status status, const char *what) {
    if (status != DCEL_DONE)
        must(false, what);
}

/* A number below the limit, by a linear congruence. */
static uint32_t some(uint32_t limit) {
    state = state * 1664525u + 1013904223u;
    return (state >> 8) % limit;
}

/* Twice the area of a triangle, 0 or less if it doesn't go counterclockwise. */
static int64_t area(dcel_point a, dcel_point b, dcel_point c) {
    return (b.x - a.x) * (c.y - a.y) - (b.y - a.y) * (c.x - a.x);
}

/* Above 0 if the point lies inside the circle of the triangle. */
static int64_t in_circle(dcel_point a, dcel_point b, dcel_point c, dcel_point p) {
    int64_t x[3] = {a.x - p.x, b.x - p.x, c.x - p.x}, y[3] = {a.y - p.y, b.y - p.y, c.y - p.y}, sum = 0;
    for (int i = 0; i < 3; i++) {
        int j = (i + 1) % 3, k = (i + 2) % 3;
        sum += (x[i] * x[i] + y[i] * y[i]) * (x[j] * y[k] - x[k] * y[j]);
    }
    return sum;
}

static int64_t distance(dcel_point a, dcel_point b) { return (a.x - b.x) * (a.x - b.x) + (a.y - b.y) * (a.y - b.y); }
static bool are_equal(dcel_point a, dcel_point b) { return a.x == b.x && a.y == b.y; }

/* Whether the point lies on the line through two others, strictly between them. */
static bool is_between(dcel_point a, dcel_point b, dcel_point p) {
    return area(a, b, p) == 0 && distance(a, p) < distance(a, b) && distance(b, p) < distance(a, b) && !are_equal(a, p) && !are_equal(b, p);
}

static uint32_t corner(dcel_triangle t, int k) { return k == 0 ? t.first : k == 1 ? t.second : t.third; }
static uint32_t beyond(dcel_across a, int k) { return k == 0 ? a.first : k == 1 ? a.second : a.third; }
static bool has(dcel_triangle t, uint32_t v) { return t.first == v || t.second == v || t.third == v; }

/* Where a half edge starts. */
static dcel_point from(const told *it, uint32_t half) {
    dcel_ends ends = it->edges[half / 2];
    return it->points[half % 2 == 0 ? ends.from : ends.to];
}

static void tell(const dcel_triangulation *made, told *it) {
    uint64_t needed;
    done(dcel_triangulation_points(made, it->points, MOST, &needed), "points");
    it->vertices = (size_t)needed;
    done(dcel_triangulation_triangles(made, it->triangles, 2 * MOST, &needed), "triangles");
    it->faces = (size_t)needed;
    done(dcel_triangulation_neighbors(made, it->across, 2 * MOST, &needed), "neighbors");
    must(needed == it->faces, "as many neighbors as triangles");
    done(dcel_triangulation_edges(made, it->edges, 3 * MOST, &needed), "edges");
    it->sides = (size_t)needed;
    done(dcel_triangulation_directed_edges(made, it->halves, 6 * MOST, &needed), "half edges");
    must(needed == 2 * it->sides, "two half edges for each edge");
    done(dcel_triangulation_hull(made, it->hull, 2 * MOST, &needed), "hull");
    it->around = (size_t)needed;
    must(dcel_triangulation_num_vertices(made) == it->vertices && dcel_triangulation_num_triangles(made) == it->faces &&
             dcel_triangulation_num_edges(made) == it->sides,
         "counts");
}

/* The triangles go round counterclockwise, and fill the hull, in which they can't overlap then. */
static void check_triangles(const told *it) {
    int64_t inside = 0, whole = 0;
    for (size_t t = 0; t < it->faces; t++) {
        dcel_point a = it->points[it->triangles[t].first], b = it->points[it->triangles[t].second], c = it->points[it->triangles[t].third];
        must(area(a, b, c) > 0, "a triangle is counterclockwise");
        inside += area(a, b, c);
    }
    for (size_t i = 0; i < it->around; i++) {
        dcel_point a = it->points[it->hull[i]], b = it->points[it->hull[(i + 1) % it->around]];
        whole += area(it->points[it->hull[0]], a, b);
        for (size_t v = 0; v < it->vertices; v++)
            must(area(a, b, it->points[v]) >= 0 && !is_between(a, b, it->points[v]), "no point lies beyond the hull, nor between two of it");
    }
    must(inside == whole, "the triangles fill the hull");
}

/* No point lies inside the circle of a triangle. */
static void check_circles(const told *it) {
    for (size_t t = 0; t < it->faces; t++) {
        dcel_point a = it->points[it->triangles[t].first], b = it->points[it->triangles[t].second], c = it->points[it->triangles[t].third];
        for (size_t v = 0; v < it->vertices; v++)
            must(in_circle(a, b, c, it->points[v]) <= 0, "a circle is empty");
    }
}

/* Across from each corner lies the triangle that has the other two too, and none does on the hull alone. */
static void check_neighbors(const told *it) {
    size_t none = 0;
    for (size_t t = 0; t < it->faces; t++)
        for (int k = 0; k < 3; k++) {
            uint32_t other = beyond(it->across[t], k), v = corner(it->triangles[t], k);
            uint32_t next = corner(it->triangles[t], (k + 1) % 3), last = corner(it->triangles[t], (k + 2) % 3);
            if (other == UINT32_MAX) {
                none++;
                continue;
            }
            must(other < it->faces && other != t, "a neighbor is another triangle");
            must(has(it->triangles[other], next) && has(it->triangles[other], last) && !has(it->triangles[other], v), "a neighbor has the side");
        }
    must(it->faces == 0 || none == it->around, "sides without a neighbor are the hull");
}

/* Half edges lead from end to end of their edges, round their faces; face f + 1 is triangle f. */
static void check_links(const told *it) {
    for (uint32_t h = 0; h < 2 * it->sides; h++) {
        dcel_half_edge half = it->halves[h];
        must(it->halves[half.next].prev == h && it->halves[half.prev].next == h, "next and prev");
        must(it->halves[half.next].face == half.face && it->halves[half.next].origin == it->halves[h ^ 1].origin, "half edges meet");
        must(are_equal(it->points[half.origin], from(it, h)), "an edge has its ends");
        must(half.face <= it->faces && (half.face == 0 || has(it->triangles[half.face - 1], half.origin)), "a triangle has its corners");
    }
}

/* A mesh is made of the links, with the same numbers. */
static void check_mesh(const told *it) {
    static const uint64_t data[2 * MOST + 1] = {0};
    static dcel_half_edge halves[6 * MOST];
    dcel_mesh mesh = DCEL_MESH_INIT;
    dcel_fault fault;
    uint64_t needed;
    done(dcel_from_links(&mesh, it->halves, 2 * it->sides, data, it->vertices, data, it->faces + 1, &fault), "a mesh of the links");
    done(dcel_directed_edges(&mesh, halves, 6 * MOST, &needed), "links of the mesh");
    must(needed == 2 * it->sides && memcmp(halves, it->halves, (size_t)needed * sizeof halves[0]) == 0, "the mesh has the links");
    dcel_free(&mesh);
}

/* A place is what it says of the point. */
static void check_place(const told *it, dcel_point p, dcel_position at) {
    if (at.kind == DCEL_ON_VERTEX) {
        must(at.number < it->vertices && are_equal(it->points[at.number], p), "the vertex is there");
    } else if (at.kind == DCEL_ON_EDGE) {
        must(at.number < 2 * it->sides && is_between(from(it, at.number), from(it, at.number ^ 1), p), "the edge passes there");
    } else if (at.kind == DCEL_ON_FACE) {
        must(at.number < it->faces, "there is such a triangle");
        dcel_triangle t = it->triangles[at.number];
        dcel_point a = it->points[t.first], b = it->points[t.second], c = it->points[t.third];
        must(area(a, b, p) > 0 && area(b, c, p) > 0 && area(c, a, p) > 0, "the point lies inside the triangle");
    } else if (at.kind == DCEL_OUTSIDE) {
        must(at.number < 2 * it->sides && it->halves[at.number].face == 0, "the half edge lies on the outer face");
        must(area(from(it, at.number), from(it, at.number ^ 1), p) > 0, "the point lies on its left");
    } else if (at.kind == DCEL_BEYOND_LINE) {
        must(it->faces == 0 && it->sides > 0 && at.number < it->vertices, "the line ends there");
        for (size_t v = 0; v < it->vertices; v++)
            must(v == at.number || is_between(it->points[v], p, it->points[at.number]), "the end lies before the point");
    } else {
        must(at.kind == DCEL_NOWHERE && at.number == UINT32_MAX && it->sides == 0, "there is no edge");
        must(it->vertices == 0 || !are_equal(it->points[0], p), "no vertex is there");
    }
}

static void check_nearest(const told *it, dcel_point p, uint32_t vertex) {
    must(it->vertices == 0 ? vertex == UINT32_MAX : vertex < it->vertices, "a nearest vertex");
    for (size_t v = 0; v < it->vertices; v++)
        must(distance(it->points[vertex], p) <= distance(it->points[v], p), "no vertex is nearer");
}

/* All places of the square, and a row around it, are asked for together and one by one. */
static void check_places(const dcel_triangulation *made, const told *it) {
    static dcel_point asked[PLACES];
    static dcel_position positions[PLACES];
    static uint32_t vertices[PLACES];
    dcel_position one, other;
    uint64_t row = 77;
    uint32_t vertex;
    for (int i = 0; i < PLACES; i++) {
        asked[i].x = i % (SIDE + 2) - 1;
        asked[i].y = i / (SIDE + 2) - 1;
    }
    done(dcel_triangulation_locate_all(made, asked, PLACES, positions, PLACES, &row), "locate all");
    done(dcel_triangulation_nearest_all(made, asked, PLACES, vertices, PLACES, &row), "nearest all");
    for (int i = 0; i < PLACES; i++) {
        done(dcel_triangulation_locate(made, asked[i], &one), "locate");
        done(dcel_triangulation_locate_with_hint(made, asked[i], some(2 * MOST), &other), "locate with a hint");
        done(dcel_triangulation_nearest(made, asked[i], &vertex), "nearest");
        check_place(it, asked[i], positions[i]);
        check_place(it, asked[i], one);
        check_place(it, asked[i], other);
        must(one.kind == positions[i].kind && other.kind == one.kind, "a point is at one place alone");
        check_nearest(it, asked[i], vertices[i]);
        check_nearest(it, asked[i], vertex);
    }
    must(row == 77, "no row is told");
}

static bool tell_the_same(const told *one, const told *other) {
    return one->vertices == other->vertices && one->faces == other->faces && one->sides == other->sides && one->around == other->around &&
           memcmp(one->points, other->points, one->vertices * sizeof one->points[0]) == 0 &&
           memcmp(one->triangles, other->triangles, one->faces * sizeof one->triangles[0]) == 0 &&
           memcmp(one->halves, other->halves, 2 * one->sides * sizeof one->halves[0]) == 0;
}

/* A clone tells the same, and stays as it was where the other one changes. */
static void check_clone(dcel_triangulation *made, const told *it) {
    static told after;
    dcel_triangulation clone = DCEL_TRIANGULATION_INIT;
    const dcel_point beyond_all = {SIDE + 5, SIDE + 7};
    uint32_t vertex;
    done(dcel_triangulation_clone(made, &clone), "clone");
    done(dcel_triangulation_insert_with_hint(made, beyond_all, some(MOST), &vertex), "insert with a hint");
    must(vertex == it->vertices && dcel_triangulation_num_vertices(made) == it->vertices + 1, "a new vertex");
    tell(&clone, &after);
    must(tell_the_same(it, &after), "a clone tells the same");
    dcel_triangulation_free(made);
    tell(&clone, &after);
    must(tell_the_same(it, &after), "a clone stays");
    dcel_triangulation_free(&clone);
}

static void tell_constrained(const dcel_constrained *made, told *it) {
    uint64_t needed;
    done(dcel_constrained_points(made, it->points, MOST, &needed), "points");
    it->vertices = (size_t)needed;
    done(dcel_constrained_triangles(made, it->triangles, 2 * MOST, &needed), "triangles");
    it->faces = (size_t)needed;
    done(dcel_constrained_neighbors(made, it->across, 2 * MOST, &needed), "neighbors");
    done(dcel_constrained_regions(made, it->depths, 2 * MOST, &needed), "regions");
    must(needed == it->faces, "a depth for each triangle");
    done(dcel_constrained_edges(made, it->edges, 3 * MOST, &needed), "edges");
    it->sides = (size_t)needed;
    done(dcel_constrained_constraints(made, it->constraints, 3 * MOST, &needed), "constraints");
    it->marked = (size_t)needed;
    done(dcel_constrained_directed_edges(made, it->halves, 6 * MOST, &needed), "half edges");
    done(dcel_constrained_hull(made, it->hull, 2 * MOST, &needed), "hull");
    it->around = (size_t)needed;
    must(dcel_constrained_num_vertices(made) == it->vertices && dcel_constrained_num_triangles(made) == it->faces &&
             dcel_constrained_num_edges(made) == it->sides && dcel_constrained_num_constraints(made) == it->marked,
         "counts");
}

static bool is_marked(const told *it, uint32_t from, uint32_t to) {
    for (size_t i = 0; i < it->marked; i++)
        if ((it->constraints[i].from == from && it->constraints[i].to == to) || (it->constraints[i].from == to && it->constraints[i].to == from))
            return true;
    return false;
}

/* Two triangles at an edge that is no constraint have no corner inside the circle of each other. */
static void check_legal(const told *it) {
    for (size_t t = 0; t < it->faces; t++)
        for (int k = 0; k < 3; k++) {
            uint32_t other = beyond(it->across[t], k), next = corner(it->triangles[t], (k + 1) % 3), last = corner(it->triangles[t], (k + 2) % 3);
            if (other == UINT32_MAX || is_marked(it, next, last))
                continue;
            for (int j = 0; j < 3; j++) {
                uint32_t v = corner(it->triangles[other], j);
                must(in_circle(it->points[corner(it->triangles[t], k)], it->points[next], it->points[last], it->points[v]) <= 0, "an edge is legal");
            }
        }
}

/* Depths are the least that one step from a neighbor, or from outside, allows; and no smaller ones do. */
static void check_depths(const told *it) {
    uint32_t least[2 * MOST];
    bool is_less = true;
    for (size_t t = 0; t < it->faces; t++)
        least[t] = 3 * MOST;
    while (is_less) {
        is_less = false;
        for (size_t t = 0; t < it->faces; t++)
            for (int k = 0; k < 3; k++) {
                uint32_t other = beyond(it->across[t], k), before = other == UINT32_MAX ? 0 : least[other];
                before += is_marked(it, corner(it->triangles[t], (k + 1) % 3), corner(it->triangles[t], (k + 2) % 3));
                is_less |= before < least[t];
                least[t] = before < least[t] ? before : least[t];
            }
    }
    for (size_t t = 0; t < it->faces; t++)
        must(it->depths[t] == least[t], "a depth is the least number of constraints");
}

/* The constraints are edges, by their numbers, their ends and their order. */
static void check_marks(const dcel_constrained *made, const told *it) {
    size_t marked = 0;
    for (uint32_t u = 0; u < it->sides; u++) {
        dcel_ends ends = it->edges[u];
        bool is_one = dcel_constrained_is_constraint(made, u);
        must(is_one == is_marked(it, ends.from, ends.to) && is_one == dcel_constrained_exists_constraint(made, ends.to, ends.from), "marks");
        if (is_one)
            must(it->constraints[marked].from == ends.from && it->constraints[marked].to == ends.to, "constraints are in order");
        marked += is_one;
    }
    must(marked == it->marked && !dcel_constrained_is_constraint(made, (uint32_t)it->sides), "as many constraints");
}

/* Whether two segments cross, in a point that is an end of neither. */
static bool do_cross(dcel_point a, dcel_point b, dcel_point c, dcel_point d) {
    int64_t one = area(a, b, c), other = area(a, b, d), third = area(c, d, a), fourth = area(c, d, b);
    return ((one < 0 && other > 0) || (one > 0 && other < 0)) && ((third < 0 && fourth > 0) || (third > 0 && fourth < 0));
}

/* The segment is one of constraints, from each vertex on it to the next. */
static void check_segment(const told *it, uint32_t from, uint32_t to) {
    while (from != to) {
        uint32_t next = to;
        for (uint32_t v = 0; v < it->vertices; v++)
            if (is_between(it->points[from], it->points[next], it->points[v]))
                next = v;
        must(is_marked(it, from, next), "a segment is one of constraints");
        from = next;
    }
}

/* Points are asked for together and one by one. */
static void check_asked(const dcel_constrained *made, const told *it) {
    enum { ASKED = 40 };
    dcel_point asked[ASKED];
    dcel_position positions[ASKED], at;
    uint64_t row = 77;
    for (int i = 0; i < ASKED; i++) {
        asked[i].x = some(SIDE + 2) - (int64_t)1;
        asked[i].y = some(SIDE + 2) - (int64_t)1;
    }
    done(dcel_constrained_locate_all(made, asked, ASKED, positions, ASKED, &row), "locate all");
    for (int i = 0; i < ASKED; i++) {
        done(dcel_constrained_locate(made, asked[i], &at), "locate");
        check_place(it, asked[i], at);
        check_place(it, asked[i], positions[i]);
        must(at.kind == positions[i].kind, "a point is at one place alone");
    }
    must(row == 77, "no row is told");
}

/* All is so that is to be so of one with constraints. */
static void check_whole(const dcel_constrained *made, told *it) {
    tell_constrained(made, it);
    check_triangles(it);
    check_legal(it);
    check_depths(it);
    check_neighbors(it);
    check_links(it);
    check_marks(made, it);
    check_asked(made, it);
}

/* Adds a segment if no constraint crosses it. Returns whether it was. */
static bool add(dcel_constrained *made, told *it, uint32_t from, uint32_t to) {
    bool answer, added = true, is_crossed = false, is_new;
    uint64_t before = it->marked;
    for (size_t i = 0; i < it->marked; i++)
        is_crossed |= do_cross(it->points[from], it->points[to], it->points[it->constraints[i].from], it->points[it->constraints[i].to]);
    done(dcel_constrained_can_add_constraint(made, from, to, &answer), "can add");
    must(answer == !is_crossed, "a segment can be added if nothing crosses it");
    dcel_status status = dcel_constrained_add_constraint(made, from, to, &added);
    must(status == (is_crossed ? DCEL_CROSSES : DCEL_DONE) && (added || !is_crossed), "add");
    is_new = dcel_constrained_num_constraints(made) > before;
    must(is_crossed ? !is_new : added == is_new, "what is told of a constraint");
    tell_constrained(made, it);
    if (!is_crossed)
        check_segment(it, from, to);
    return !is_crossed;
}

/* Whether each corner that is to be refined has the wanted angle and area. */
static bool is_refined(const told *it, const dcel_refinement *wanted) {
    for (size_t t = 0; t < it->faces; t++)
        for (int k = 0; k < 3 && (it->depths[t] % 2 == 1 || !wanted->inside); k++) {
            uint32_t u = corner(it->triangles[t], k), v = corner(it->triangles[t], (k + 1) % 3), w = corner(it->triangles[t], (k + 2) % 3);
            dcel_point p = it->points[u], a = it->points[v], b = it->points[w];
            int64_t twice = area(p, a, b), dot = (a.x - p.x) * (b.x - p.x) + (a.y - p.y) * (b.y - p.y);
            bool is_wide = wanted->rise * dot <= wanted->run * twice || (is_marked(it, u, v) && is_marked(it, u, w));
            if (!is_wide || (wanted->max_doubled_area_high == 0 && twice > (int64_t)wanted->max_doubled_area_low))
                return false;
        }
    return true;
}

/* How many corners that are to be refined have a smaller angle between two constraints. */
static uint64_t exceptions_of(const told *it, const dcel_refinement *wanted) {
    uint64_t count = 0;
    for (size_t t = 0; t < it->faces; t++)
        for (int k = 0; k < 3 && (it->depths[t] % 2 == 1 || !wanted->inside); k++) {
            uint32_t u = corner(it->triangles[t], k), v = corner(it->triangles[t], (k + 1) % 3), w = corner(it->triangles[t], (k + 2) % 3);
            dcel_point p = it->points[u], a = it->points[v], b = it->points[w];
            int64_t dot = (a.x - p.x) * (b.x - p.x) + (a.y - p.y) * (b.y - p.y);
            count += wanted->rise * dot > wanted->run * area(p, a, b) && is_marked(it, u, v) && is_marked(it, u, w);
        }
    return count;
}

/* Whether a point is on a segment. */
static bool is_on(dcel_point from, dcel_point to, dcel_point p) { return are_equal(from, p) || are_equal(to, p) || is_between(from, to, p); }

/* The same segments and the hull on a finer grid, refined: vertices stay, and constraints become several. Returns whether vertices were
   added, and what is wanted was reached. */
static bool check_refined(const dcel_point *given, uint32_t count, const dcel_ends *rows, uint32_t used) {
    static told before, it;
    dcel_constrained made = DCEL_CONSTRAINED_INIT;
    dcel_point scaled[MOST];
    dcel_refinement wanted = {some(2) ? 0 : UINT64_MAX, 500000 + some(1000000), 0, (uint16_t)some(40), 100, some(2) == 1};
    dcel_ends around[2 * MOST];
    uint32_t vertices[MOST];
    uint64_t row, added = 77, excepted = 77;
    bool reached;
    for (uint32_t i = 0; i < count; i++) {
        scaled[i].x = 64 * given[i].x;
        scaled[i].y = 64 * given[i].y;
    }
    done(dcel_constrained_bulk_load(&made, scaled, count, rows, used, vertices, MOST, &row), "load");
    tell_constrained(&made, &before);
    for (size_t i = 0; i < before.around; i++) {
        around[i].from = before.hull[i];
        around[i].to = before.hull[(i + 1) % before.around];
    }
    done(dcel_constrained_add_constraints(&made, around, before.around, &row), "add the hull");
    tell_constrained(&made, &before);
    wanted.max_additional_vertices = MOST - before.vertices;
    done(dcel_constrained_refine(&made, &wanted, &added, &excepted, &reached), "refine");
    check_whole(&made, &it);
    must(added == it.vertices - before.vertices && added <= wanted.max_additional_vertices, "as many vertices as are told");
    must(memcmp(it.points, before.points, before.vertices * sizeof it.points[0]) == 0, "vertices stay");
    for (size_t i = 0; i < before.marked; i++)
        check_segment(&it, before.constraints[i].from, before.constraints[i].to);
    for (size_t i = 0; i < it.marked; i++) {
        bool is_part = false;
        for (size_t k = 0; k < before.marked; k++) {
            dcel_point from = it.points[before.constraints[k].from], to = it.points[before.constraints[k].to];
            is_part |= is_on(from, to, it.points[it.constraints[i].from]) && is_on(from, to, it.points[it.constraints[i].to]);
        }
        must(is_part, "no other edge is a constraint");
    }
    must(reached == is_refined(&it, &wanted), "whether each triangle is as wanted");
    must(excepted == exceptions_of(&it, &wanted), "as many exceptions as there are");
    dcel_constrained_free(&made);
    return reached && added > 0;
}

/* Points, and segments between them one by one, and then at once; and constraints split, freed, and taken away with a vertex. */
static void check_constrained(const dcel_point *given, uint32_t count) {
    static told it, other;
    dcel_constrained made = DCEL_CONSTRAINED_INIT, copy = DCEL_CONSTRAINED_INIT;
    dcel_ends rows[SEGMENTS];
    uint32_t vertices[MOST], vertex, used = 0;
    uint64_t row = 77, moved;
    bool was;
    done(dcel_constrained_new(&made), "new");
    done(dcel_constrained_insert_all(&made, given, count, vertices, MOST, &row), "insert all");
    check_whole(&made, &it);
    for (uint32_t i = 0; i < count; i++)
        must(are_equal(it.points[vertices[i]], given[i]), "each point stands at its vertex");
    for (int i = 0; count > 0 && i < SEGMENTS; i++) {
        rows[used].from = some(count);
        rows[used].to = some(count);
        used += add(&made, &it, vertices[rows[used].from], vertices[rows[used].to]);
    }
    check_whole(&made, &it);
    done(dcel_constrained_clone(&made, &copy), "clone");
    tell_constrained(&copy, &other);
    must(tell_the_same(&it, &other) && it.marked == other.marked, "a clone tells the same");
    done(dcel_constrained_bulk_load(&copy, given, count, rows, used, vertices, MOST, &row), "load");
    check_whole(&copy, &other);
    must(other.marked == it.marked && row == 77, "as many constraints, if all are loaded at once");
    for (uint32_t i = 0; i < used; i++)
        check_segment(&other, vertices[rows[i].from], vertices[rows[i].to]);
    if (it.sides > 0) {
        uint32_t edge = some((uint32_t)it.sides);
        done(dcel_constrained_remove_constraint(&made, edge, &was), "remove a constraint");
        must(was == is_marked(&it, it.edges[edge].from, it.edges[edge].to), "whether it was one");
        tell_constrained(&made, &other);
        must(other.marked == it.marked - was, "one constraint less");
        check_whole(&made, &it);
    }
    dcel_point more = {some(SIDE), some(SIDE)};
    done(dcel_constrained_insert(&made, more, &vertex), "insert");
    check_whole(&made, &it);
    must(are_equal(it.points[vertex], more), "the point is there");
    done(dcel_constrained_remove(&made, some((uint32_t)it.vertices), &moved), "remove");
    must(moved == DCEL_NONE || moved == it.vertices - 1, "the last vertex is moved");
    check_whole(&made, &it);
    dcel_constrained_free(&made);
    check_whole(&copy, &other);
    dcel_constrained_free(&copy);
    refined += check_refined(given, count, rows, used);
}

/* Each call that asks for memory has it for a large grid, whose rows and sides are constraints. */
static void check_large(void) {
    enum { WIDE = 200, HIGH = 100, ALL = WIDE * HIGH };
    static dcel_point points[ALL];
    static dcel_triangle triangles[2 * ALL];
    static dcel_across across[2 * ALL];
    static dcel_ends rows[HIGH + 2], edges[3 * ALL], constraints[3 * ALL];
    static uint32_t vertices[ALL], hull[ALL], depths[2 * ALL];
    const uint64_t faces = 2 * (WIDE - 1) * (HIGH - 1), marked = (uint64_t)HIGH * (WIDE - 1) + 2 * (HIGH - 1);
    dcel_triangulation plain = DCEL_TRIANGULATION_INIT;
    dcel_constrained made = DCEL_CONSTRAINED_INIT, copy = DCEL_CONSTRAINED_INIT;
    uint64_t row, needed, listed;
    for (uint32_t i = 0; i < ALL; i++) {
        points[i].x = i % WIDE;
        points[i].y = i / WIDE;
    }
    for (uint32_t i = 0; i < HIGH; i++) {
        rows[i].from = i * WIDE;
        rows[i].to = i * WIDE + WIDE - 1;
    }
    for (uint32_t i = 0; i < 2; i++) {
        rows[HIGH + i].from = i * (WIDE - 1);
        rows[HIGH + i].to = (HIGH - 1) * WIDE + i * (WIDE - 1);
    }
    done(dcel_constrained_bulk_load(&made, points, ALL, rows, HIGH + 2, vertices, ALL, &row), "load a grid");
    must(dcel_constrained_num_triangles(&made) == faces && dcel_constrained_num_constraints(&made) == marked, "the grid");
    done(dcel_constrained_clone(&made, &copy), "clone a grid");
    done(dcel_constrained_points(&copy, points, ALL, &needed), "points of a grid");
    done(dcel_constrained_triangles(&copy, triangles, 2 * ALL, &needed), "triangles of a grid");
    done(dcel_constrained_neighbors(&copy, across, 2 * ALL, &needed), "neighbors of a grid");
    done(dcel_constrained_edges(&copy, edges, 3 * ALL, &needed), "edges of a grid");
    done(dcel_constrained_hull(&copy, hull, ALL, &needed), "hull of a grid");
    must(needed == 2 * (WIDE + HIGH - 2), "the hull has all points of its sides");
    done(dcel_constrained_constraints(&copy, constraints, 3 * ALL, &listed), "constraints of a grid");
    done(dcel_constrained_regions(&copy, depths, 2 * ALL, &needed), "regions of a grid");
    must(listed == marked && needed == faces, "lists of the grid");
    for (uint64_t i = 0; i < faces; i++)
        must(depths[i] == 1, "each triangle is inside of one constraint");
    done(dcel_triangulation_new(&plain), "new");
    done(dcel_triangulation_insert_all(&plain, points, ALL, vertices, ALL, &row), "insert a grid");
    done(dcel_constrained_from_triangulation(&plain, &made), "constrained of a grid");
    must(dcel_constrained_num_constraints(&made) == 0, "no constraint yet");
    done(dcel_constrained_points(&made, points, ALL, &needed), "points of a grid");
    for (uint32_t v = 0; v < ALL; v++)
        vertices[points[v].y * WIDE + points[v].x] = v;
    for (uint32_t i = 0; i < HIGH + 2; i++) {
        rows[i].from = vertices[rows[i].from];
        rows[i].to = vertices[rows[i].to];
    }
    done(dcel_constrained_add_constraints(&made, rows, HIGH + 2, &row), "add to a grid");
    must(row == HIGH + 2 && dcel_constrained_num_constraints(&made) == marked, "all rows and sides");
    done(dcel_constrained_new(&made), "new");
    done(dcel_constrained_insert_all(&made, points, ALL, vertices, ALL, &row), "insert a grid");
    must(dcel_constrained_num_triangles(&made) == faces, "the grid again");
    dcel_triangulation_free(&plain);
    dcel_constrained_free(&made);
    dcel_constrained_free(&copy);
}

int main(void) {
    static told it;
    for (set = 0; set < SETS; set++) {
        dcel_triangulation made = DCEL_TRIANGULATION_INIT;
        dcel_point given[MOST - 1];
        uint32_t vertices[MOST], count = some(MOST), side = 1 + some(SIDE), is_line = set % 10 == 0;
        uint64_t row;
        for (uint32_t i = 0; i < count; i++) {
            given[i].x = some(side);
            given[i].y = is_line ? given[i].x / 2 * 2 : some(side);
            given[i].x = is_line ? given[i].y / 2 : given[i].x;
        }
        done(dcel_triangulation_new(&made), "new");
        done(dcel_triangulation_insert_all(&made, given, count, vertices, MOST, &row), "insert all");
        tell(&made, &it);
        for (uint32_t i = 0; i < count; i++)
            must(vertices[i] < it.vertices && are_equal(it.points[vertices[i]], given[i]), "each point stands at its vertex");
        for (size_t v = 0; v < it.vertices; v++) {
            bool is_given = false;
            for (uint32_t i = 0; i < count; i++)
                is_given |= vertices[i] == v;
            must(is_given, "each vertex is one of the points");
            for (size_t w = 0; w < v; w++)
                must(!are_equal(it.points[v], it.points[w]), "points are single");
        }
        check_triangles(&it);
        check_circles(&it);
        check_neighbors(&it);
        check_links(&it);
        check_mesh(&it);
        check_places(&made, &it);
        check_clone(&made, &it);
        check_constrained(given, count);
    }
    must(refined > 20, "many are refined as wanted");
    check_large();
    printf("%d sets\n", set);
    return EXIT_SUCCESS;
}
