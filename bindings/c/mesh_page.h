/* What crates/mesh_page exports, as C sees it; in the WebAssembly module each pointer and size has 64
   bits, and a struct by value is passed as a pointer to it. It never gives back the memory that it is
   lent. Programs in C want dcel.h instead. */
#ifndef MESH_PAGE_H
#define MESH_PAGE_H

#include <stdbool.h>
#include <stddef.h>
#include <stdint.h>

#ifdef __cplusplus
extern "C" {
#endif

/* What a call returns. Only with the first two does it put anything into a buffer for an answer. */
enum {
    MESH_PAGE_DONE = 0,           /* all of the answer is in the buffer */
    MESH_PAGE_SHORT = 1,          /* the buffer has as much of the answer as it holds */
    MESH_PAGE_NO_MEMORY = 2,      /* the memory lent was too small, or points are too many; *needed is 0 */
    MESH_PAGE_OUT_OF_RANGE = 3,   /* a coordinate is below -2^53 or above 2^53, and *needed is 0 */
    MESH_PAGE_NOT_KEPT = 4,       /* no such thing is kept: none was made, or it was freed */
    MESH_PAGE_UNFINISHED = 5,     /* for want of memory the triangulation isn't whole, or a reply lacks: lend some, and finish, or ask again */
    MESH_PAGE_NO_SUCH_VERTEX = 6, /* no vertex has the number */
    MESH_PAGE_NO_ROOM = 7,        /* there are no numbers for so many elements */
    MESH_PAGE_CROSSES = 8,        /* the segment would cross a constraint */
};

/* Memory lent for good: a multiple of 16 bytes from an address that is one too, which nothing else
   uses from then on. */
typedef struct {
    uint8_t *ptr;
    size_t size;
} mesh_page_memory;

/* A point with whole coordinates. */
typedef struct {
    int64_t x, y;
} mesh_page_point;

/* The numbers of three points, which go round counterclockwise. */
typedef struct {
    uint32_t first, second, third;
} mesh_page_triangle;

/* The numbers of the two vertices of an edge. */
typedef struct {
    uint32_t from, to;
} mesh_page_ends;

/* A desk, on which a thing is kept across calls, or none. All zero is none. Hand it to each call as the
   last one left it, and use one of two copies alone. */
typedef struct {
    void *at;
    bool is_open;
} mesh_page_kept;

/* Pointers aren't null, also where a length is 0, and lead to memory that the others don't overlap. */

/* These keep nothing. Each puts its answer into a buffer and tells how many items the whole of it has.
   Behind what was put there the buffer stays as it was. */

/* The replies to the lines, on an empty mesh. */
uint32_t mesh_page_replies(mesh_page_memory memory, const uint8_t *lines, size_t lines_len,
                           uint8_t *replies, size_t replies_len, uint64_t *needed);

/* The SVG of the mesh that the lines leave. */
uint32_t mesh_page_picture(mesh_page_memory memory, const uint8_t *lines, size_t lines_len, bool anchors,
                           uint8_t *svg, size_t svg_len, uint64_t *needed);

/* The triangles of the points. */
uint32_t mesh_page_triangles(mesh_page_memory memory, const mesh_page_point *points, size_t points_len,
                             mesh_page_triangle *triangles, size_t triangles_len, uint64_t *needed);

/* Lends memory: to the heap of the desk if it is open, and else a heap is made in it, with the desk. */
uint32_t mesh_page_lend(mesh_page_kept *kept, mesh_page_memory memory);

/* Frees what is on the desk, which stays for what is made next. */
void mesh_page_free(mesh_page_kept *kept);

/* Makes an empty mesh on a desk, in the heap of another one. Lines edit it. */
uint32_t mesh_page_mesh(mesh_page_kept *from, mesh_page_kept *kept);

/* Has the mesh do what a line says, which has no line feed, and puts the reply into the buffer. With
   NO_MEMORY nothing has changed, and the line may be sent again. With SHORT and UNFINISHED the mesh did
   what the line says, and the next call puts the reply. */
uint32_t mesh_page_answer(mesh_page_kept *kept, const uint8_t *line, size_t line_len, uint8_t *reply, size_t reply_len,
                          uint64_t *needed);

/* The reply to the last line once more. */
uint32_t mesh_page_last_reply(mesh_page_kept *kept, uint8_t *reply, size_t reply_len, uint64_t *needed);

/* The SVG of the mesh, with what an open removal has given up. */
uint32_t mesh_page_draw(mesh_page_kept *kept, bool anchors, uint8_t *svg, size_t svg_len, uint64_t *needed);

/* Makes a Delaunay triangulation of no points on a desk, in the heap of another one. */
uint32_t mesh_page_delaunay(mesh_page_kept *from, mesh_page_kept *kept);

/* Makes a constrained Delaunay triangulation of no points there. The calls that follow, up to `nearest`,
   take either. */
uint32_t mesh_page_constrained(mesh_page_kept *from, mesh_page_kept *kept);

/* Inserts a point, and tells its vertex: a new one, the last, or the one that is there already. A
   constraint that it is on becomes two. With UNFINISHED the vertex is there, but isn't told. */
uint32_t mesh_page_insert(mesh_page_kept *kept, mesh_page_point point, uint32_t *vertex);

/* Inserts points, and puts the vertex of each into the buffer. Where memory lacks, those that were
   inserted so far stay. */
uint32_t mesh_page_insert_all(mesh_page_kept *kept, const mesh_page_point *points, size_t points_len,
                              uint32_t *vertices, size_t vertices_len);

/* Removes a vertex with the constraints that end at it. The last vertex gets its number, and `moved` is the number that this had before, or
   2^64 - 1. With UNFINISHED the vertex is gone, too. */
uint32_t mesh_page_remove(mesh_page_kept *kept, uint32_t vertex, uint64_t *moved);

/* Does what was left undone for want of memory. */
uint32_t mesh_page_finish(mesh_page_kept *kept);

/* The corners of all triangles, by their vertices. */
uint32_t mesh_page_list_triangles(mesh_page_kept *kept, mesh_page_triangle *triangles, size_t triangles_len,
                                  uint64_t *needed);

/* Tells a vertex that no other one is nearer to a point than, or 2^32 - 1 if there is no vertex. */
uint32_t mesh_page_nearest(mesh_page_kept *kept, mesh_page_point point, uint32_t *vertex);

/* The rest asks for a constrained triangulation. Any numbers of vertices may be given. */

/* Tells whether the segment between two vertices crosses no constraint. */
uint32_t mesh_page_can_add_constraint(mesh_page_kept *kept, uint32_t from, uint32_t to, bool *answer);

/* Makes the segment one of constraints, from each vertex on it to the next. With CROSSES it isn't, and
   with NO_MEMORY parts of it may be: the same call adds the rest. */
uint32_t mesh_page_add_constraint(mesh_page_kept *kept, uint32_t from, uint32_t to);

/* Makes a constraint between two vertices none any more, and tells whether there was one. */
uint32_t mesh_page_remove_constraint(mesh_page_kept *kept, uint32_t from, uint32_t to, bool *was);

/* Whether a constraint joins two vertices. */
bool mesh_page_exists_constraint(mesh_page_kept *kept, uint32_t from, uint32_t to);

/* The ends of all constraints. */
uint32_t mesh_page_list_constraints(mesh_page_kept *kept, mesh_page_ends *constraints, size_t constraints_len,
                                    uint64_t *needed);

#ifdef __cplusplus
}
#endif

#endif
