/* A half-edge mesh on the sphere, and a Delaunay triangulation of points, that are kept across calls. A
   mesh's links and numbers change only by the calls below, and each number of an element is below 2^32.
   Triangulations are at the end. What is said of a dcel_mesh here holds of a dcel_triangulation and a
   dcel_constrained too, unless their calls say what else they change.

   Link libdcel, which allocates by your malloc.

   What you promise; nothing checks it:
   - A dcel_mesh is handed to each call as the last call left it: it isn't written to, and of two copies
     only one is used any more. It may lie somewhere else in memory at the next call.
   - One call at a time works on a mesh, also of those that only read, which take a const dcel_mesh.
     Another thread may make the next.
   - Pointers aren't null, also where a length is 0. They lead to as many items as the length says, and
     nothing that a call writes to lies in anything else that it is given. A bool is false or true before.
   - malloc, realloc and free belong together and align blocks as C asks. No call comes from a signal
     handler, or from the child of a fork in a program with threads.

   What is proved of each call, for any numbers: it returns, and touches no memory but what it is given
   and its mesh. A mesh is always a sound map on the sphere. A call that changes the mesh does what it
   says and returns DCEL_DONE; or it changes nothing, neither the mesh nor what its pointers lead to, but
   for a fault that it tells, and returns why not: the first of its `Refusals` that applies, in their order,
   but DCEL_OUT_OF_MEMORY or DCEL_SHORT before all others where it takes lists. A call of a triangulation
   may return any of its `Refusals` that applies. A call that takes a const dcel_mesh leaves it as it was.

   Where a mesh isn't open nothing is done or found: a call returns DCEL_NO_MESH, DCEL_NONE, 0 or false.
   One that takes lists may return DCEL_OUT_OF_MEMORY or DCEL_SHORT, as above.
   `Refusals` lists what else a call can be refused for, without DCEL_.

   Half edges 2 * u and 2 * u + 1 are the halves of edge u, and go opposite ways. Face 0 is the outer
   face. What a removal has given up is still counted, but not live, until it is taken out. */
#ifndef DCEL_H
#define DCEL_H

#include <stdbool.h>
#include <stddef.h>
#include <stdint.h>

#ifdef __cplusplus
extern "C" {
#endif

/* The version of this header. As a number it is 1,000,000 times the first of the three, and 1,000 times the
   second, and the third. */
#define DCEL_VERSION "0.2.0"
#define DCEL_VERSION_NUMBER 2000

/* The version of the library, as a number. */
uint32_t dcel_version(void);

/* The same, under a name that no other version has. */
uint32_t dcel_version_0_2_0(void);

#ifdef __GNUC__
/* With it what includes this header is neither linked with a library of another version nor started. */
__attribute__((used)) static uint32_t (*const dcel_version_wanted)(void) = dcel_version_0_2_0;
#endif

/* A mesh, or none: zero bytes are one that isn't open. The fields are the library's. */
typedef struct {
    void *at;
    bool is_open;
} dcel_mesh;

/* What a dcel_mesh begins with. */
#define DCEL_MESH_INIT {NULL, false}

/* What calls return. */
typedef enum {
    DCEL_DONE = 0,
    DCEL_NO_SUCH_VERTEX = 1,
    DCEL_NO_SUCH_EDGE = 2, /* of half edges too */
    DCEL_NO_SUCH_FACE = 3, /* also the outer face, where an inner one is asked for */
    DCEL_REMOVAL_OPEN = 4,
    DCEL_NO_REMOVAL = 5, /* none is open that is still to be cleaned up */
    DCEL_GIVEN_UP = 6,   /* an element isn't live */
    DCEL_SAME_VERTEX = 7,
    DCEL_VERTEX_IN_USE = 8, /* it has an edge */
    DCEL_EDGES_STAND = 9,   /* the mesh has an edge */
    DCEL_NOT_LINE_END = 10,
    DCEL_NOT_BRIDGE = 11, /* the halves of the edge lie on two faces */
    DCEL_NOT_OUTER = 12,
    DCEL_NOT_TRIANGLE = 13,
    DCEL_WOULD_LOOP = 14, /* an edge would join a vertex to itself */
    DCEL_BAD_RING = 15,
    DCEL_BAD_STRIP = 16,
    DCEL_WRONG_LISTS = 17,
    DCEL_NOT_PATH = 18,
    DCEL_NO_ROOM = 19, /* a count would pass 2^31, and with dcel_reserve_capacity 2^32 */
    DCEL_OUT_OF_MEMORY = 20,
    DCEL_NO_MESH = 21, /* it was never made, or it was freed; of triangulations too */
    DCEL_SHORT = 22,   /* a buffer has too few places */
    DCEL_FAULTY = 23,  /* no mesh is made of what is given, and a dcel_fault says why */
    DCEL_OUT_OF_RANGE = 24, /* a coordinate is below -2^53 or above 2^53 */
    DCEL_UNFINISHED = 25,   /* the triangulation isn't whole, as there was no memory to make it so */
    DCEL_CROSSES = 26,      /* a segment would cross a constraint */
    DCEL_NOT_INSIDE = 27,   /* the faces round a vertex aren't three inner triangles or more, which make a disc */
    DCEL_SECOND_EDGE = 28,  /* a second edge would join two vertices */
    DCEL_CUT_VERTEX = 29,   /* the outer face meets the vertex twice */
    DCEL_SHORT_BORDER = 30, /* the outer face has two half edges */
    DCEL_NO_SUCH_EDIT = 31  /* of the calls of an edit there is none with that number */
} dcel_status;

/* Returns the name of a status, as "NoSuchVertex", or "" if it is none. */
static inline const char *dcel_status_name(uint32_t status) {
    switch (status) {
    case DCEL_DONE: return "Done";
    case DCEL_NO_SUCH_VERTEX: return "NoSuchVertex";
    case DCEL_NO_SUCH_EDGE: return "NoSuchEdge";
    case DCEL_NO_SUCH_FACE: return "NoSuchFace";
    case DCEL_REMOVAL_OPEN: return "RemovalOpen";
    case DCEL_NO_REMOVAL: return "NoRemoval";
    case DCEL_GIVEN_UP: return "GivenUp";
    case DCEL_SAME_VERTEX: return "SameVertex";
    case DCEL_VERTEX_IN_USE: return "VertexInUse";
    case DCEL_EDGES_STAND: return "EdgesStand";
    case DCEL_NOT_LINE_END: return "NotLineEnd";
    case DCEL_NOT_BRIDGE: return "NotBridge";
    case DCEL_NOT_OUTER: return "NotOuter";
    case DCEL_NOT_TRIANGLE: return "NotTriangle";
    case DCEL_WOULD_LOOP: return "WouldLoop";
    case DCEL_BAD_RING: return "BadRing";
    case DCEL_BAD_STRIP: return "BadStrip";
    case DCEL_WRONG_LISTS: return "WrongLists";
    case DCEL_NOT_PATH: return "NotPath";
    case DCEL_NO_ROOM: return "NoRoom";
    case DCEL_OUT_OF_MEMORY: return "OutOfMemory";
    case DCEL_NO_MESH: return "NoMesh";
    case DCEL_SHORT: return "Short";
    case DCEL_FAULTY: return "Faulty";
    case DCEL_OUT_OF_RANGE: return "OutOfRange";
    case DCEL_UNFINISHED: return "Unfinished";
    case DCEL_CROSSES: return "Crosses";
    case DCEL_NOT_INSIDE: return "NotInside";
    case DCEL_SECOND_EDGE: return "SecondEdge";
    case DCEL_CUT_VERTEX: return "CutVertex";
    case DCEL_SHORT_BORDER: return "ShortBorder";
    case DCEL_NO_SUCH_EDIT: return "NoSuchEdit";
    default: return "";
    }
}

/* What a call that returns an element's number returns where there is none. */
#define DCEL_NONE UINT64_MAX

/* What stands for each link of a half edge that isn't live. */
#define DCEL_NO_LINK UINT32_MAX

/* The links of a half edge: the ones after and before it on its face, the vertex that it starts at, and
   its face. Half edge h ends where h ^ 1 starts. */
typedef struct {
    uint32_t next, prev, origin, face;
} dcel_half_edge;

/* A vertex that was taken out: its datum, and the old number of the vertex that has its number now,
   DCEL_NONE if none does. */
typedef struct {
    uint64_t datum, moved;
} dcel_removed;

/* A removal that was opened: how many edges and faces it has given up, how many edges it has added, and
   the number of the first of these. The others follow it. */
typedef struct {
    uint64_t edges, faces, new_edges, smallest_new_edge;
} dcel_opened;

/* How a legalization ended. */
enum dcel_ended {
    DCEL_LEGALIZED = 0,     /* nothing is left to flip */
    DCEL_STOPPED = 1,       /* as many flips were made as were allowed */
    DCEL_MEMORY_RAN_OUT = 2 /* the list of edges found no memory to grow */
};

/* How many edges were flipped, and an enum dcel_ended. */
typedef struct {
    uint64_t flips;
    uint32_t ended;
} dcel_legalized;

/* How far a removal has come. */
enum dcel_removal_state {
    DCEL_CLOSED = 0,   /* none is open */
    DCEL_ISOLATED = 1, /* it is to be cleaned up */
    DCEL_CLEANED = 2   /* its vertex is to be taken out */
};

/* What is wrong with links or faces that no mesh is made of. With links it is the first that is wrong, in
   this order, but that the three ranges are looked for together, and so are ONE_END, APART and LEAVES_FACE.
   Places are those of faces in `counts`. */
typedef enum {
    DCEL_FAULT_LENGTHS = 1,             /* a half edge has no other half */
    DCEL_FAULT_TOO_MANY = 2,            /* there are more than 2^32 vertices, half edges or faces */
    DCEL_FAULT_NO_FACE = 3,             /* there is no outer face */
    DCEL_FAULT_MORE_FACES = 4,          /* there are more faces than edges and two */
    DCEL_FAULT_NEXT_OUT_OF_RANGE = 5,   /* after half edge `number` comes none that there is */
    DCEL_FAULT_ORIGIN_OUT_OF_RANGE = 6, /* half edge `number` starts at no vertex that there is */
    DCEL_FAULT_FACE_OUT_OF_RANGE = 7,   /* half edge `number` lies on no face that there is */
    DCEL_FAULT_TWO_LEAD_TO = 8,         /* two half edges have half edge `number` as their next */
    DCEL_FAULT_ONE_END = 9,             /* half edge `number` ends where it starts */
    DCEL_FAULT_APART = 10,              /* what comes after half edge `number` doesn't start where it ends */
    DCEL_FAULT_LEAVES_FACE = 11,        /* what comes after half edge `number` lies on another face */
    DCEL_FAULT_FACE_IN_PARTS = 12,      /* the half edges of face `number` are no single loop */
    DCEL_FAULT_VERTEX_IN_PARTS = 13,    /* the half edges of vertex `number` are no single turn */
    DCEL_FAULT_UNUSED_FACE = 14,        /* no half edge lies on face `number` */
    DCEL_FAULT_NOT_CONNECTED = 15,      /* half edge `number` isn't reached from half edge 0 */
    DCEL_FAULT_NOT_SPHERE = 16,         /* the surface has genus `number` */
    DCEL_FAULT_OTHER_COUNT = 17,        /* the counts don't add up to the corners */
    DCEL_FAULT_FEW_CORNERS = 18,        /* the face at place `number` has fewer than three corners */
    DCEL_FAULT_TOO_MANY_CORNERS = 19,   /* there are more than 2^31 corners */
    DCEL_FAULT_NO_VERTEX = 20,          /* the face at place `number` has corner `from`, which is no vertex */
    DCEL_FAULT_SIDE_AT_ONE = 21,        /* the face at place `number` has corner `from` twice in a row */
    DCEL_FAULT_SIDE_TWICE = 22,         /* faces at places `number` and `other` have the side `from` to `to` */
    DCEL_FAULT_BORDER_TWICE = 23        /* two sides that no face lies beyond end at vertex `number` */
} dcel_fault_kind;

/* A fault: a dcel_fault_kind, and 0 for what that doesn't speak of. */
typedef struct {
    uint32_t kind;
    uint64_t number, other, from, to;
} dcel_fault;

/* ---- Whole meshes ---- */

/* Makes a mesh of the outer face alone, with datum 0, and frees the one that was there.
   Refusals: OUT_OF_MEMORY. */
dcel_status dcel_new(dcel_mesh *mesh);

/* Frees the mesh, which isn't open afterwards. Of one that isn't open it does nothing. */
void dcel_free(dcel_mesh *mesh);

/* Makes `to` an equal mesh of its own, and frees the one that was there.
   Refusals: OUT_OF_MEMORY. */
dcel_status dcel_clone(const dcel_mesh *from, dcel_mesh *to);

/* Takes out all vertices, all edges and all inner faces, and closes a removal. The outer face keeps its
   datum. */
dcel_status dcel_clear(dcel_mesh *mesh);

/* Asks for memory for that many more elements. That it does is tested, not proved.
   Refusals: NO_ROOM if there are no numbers for them, OUT_OF_MEMORY. */
dcel_status dcel_reserve_capacity(dcel_mesh *mesh, uint64_t vertices, uint64_t undirected_edges,
                                  uint64_t faces);

/* ---- Meshes from elsewhere ----

   The mesh that was there is freed; there may be none. Half edges, edges and faces have datum 0 where none
   is given. With DCEL_FAULTY a fault is told, and with any other status it stays as it was. */

/* Makes the mesh with these links and these data of its vertices and faces, face 0 first; there are as
   many as there are data. Half edges stand at their numbers, as dcel_directed_edges puts them, and their
   `prev` isn't read. Each vertex and each face is anchored at its half edge with the greatest number.
   Refusals: OUT_OF_MEMORY, FAULTY if no mesh has these links. */
dcel_status dcel_from_links(dcel_mesh *mesh, const dcel_half_edge *half_edges, size_t half_edges_len,
                            const uint64_t *vertices, size_t vertices_len, const uint64_t *faces,
                            size_t faces_len, dcel_fault *fault);

/* Makes the mesh of these faces, with these data of its vertices. `corners` has the corners of one face
   after the other, counterclockwise, and `counts` how many each has. The face at place k gets number
   k + 1, and face 0, the outer face, is what they leave: of a closed surface, leave one face out. An
   edge gets its number where its first side stands, which becomes half edge 2 * u. The faults of
   links that may be told speak of the numbers of the mesh.
   Refusals: OUT_OF_MEMORY, FAULTY if no mesh in which no two edges join the same two vertices has these
   faces; after OTHER_COUNT, TOO_MANY_CORNERS and BORDER_TWICE one may have them. */
dcel_status dcel_from_faces(dcel_mesh *mesh, const uint64_t *vertices, size_t vertices_len,
                            const uint32_t *corners, size_t corners_len, const uint32_t *counts,
                            size_t counts_len, dcel_fault *fault);

/* ---- Counts, with what a removal has given up ---- */

uint64_t dcel_num_vertices(const dcel_mesh *mesh);
uint64_t dcel_num_directed_edges(const dcel_mesh *mesh);
uint64_t dcel_num_undirected_edges(const dcel_mesh *mesh);
uint64_t dcel_num_faces(const dcel_mesh *mesh);

/* ---- Steps from a live half edge; from any other they return DCEL_NONE ----

            apex            next  to -> apex
            /  \            prev  apex -> from
           /face\           rev   to -> from
       from ----> to        ccw   from -> apex, the other half of prev
           <----            cw    the half edge after rev on the face below
            rev */

uint64_t dcel_next(const dcel_mesh *mesh, uint32_t edge);
uint64_t dcel_prev(const dcel_mesh *mesh, uint32_t edge);
uint64_t dcel_rev(const dcel_mesh *mesh, uint32_t edge);
uint64_t dcel_ccw(const dcel_mesh *mesh, uint32_t edge);
uint64_t dcel_cw(const dcel_mesh *mesh, uint32_t edge);
uint64_t dcel_from(const dcel_mesh *mesh, uint32_t edge);
uint64_t dcel_to(const dcel_mesh *mesh, uint32_t edge);
uint64_t dcel_face(const dcel_mesh *mesh, uint32_t edge);

/* ---- Anchors, where walks begin ---- */

/* A half edge that starts at the vertex, DCEL_NONE if none does or there is no such vertex. */
uint64_t dcel_out_edge(const dcel_mesh *mesh, uint32_t vertex);

/* A half edge on the face, DCEL_NONE if there is none or no such face. */
uint64_t dcel_adjacent_edge(const dcel_mesh *mesh, uint32_t face);

/* ---- Walks, into a buffer ----

   As many numbers as fit are put there, from the front, and what lies behind them stays. `needed` is how
   many there are, and the status is DCEL_SHORT if they don't all fit. With any other refusal `needed` is 0
   and the buffer stays. */

/* The half edges that start at the vertex, by dcel_ccw from its anchor.
   Refusals: NO_SUCH_VERTEX, SHORT. */
dcel_status dcel_out_edges(const dcel_mesh *mesh, uint32_t vertex, uint32_t *edges, size_t edges_len,
                           uint64_t *needed);

/* The half edges on the face, by dcel_next from its anchor; those of face 0 are the hull.
   Refusals: NO_SUCH_FACE, SHORT. */
dcel_status dcel_face_edges(const dcel_mesh *mesh, uint32_t face, uint32_t *edges, size_t edges_len,
                            uint64_t *needed);

/* The first half edge of dcel_out_edges that leads to the other vertex, DCEL_NONE if none does. */
uint64_t dcel_get_edge_from_neighbors(const dcel_mesh *mesh, uint32_t from, uint32_t to);

/* ---- Links ---- */

/* Tells the links of a half edge. Each is DCEL_NO_LINK if it isn't live. */
void dcel_directed_edge(const dcel_mesh *mesh, uint32_t edge, dcel_half_edge *half_edge);

/* Puts the links of all half edges into the buffer, each at its number, as walks do.
   Refusals: SHORT. */
dcel_status dcel_directed_edges(const dcel_mesh *mesh, dcel_half_edge *half_edges, size_t half_edges_len,
                                uint64_t *needed);

/* ---- Data, of elements that are given up too ----

   New half edges, edges and faces have datum 0. Refusals: NO_SUCH_VERTEX,
   NO_SUCH_EDGE or NO_SUCH_FACE, by the kind of element. */

dcel_status dcel_vertex_data(const dcel_mesh *mesh, uint32_t vertex, uint64_t *datum);
dcel_status dcel_directed_edge_data(const dcel_mesh *mesh, uint32_t edge, uint64_t *datum);
dcel_status dcel_undirected_edge_data(const dcel_mesh *mesh, uint32_t edge, uint64_t *datum);
dcel_status dcel_face_data(const dcel_mesh *mesh, uint32_t face, uint64_t *datum);

dcel_status dcel_update_vertex(dcel_mesh *mesh, uint32_t vertex, uint64_t datum);
dcel_status dcel_update_directed_edge(dcel_mesh *mesh, uint32_t edge, uint64_t datum);
dcel_status dcel_update_undirected_edge(dcel_mesh *mesh, uint32_t edge, uint64_t datum);
dcel_status dcel_update_face(dcel_mesh *mesh, uint32_t face, uint64_t datum);

/* ---- Edits. docs/PICTURES.md draws most, with numbers ---- */

/* Adds a vertex without an edge, and tells its number.
   Refusals: NO_ROOM, OUT_OF_MEMORY. */
dcel_status dcel_append_unconnected_vertex(dcel_mesh *mesh, uint64_t datum, uint32_t *vertex);

/* Replaces the mesh by one triangle, counterclockwise, with vertices 0, 1 and 2.
   Refusals: OUT_OF_MEMORY. */
dcel_status dcel_new_triangle(dcel_mesh *mesh, uint64_t a, uint64_t b, uint64_t c);

/* Makes the first edge, between two vertices.
   Refusals: NO_SUCH_VERTEX, GIVEN_UP, SAME_VERTEX, EDGES_STAND, NO_ROOM, OUT_OF_MEMORY. */
dcel_status dcel_setup_initial_two_vertices(dcel_mesh *mesh, uint32_t first, uint32_t second);

/* Lengthens the line that ends at a vertex to another.
   Refusals: NO_SUCH_VERTEX, GIVEN_UP, SAME_VERTEX, VERTEX_IN_USE, NOT_LINE_END, NO_ROOM, OUT_OF_MEMORY. */
dcel_status dcel_extend_line(dcel_mesh *mesh, uint32_t end, uint32_t vertex);

/* Puts the vertex into the middle of an edge with one face on both sides. The first part of the half
   edge keeps its number, and the second is told.
   Refusals: NO_SUCH_VERTEX, NO_SUCH_EDGE, GIVEN_UP, VERTEX_IN_USE, NOT_BRIDGE, NO_ROOM, OUT_OF_MEMORY. */
dcel_status dcel_split_edge_when_all_vertices_on_line(dcel_mesh *mesh, uint32_t edge, uint32_t vertex,
                                                      uint32_t *second);

/* Closes a triangle of a half edge of the outer face and the next one, and tells the half of the new
   edge that lies outside.
   Refusals: NO_SUCH_EDGE, GIVEN_UP, NOT_OUTER, WOULD_LOOP, NO_ROOM, OUT_OF_MEMORY. */
dcel_status dcel_create_single_face_between_edge_and_next(dcel_mesh *mesh, uint32_t edge, uint32_t *half);

/* Puts a triangle of the half edge and the vertex on the face of the half edge.
   Refusals: NO_SUCH_VERTEX, NO_SUCH_EDGE, GIVEN_UP, VERTEX_IN_USE, NO_ROOM, OUT_OF_MEMORY. */
dcel_status dcel_create_new_face_adjacent_to_edge(dcel_mesh *mesh, uint32_t edge, uint32_t vertex);

/* Cuts a triangle into three at the vertex.
   Refusals: NO_SUCH_VERTEX, NO_SUCH_FACE, GIVEN_UP, VERTEX_IN_USE, NOT_TRIANGLE, NO_ROOM,
   OUT_OF_MEMORY. */
dcel_status dcel_insert_into_triangle(dcel_mesh *mesh, uint32_t vertex, uint32_t face);

/* Puts the vertex into the middle of an edge, and joins it to the corner of the half edge's triangle. The
   second part of the half edge is told.
   Refusals: NO_SUCH_VERTEX, NO_SUCH_EDGE, GIVEN_UP, VERTEX_IN_USE, NOT_TRIANGLE, NO_ROOM,
   OUT_OF_MEMORY. */
dcel_status dcel_split_half_edge(dcel_mesh *mesh, uint32_t edge, uint32_t vertex, uint32_t *second);

/* The same, with the corners of the triangles on both sides.
   Refusals: NO_SUCH_VERTEX, NO_SUCH_EDGE, GIVEN_UP, VERTEX_IN_USE, NOT_TRIANGLE, NO_ROOM,
   OUT_OF_MEMORY. */
dcel_status dcel_split_edge(dcel_mesh *mesh, uint32_t edge, uint32_t vertex, uint32_t *second);

/* Turns an edge between two triangles clockwise, so that it joins their other corners.
   Refusals: NO_SUCH_EDGE, GIVEN_UP, NOT_TRIANGLE, WOULD_LOOP. */
dcel_status dcel_flip_cw(dcel_mesh *mesh, uint32_t undirected_edge);

/* Exchanges two vertices, with their data.
   Refusals: NO_SUCH_VERTEX, GIVEN_UP. */
dcel_status dcel_swap_vertices(dcel_mesh *mesh, uint32_t first, uint32_t second);

/* Takes these edges from the last on, and after each flip first those beside it. It flips one that can
   be flipped and whose lesser opposite corner is below its lesser end. It tells how many were flipped,
   and how it ended: nothing is left to flip, `max_flips` were too few, or the list of edges found no
   memory to grow. What was flipped stays so.
   Refusals: NO_SUCH_EDGE, OUT_OF_MEMORY if the list finds no memory at all. */
dcel_status dcel_legalize_by_number(dcel_mesh *mesh, uint64_t max_flips, const uint32_t *edges,
                                    size_t edges_len, dcel_legalized *legalized);

/* ---- Edits that are several of these calls. They allocate a list, and leave no removal open ---- */

/* Appends a vertex with this datum and inserts it into an inner triangle. Its number is told.
   Refusals: REMOVAL_OPEN, NOT_TRIANGLE (also where there is no such inner face), NO_ROOM,
   OUT_OF_MEMORY. */
dcel_status dcel_insert_vertex(dcel_mesh *mesh, uint32_t face, uint64_t datum, uint32_t *vertex);

/* Removes a vertex wherever it is, with its edges, and fills the hole if it is inside triangles. No new
   edge joins two vertices that an edge joins. Three kinds of elements get new numbers, the last ones.
   Refusals: NO_SUCH_VERTEX, REMOVAL_OPEN, NOT_TRIANGLE if an inner face at the vertex isn't one,
   CUT_VERTEX, SHORT_BORDER, SECOND_EDGE, NO_ROOM, OUT_OF_MEMORY. */
dcel_status dcel_remove_vertex(dcel_mesh *mesh, uint32_t vertex, dcel_removed *removed);

/* Collapses an edge: removes the vertex where the half edge starts, and joins what met it to the vertex
   where the half edge ends.
   Refusals: REMOVAL_OPEN, NOT_INSIDE (also where there is no such half edge), SECOND_EDGE, NO_ROOM,
   OUT_OF_MEMORY. */
dcel_status dcel_collapse_edge(dcel_mesh *mesh, uint32_t edge, dcel_removed *removed);

/* All that dcel_collapse_edge asks is so, but that there is room and memory. */
bool dcel_can_collapse_edge(const dcel_mesh *mesh, uint32_t edge);

/* ---- Many edits by one call ---- */

/* The calls of edits, and the numbers that each takes, in this order. */
enum dcel_call {
    DCEL_CALL_APPEND_UNCONNECTED_VERTEX = 0,               /* datum */
    DCEL_CALL_NEW_TRIANGLE = 1,                            /* a, b, c */
    DCEL_CALL_SETUP_INITIAL_TWO_VERTICES = 2,              /* first, second */
    DCEL_CALL_EXTEND_LINE = 3,                             /* end, vertex */
    DCEL_CALL_SPLIT_EDGE_WHEN_ALL_VERTICES_ON_LINE = 4,    /* edge, vertex */
    DCEL_CALL_CREATE_SINGLE_FACE_BETWEEN_EDGE_AND_NEXT = 5, /* edge */
    DCEL_CALL_CREATE_NEW_FACE_ADJACENT_TO_EDGE = 6,        /* edge, vertex */
    DCEL_CALL_INSERT_INTO_TRIANGLE = 7,                    /* vertex, face */
    DCEL_CALL_SPLIT_HALF_EDGE = 8,                         /* edge, vertex */
    DCEL_CALL_SPLIT_EDGE = 9,                              /* edge, vertex */
    DCEL_CALL_FLIP_CW = 10,                                /* undirected edge */
    DCEL_CALL_SWAP_VERTICES = 11,                          /* first, second */
    DCEL_CALL_UPDATE_VERTEX = 12,                          /* vertex, datum */
    DCEL_CALL_SWAP_REMOVE_VERTEX = 13,                     /* vertex */
    DCEL_CALL_REMOVE_WHEN_DEGENERATE = 14,                 /* vertex */
    DCEL_CALL_CLEAR = 15                                   /* nothing */
};

/* An edit: an enum dcel_call, and the numbers that it takes. What it doesn't take isn't read. */
typedef struct {
    uint64_t call, first, second, third;
} dcel_edit;

/* What the call of an edit returned: its dcel_status, a number, and, after a removal, the old number of the
   vertex that took the removed one's number. The number is the one that the call reports; the vertex that
   dcel_extend_line, dcel_create_new_face_adjacent_to_edge or dcel_insert_into_triangle joins to the others;
   or the datum of a vertex that was taken out. Where there is none, DCEL_NONE. */
typedef struct {
    uint64_t status, number, moved;
} dcel_reply;

/* Makes these edits, one after the other, and puts what each returned into the buffer. One that is refused
   changes nothing, and the next follows. The buffer must have a place for each; what lies behind stays.
   Refusals: SHORT. */
dcel_status dcel_apply_all(dcel_mesh *mesh, const dcel_edit *edits, size_t edits_len, dcel_reply *replies,
                           size_t replies_len);

/* ---- Removals: one is opened, cleaned up, and closed by taking the vertex out ----

   Before anything else is asked, a buffer may be short, or a list find no memory. Each buffer must have as
   many places as the list of half edges has numbers. What is given up is put there from the front, and
   what lies behind it stays. */

/* Gives up the vertex, whose border loop these half edges are, with its edges and the triangles round it,
   and fills the hole.
   Refusals: NO_SUCH_VERTEX, NO_SUCH_EDGE, REMOVAL_OPEN, BAD_RING, NO_ROOM, OUT_OF_MEMORY, SHORT. */
dcel_status dcel_isolate_vertex_and_fill_hole(dcel_mesh *mesh, const uint32_t *border_loop,
                                              size_t border_loop_len, uint32_t vertex, uint32_t *edges,
                                              size_t edges_len, uint32_t *faces, size_t faces_len,
                                              dcel_opened *opened);

/* Gives up these edges and faces, with one vertex or none, inside the ring of the half edges, and fills
   the hole. In the worst case the time is quadratic in the length of the ring.
   Refusals: NO_SUCH_EDGE, NO_SUCH_FACE, REMOVAL_OPEN, BAD_RING, NO_ROOM, OUT_OF_MEMORY. */
dcel_status dcel_remesh_edge_ring(dcel_mesh *mesh, const uint32_t *border_loop, size_t border_loop_len,
                                  const uint32_t *edges, size_t edges_len, const uint32_t *faces,
                                  size_t faces_len, dcel_opened *opened);

/* Cuts off the vertex of the outer face whose strip the half edges are, and gives it up with its edges and
   the triangles round it.
   Refusals: NO_SUCH_EDGE, REMOVAL_OPEN, BAD_STRIP, OUT_OF_MEMORY, SHORT. */
dcel_status dcel_disconnect_edge_strip(dcel_mesh *mesh, const uint32_t *strip, size_t strip_len,
                                       uint32_t *edges, size_t edges_len, uint32_t *faces, size_t faces_len,
                                       dcel_opened *opened);

/* Takes out what the open removal has given up, which the lists name in any order: the last edges and
   faces get the free numbers. It closes a removal that has given up no vertex.
   Refusals: NO_SUCH_EDGE, NO_SUCH_FACE, NO_REMOVAL, WRONG_LISTS, OUT_OF_MEMORY. */
dcel_status dcel_cleanup_isolated_vertex(dcel_mesh *mesh, const uint32_t *edges, size_t edges_len,
                                         const uint32_t *faces, size_t faces_len);

/* Takes out a vertex that has no edge, or was given up by a removal that is cleaned up, and closes that.
   The last vertex gets its number.
   Refusals: NO_SUCH_VERTEX, REMOVAL_OPEN, VERTEX_IN_USE. */
dcel_status dcel_swap_remove_vertex(dcel_mesh *mesh, uint32_t vertex, dcel_removed *removed);

/* Takes a vertex out of a mesh that is one vertex or a path, with an edge if it has one. The last vertex
   and the last edge get the free numbers.
   Refusals: NO_SUCH_VERTEX, REMOVAL_OPEN, NOT_PATH. */
dcel_status dcel_remove_when_degenerate(dcel_mesh *mesh, uint32_t vertex, dcel_removed *removed);

/* How far a removal has come: DCEL_CLOSED, if none is open; DCEL_ISOLATED, if it is to be cleaned up;
   DCEL_CLEANED, if its vertex is to be taken out. */
uint32_t dcel_removal_state(const dcel_mesh *mesh);

/* ---- Tests. Any numbers may be given ---- */

/* The number is in range, and no removal has given the element up. */
bool dcel_is_live_vertex(const dcel_mesh *mesh, uint32_t vertex);
bool dcel_is_live_edge(const dcel_mesh *mesh, uint32_t undirected_edge);
bool dcel_is_live_face(const dcel_mesh *mesh, uint32_t face);

/* The vertex is live, and no half edge starts there; exactly one does. */
bool dcel_is_unconnected(const dcel_mesh *mesh, uint32_t vertex);
bool dcel_is_line_end(const dcel_mesh *mesh, uint32_t vertex);

/* The face is live and has three half edges. */
bool dcel_is_triangle(const dcel_mesh *mesh, uint32_t face);

/* The half edge is live, and both halves of its edge lie on one face. */
bool dcel_is_bridge(const dcel_mesh *mesh, uint32_t edge);

/* There are numbers left for that many more elements: up to 2^32 vertices and faces, 2^31 edges. Edits
   stop earlier, at 2^31 of each (NO_ROOM). */
bool dcel_has_room(const dcel_mesh *mesh, uint64_t vertices, uint64_t undirected_edges, uint64_t faces);

/* The mesh looks triangulated: as sanity_check of spade. */
bool dcel_sanity_check(const dcel_mesh *mesh);

/* All that the edit asks is so, but that there is room and memory. */
bool dcel_can_setup_initial_two_vertices(const dcel_mesh *mesh, uint32_t first, uint32_t second);
bool dcel_can_extend_line(const dcel_mesh *mesh, uint32_t end, uint32_t vertex);
bool dcel_can_split_edge_when_all_vertices_on_line(const dcel_mesh *mesh, uint32_t edge, uint32_t vertex);
bool dcel_can_close_outside(const dcel_mesh *mesh, uint32_t edge);
bool dcel_can_create_new_face_adjacent_to_edge(const dcel_mesh *mesh, uint32_t edge, uint32_t vertex);
bool dcel_can_insert_into_triangle(const dcel_mesh *mesh, uint32_t vertex, uint32_t face);
bool dcel_can_split_half_edge(const dcel_mesh *mesh, uint32_t edge, uint32_t vertex);
bool dcel_can_split_edge(const dcel_mesh *mesh, uint32_t edge, uint32_t vertex);
bool dcel_can_flip(const dcel_mesh *mesh, uint32_t undirected_edge);
bool dcel_can_swap_remove(const dcel_mesh *mesh, uint32_t vertex);
bool dcel_can_remove_degenerate(const dcel_mesh *mesh, uint32_t vertex);

/* ---- Tests of lists, which need memory for these ----

   Refusals: OUT_OF_MEMORY, and else the answer is told. */

dcel_status dcel_is_border_loop(const dcel_mesh *mesh, const uint32_t *border_loop, size_t border_loop_len,
                                uint32_t vertex, bool *answer);

/* These edges and faces, with one vertex or none, are inside the ring of the half edges. In the worst
   case the time is quadratic in the length of the ring; dcel_can_remesh_edge_ring takes as long. */
dcel_status dcel_is_ring(const dcel_mesh *mesh, const uint32_t *border_loop, size_t border_loop_len,
                         const uint32_t *edges, size_t edges_len, const uint32_t *faces, size_t faces_len,
                         bool *answer);

/* These half edges are the strip of a vertex of the outer face, which dcel_disconnect_edge_strip takes. */
dcel_status dcel_is_edge_strip(const dcel_mesh *mesh, const uint32_t *strip, size_t strip_len,
                               bool *answer);

/* The lists name what an open removal has given up. */
dcel_status dcel_is_listed(const dcel_mesh *mesh, const uint32_t *edges, size_t edges_len,
                           const uint32_t *faces, size_t faces_len, bool *answer);

/* All that the edit asks is so, but that there is room and memory. */
dcel_status dcel_can_isolate_vertex_and_fill_hole(const dcel_mesh *mesh, const uint32_t *border_loop,
                                                  size_t border_loop_len, uint32_t vertex, bool *answer);
dcel_status dcel_can_remesh_edge_ring(const dcel_mesh *mesh, const uint32_t *border_loop,
                                      size_t border_loop_len, const uint32_t *edges, size_t edges_len,
                                      const uint32_t *faces, size_t faces_len, bool *answer);
dcel_status dcel_can_disconnect_edge_strip(const dcel_mesh *mesh, const uint32_t *strip, size_t strip_len,
                                           bool *answer);

/* ---- Lines ---- */

/* Answers lines, which docs/LINES.md lists, on an empty mesh of its own, which isn't kept, and puts the
   replies into the buffer. As many bytes as fit are put there, from the front, and what lies behind them
   stays. `needed` is how many bytes all replies are.
   Refusals: OUT_OF_MEMORY if there is none for the mesh or the replies, and then the buffer stays and
   `needed` is 0; SHORT if the replies don't all fit. */
dcel_status dcel_replies(const uint8_t *lines, size_t lines_len, uint8_t *replies, size_t replies_len,
                         uint64_t *needed);

/* ---- Delaunay triangulations ----

   Of points with whole coordinates: each point is a vertex, equal points are one, the triangles cover the
   convex hull without overlaps, and no point lies inside the circle of a triangle. While all points are on
   one line there is no triangle. */

/* A point, whose coordinates are from -2^53 to 2^53. */
typedef struct {
    int64_t x, y;
} dcel_point;

/* The corners of a triangle, counterclockwise. */
typedef struct {
    uint32_t first, second, third;
} dcel_triangle;

/* Puts the triangles of the points into the buffer, as walks do, each by the rows of its corners; of equal
   points the first one counts. There are fewer than two for each point. If coordinates are out of range,
   the first row that has one is told. Nothing is kept.
   Refusals: OUT_OF_RANGE, OUT_OF_MEMORY, SHORT. */
dcel_status dcel_triangulate(const dcel_point *points, size_t points_len, dcel_triangle *triangles,
                             size_t triangles_len, uint64_t *needed, uint64_t *row);

/* ---- Triangulations that are kept across calls ----

   One that isn't whole, since memory ran out in an insertion or a removal, has its vertices, but edges
   that are still to be flipped. dcel_triangulation_finish makes it whole, and so does the next call that
   changes it and succeeds, or is refused with NO_SUCH_VERTEX or NO_ROOM. */

/* A triangulation, or none: zero bytes are one that isn't open. The fields are the library's. */
typedef struct {
    void *at;
    bool is_open;
} dcel_triangulation;

/* What a dcel_triangulation begins with. */
#define DCEL_TRIANGULATION_INIT {NULL, false}

/* Makes a triangulation of no points. One that was kept there before is freed.
   Refusals: OUT_OF_MEMORY. */
dcel_status dcel_triangulation_new(dcel_triangulation *triangulation);

/* Frees the triangulation, if there is one. */
void dcel_triangulation_free(dcel_triangulation *triangulation);

/* Makes `to` a triangulation of its own, with the same numbers of vertices, edges and triangles, and frees
   the one that was there. It is whole if `from` is.
   Refusals: OUT_OF_MEMORY. */
dcel_status dcel_triangulation_clone(const dcel_triangulation *from, dcel_triangulation *to);

uint64_t dcel_triangulation_num_vertices(const dcel_triangulation *triangulation);
uint64_t dcel_triangulation_num_edges(const dcel_triangulation *triangulation);
uint64_t dcel_triangulation_num_triangles(const dcel_triangulation *triangulation);

/* There is a triangulation, and it is whole. */
bool dcel_triangulation_is_whole(const dcel_triangulation *triangulation);

/* Makes the triangulation whole. If memory runs out again, what is done so far stays.
   Refusals: OUT_OF_MEMORY. */
dcel_status dcel_triangulation_finish(dcel_triangulation *triangulation);

/* Inserts a point, and tells its vertex: a new one, or the one that is there already. If the status is
   DCEL_UNFINISHED, the point is the last vertex. With any other refusal no vertex is added.
   Refusals: OUT_OF_RANGE, NO_ROOM, OUT_OF_MEMORY, UNFINISHED. */
dcel_status dcel_triangulation_insert(dcel_triangulation *triangulation, dcel_point point, uint32_t *vertex);

/* The same, by a walk that begins at the vertex `hint`: the nearer it is to the point, the shorter is the
   walk. If there is no such vertex, the walk begins where that of dcel_triangulation_insert does. */
dcel_status dcel_triangulation_insert_with_hint(dcel_triangulation *triangulation, dcel_point point,
                                                uint32_t hint, uint32_t *vertex);

/* Inserts points in an order of its own, which is fast, and puts the vertex of each into the buffer, in
   the order of the points. If coordinates are out of range, the first row that has one is told, and none
   is inserted. If memory or numbers run out, the points that were inserted so far stay, and the buffer
   too.
   Refusals: OUT_OF_RANGE, NO_ROOM, OUT_OF_MEMORY, SHORT, UNFINISHED. */
dcel_status dcel_triangulation_insert_all(dcel_triangulation *triangulation, const dcel_point *points,
                                          size_t points_len, uint32_t *vertices, size_t vertices_len,
                                          uint64_t *row);

/* Removes a vertex with its point. The last vertex gets its number: `moved` is the old number of that
   vertex, DCEL_NONE if the removed one was the last. If the status is DCEL_UNFINISHED, the vertex is gone
   too, and `moved` is told. With any other refusal all vertices stay; with DCEL_OUT_OF_MEMORY edges may be
   flipped.
   Refusals: NO_SUCH_VERTEX, NO_ROOM, OUT_OF_MEMORY, UNFINISHED. */
dcel_status dcel_triangulation_remove(dcel_triangulation *triangulation, uint32_t vertex, uint64_t *moved);

/* ---- Lists of a triangulation, into a buffer ----

   They are put there whole, from the front, and what lies behind them stays. `needed` is how many items
   there are. If they don't all fit, the status is DCEL_SHORT, and the buffer stays; with any other refusal
   it stays too, and `needed` is 0.

   Vertices, half edges and edges have the numbers of the triangulation's mesh. A triangle's number is its
   place in the list of dcel_triangulation_triangles, from 0: its face in the mesh has the number after it.
   A change renumbers edges and triangles; an insertion keeps the numbers of vertices.
   Refusals: OUT_OF_MEMORY, SHORT. */

/* The point of each vertex. There are dcel_triangulation_num_vertices of them. */
dcel_status dcel_triangulation_points(const dcel_triangulation *triangulation, dcel_point *points,
                                      size_t points_len, uint64_t *needed);

/* The corners of each triangle, counterclockwise, by their vertices. There are
   dcel_triangulation_num_triangles of them. */
dcel_status dcel_triangulation_triangles(const dcel_triangulation *triangulation, dcel_triangle *triangles,
                                         size_t triangles_len, uint64_t *needed);

/* The triangles across from the corners of a triangle: the one across from its first corner has the other
   two as corners too. UINT32_MAX stands where there is none: on the hull. */
typedef struct {
    uint32_t first, second, third;
} dcel_across;

/* For each triangle those across from its corners. The triangles and their corners are in the order of
   dcel_triangulation_triangles. */
dcel_status dcel_triangulation_neighbors(const dcel_triangulation *triangulation, dcel_across *across,
                                         size_t across_len, uint64_t *needed);

/* The ends of an edge u: the vertices where half edge 2 * u starts and ends. */
typedef struct {
    uint32_t from, to;
} dcel_ends;

/* The ends of each edge. There are dcel_triangulation_num_edges of them. */
dcel_status dcel_triangulation_edges(const dcel_triangulation *triangulation, dcel_ends *edges,
                                     size_t edges_len, uint64_t *needed);

/* The vertices of the convex hull, counterclockwise, those on its sides too. While all points are on one
   line it goes there and back, so each vertex comes twice but the ends; a vertex alone is the hull. */
dcel_status dcel_triangulation_hull(const dcel_triangulation *triangulation, uint32_t *vertices,
                                    size_t vertices_len, uint64_t *needed);

/* The links of each half edge, as dcel_directed_edges has them of a mesh; there are two for each edge.
   dcel_from_links makes a mesh of them, with the same numbers, and the data that it is given: as many
   vertices as here, and a face more than triangles.
   Refusals: SHORT. */
dcel_status dcel_triangulation_directed_edges(const dcel_triangulation *triangulation,
                                              dcel_half_edge *half_edges, size_t half_edges_len,
                                              uint64_t *needed);

/* ---- Points located in a triangulation, exactly ----

   Any points in range may be asked for. If the triangulation isn't whole, the status is DCEL_UNFINISHED;
   dcel_triangulation_finish makes it whole. With any refusal what is told and buffers stay, but that
   DCEL_OUT_OF_RANGE tells the row of the first point that has a coordinate out of range. */

/* Where a point is, and what the `number` of a dcel_position is. Each point is at one place alone. */
enum dcel_place {
    DCEL_ON_FACE = 0,     /* strictly inside triangle `number` */
    DCEL_ON_EDGE = 1,     /* strictly between the ends of half edge `number`, which is either half */
    DCEL_ON_VERTEX = 2,   /* at vertex `number` */
    DCEL_OUTSIDE = 3,     /* outside of the hull, strictly on the left of half edge `number` of the outer face */
    DCEL_BEYOND_LINE = 4, /* on the line of all points, strictly beyond vertex `number`, which ends it */
    DCEL_NOWHERE = 5      /* there is no edge, and no vertex is there: `number` is UINT32_MAX */
};

/* A place: an enum dcel_place, and the number that it speaks of. */
typedef struct {
    uint32_t kind, number;
} dcel_position;

/* Tells where a point is. The walk begins where the last insertion ended.
   Refusals: OUT_OF_RANGE, UNFINISHED. */
dcel_status dcel_triangulation_locate(const dcel_triangulation *triangulation, dcel_point point,
                                      dcel_position *position);

/* The same, by a walk that begins at the vertex `hint`: the nearer it is to the point, the shorter is the
   walk. If there is no such vertex, the walk begins where that of dcel_triangulation_locate does. */
dcel_status dcel_triangulation_locate_with_hint(const dcel_triangulation *triangulation, dcel_point point,
                                                uint32_t hint, dcel_position *position);

/* Tells where each point is, in the order of the points, from the front of the buffer; what lies behind
   them there stays. It looks for them in an order of its own, which is fast.
   Refusals: OUT_OF_RANGE, OUT_OF_MEMORY, SHORT if the buffer has fewer places than there are points,
   UNFINISHED. */
dcel_status dcel_triangulation_locate_all(const dcel_triangulation *triangulation, const dcel_point *points,
                                          size_t points_len, dcel_position *positions, size_t positions_len,
                                          uint64_t *row);

/* Tells a vertex that no other one is nearer to the point than, UINT32_MAX if there is no vertex.
   Refusals: OUT_OF_RANGE, UNFINISHED. */
dcel_status dcel_triangulation_nearest(const dcel_triangulation *triangulation, dcel_point point,
                                       uint32_t *vertex);

/* The same for each point, in the order of the points, from the front of the buffer; what lies behind
   them there stays. It looks for them in an order of its own, which is fast.
   Refusals: OUT_OF_RANGE, OUT_OF_MEMORY, SHORT if the buffer has fewer places than there are points,
   UNFINISHED. */
dcel_status dcel_triangulation_nearest_all(const dcel_triangulation *triangulation, const dcel_point *points,
                                           size_t points_len, uint32_t *vertices, size_t vertices_len,
                                           uint64_t *row);

/* ---- Triangulations with constraints, kept across calls ----

   Some edges are constraints, and stay. The triangulation is Delaunay but for them: no vertex that a
   triangle sees, past no constraint, lies inside its circle. What is said of a dcel_triangulation above, of
   its numbers and of its lists, holds of a dcel_constrained too, and a call does what that of the same name
   does there, unless it says otherwise. A call that is refused with DCEL_CROSSES makes it whole, too. */

/* A triangulation with constraints, or none: zero bytes are one that isn't open. The fields are the
   library's. */
typedef struct {
    void *at;
    bool is_open;
} dcel_constrained;

/* What a dcel_constrained begins with. */
#define DCEL_CONSTRAINED_INIT {NULL, false}

/* Makes a triangulation of no points. One that was kept there before is freed.
   Refusals: OUT_OF_MEMORY. */
dcel_status dcel_constrained_new(dcel_constrained *triangulation);

/* Frees the triangulation, if there is one. */
void dcel_constrained_free(dcel_constrained *triangulation);

/* Makes `to` a triangulation of its own, with the same numbers and constraints, and frees the one that was
   there. It is whole if `from` is.
   Refusals: OUT_OF_MEMORY. */
dcel_status dcel_constrained_clone(const dcel_constrained *from, dcel_constrained *to);

/* Makes `to` a triangulation of its own, with the numbers of `from` and no constraint, and frees the one
   that was there.
   Refusals: OUT_OF_MEMORY, UNFINISHED if `from` isn't whole. */
dcel_status dcel_constrained_from_triangulation(const dcel_triangulation *from, dcel_constrained *to);

/* Makes a triangulation of points and of segments between them, by the rows of their ends: each segment is
   one of constraints, and no other edge is one. The vertex of each point is put into the buffer, in the
   order of the points. Segments may meet at their ends, end on others, or overlap. One that was kept there
   before is freed.
   `row` tells the first row of a point that is out of range, or the row of a segment: one that ends at no
   point has the status DCEL_NO_SUCH_VERTEX, and one that crosses an earlier one DCEL_CROSSES. With any
   refusal what was kept before stays.
   Refusals: OUT_OF_RANGE, NO_SUCH_VERTEX, CROSSES, NO_ROOM, OUT_OF_MEMORY, SHORT if the buffer has fewer
   places than there are points. */
dcel_status dcel_constrained_bulk_load(dcel_constrained *triangulation, const dcel_point *points,
                                       size_t points_len, const dcel_ends *segments, size_t segments_len,
                                       uint32_t *vertices, size_t vertices_len, uint64_t *row);

uint64_t dcel_constrained_num_vertices(const dcel_constrained *triangulation);
uint64_t dcel_constrained_num_edges(const dcel_constrained *triangulation);
uint64_t dcel_constrained_num_triangles(const dcel_constrained *triangulation);

/* How many edges are constraints. It looks at each edge. */
uint64_t dcel_constrained_num_constraints(const dcel_constrained *triangulation);

/* There is a triangulation, and it is whole. */
bool dcel_constrained_is_whole(const dcel_constrained *triangulation);

/* Makes the triangulation whole. If memory runs out again, what is done so far stays. Constraints stay.
   Refusals: OUT_OF_MEMORY. */
dcel_status dcel_constrained_finish(dcel_constrained *triangulation);

/* Inserts a point, and tells its vertex. A constraint that the point is on becomes two.
   Refusals: OUT_OF_RANGE, NO_ROOM, OUT_OF_MEMORY, UNFINISHED. */
dcel_status dcel_constrained_insert(dcel_constrained *triangulation, dcel_point point, uint32_t *vertex);

/* Inserts points, and puts the vertex of each into the buffer, in the order of the points.
   Refusals: OUT_OF_RANGE, NO_ROOM, OUT_OF_MEMORY, SHORT, UNFINISHED. */
dcel_status dcel_constrained_insert_all(dcel_constrained *triangulation, const dcel_point *points,
                                        size_t points_len, uint32_t *vertices, size_t vertices_len,
                                        uint64_t *row);

/* Removes a vertex with its point, and with the constraints that end at it; all others stay. With
   DCEL_OUT_OF_MEMORY the vertex stays, but constraints that end at it may be none any more.
   Refusals: NO_SUCH_VERTEX, NO_ROOM, OUT_OF_MEMORY, UNFINISHED. */
dcel_status dcel_constrained_remove(dcel_constrained *triangulation, uint32_t vertex, uint64_t *moved);

/* Tells where a point is. The walk begins at the newest edge.
   Refusals: OUT_OF_RANGE, UNFINISHED. */
dcel_status dcel_constrained_locate(const dcel_constrained *triangulation, dcel_point point,
                                    dcel_position *position);

/* Tells where each point is, as dcel_triangulation_locate_all does.
   Refusals: OUT_OF_RANGE, OUT_OF_MEMORY, SHORT if the buffer has fewer places than there are points,
   UNFINISHED. */
dcel_status dcel_constrained_locate_all(const dcel_constrained *triangulation, const dcel_point *points,
                                        size_t points_len, dcel_position *positions, size_t positions_len,
                                        uint64_t *row);

/* Tells whether the segment between two vertices crosses no constraint. One that ends on it, or is on it,
   doesn't cross it. The answer is false if there is no such vertex.
   Refusals: UNFINISHED. */
dcel_status dcel_constrained_can_add_constraint(const dcel_constrained *triangulation, uint32_t from,
                                                uint32_t to, bool *answer);

/* Makes the segment between two vertices one of constraints, from each vertex on it to the next. `added`
   tells whether an edge is a constraint now that wasn't. With any refusal `added` stays, and with any but
   DCEL_OUT_OF_MEMORY no edge is a constraint that wasn't; with that parts of the segment may be, and the
   same call adds the rest.
   Refusals: NO_SUCH_VERTEX, CROSSES, OUT_OF_MEMORY. */
dcel_status dcel_constrained_add_constraint(dcel_constrained *triangulation, uint32_t from, uint32_t to,
                                            bool *added);

/* The same for each segment of a list, by the vertices at its ends, up to the first that is refused. `done`
   tells how many are constraints then, from the front: the refused one has this row.
   Refusals: NO_SUCH_VERTEX, CROSSES, OUT_OF_MEMORY. */
dcel_status dcel_constrained_add_constraints(dcel_constrained *triangulation, const dcel_ends *segments,
                                             size_t segments_len, uint64_t *done);

/* Makes an edge no constraint any more, and flips edges so that the triangulation is Delaunay but for those
   that still are. `was` tells whether it was one; any number may be given. With DCEL_OUT_OF_MEMORY `was`
   stays, and either the edge is a constraint as before, and nothing has changed, or it is none any more.
   Refusals: OUT_OF_MEMORY. */
dcel_status dcel_constrained_remove_constraint(dcel_constrained *triangulation, uint32_t edge, bool *was);

/* The edge is a constraint. */
bool dcel_constrained_is_constraint(const dcel_constrained *triangulation, uint32_t edge);

/* An edge between the vertices is a constraint. */
bool dcel_constrained_exists_constraint(const dcel_constrained *triangulation, uint32_t from, uint32_t to);

/* Lists, into a buffer, as those of a dcel_triangulation: points, corners of triangles, neighbors, ends of
   edges, vertices of the hull and links of half edges.
   Refusals: OUT_OF_MEMORY, SHORT. */
dcel_status dcel_constrained_points(const dcel_constrained *triangulation, dcel_point *points,
                                    size_t points_len, uint64_t *needed);
dcel_status dcel_constrained_triangles(const dcel_constrained *triangulation, dcel_triangle *triangles,
                                       size_t triangles_len, uint64_t *needed);
dcel_status dcel_constrained_neighbors(const dcel_constrained *triangulation, dcel_across *across,
                                       size_t across_len, uint64_t *needed);
dcel_status dcel_constrained_edges(const dcel_constrained *triangulation, dcel_ends *edges, size_t edges_len,
                                   uint64_t *needed);
dcel_status dcel_constrained_hull(const dcel_constrained *triangulation, uint32_t *vertices,
                                  size_t vertices_len, uint64_t *needed);
dcel_status dcel_constrained_directed_edges(const dcel_constrained *triangulation,
                                            dcel_half_edge *half_edges, size_t half_edges_len,
                                            uint64_t *needed);

/* The ends of each edge that is a constraint, in the order of the edges. There are
   dcel_constrained_num_constraints of them.
   Refusals: OUT_OF_MEMORY, SHORT. */
dcel_status dcel_constrained_constraints(const dcel_constrained *triangulation, dcel_ends *constraints,
                                         size_t constraints_len, uint64_t *needed);

/* How deep each triangle is: the least number of constraints that a way to it from outside of the hull
   crosses, UINT32_MAX if it is more. Where constraints are the borders of polygons and of their holes, no
   two of which have an edge in common, it is 1 in a polygon and 2 in a hole of it. The triangles are in the
   order of dcel_constrained_triangles.
   Refusals: OUT_OF_MEMORY, SHORT. */
dcel_status dcel_constrained_regions(const dcel_constrained *triangulation, uint32_t *depths,
                                     size_t depths_len, uint64_t *needed);

/* What a refinement is to reach, and where it gives up. Each corner is to have at least the angle whose tangent
   is rise / run, unless both its sides are constraints: for 20 degrees that is 23853 / 65535, and with a rise of
   0 every angle will do. Each triangle is to have at most half the area max_doubled_area_high * 2^64 +
   max_doubled_area_low, in squares of the coordinates' unit; with a high half from 2^63 on, as UINT64_MAX, any
   area will do. With `inside` this is asked only of triangles of odd depth (dcel_constrained_regions), else of
   all. At most max_additional_vertices are added. Any numbers may be given. */
typedef struct {
    uint64_t max_doubled_area_high, max_doubled_area_low, max_additional_vertices;
    uint16_t rise, run;
    bool inside;
} dcel_refinement;

/* Adds vertices until each triangle is as asked, or as many are added as allowed, or none is found that would
   help. `added` is how many were added, `excepted` how many corners between two constraints are smaller than
   asked, and `reached` whether each triangle is as asked, but for these corners, exactly. Vertices keep their
   numbers, and the new ones follow them; a constraint on which some are added becomes constraints from one to
   the next, and no other edge is one. A constraint is split first that has a vertex of its triangle inside the
   circle of which it is a diameter.
   New vertices have whole coordinates, so a constraint can be split only at a point between its ends that
   has such: multiply all coordinates by a power of two first, as 4096. A side of the hull that is no
   constraint isn't split. Up to 20.7 degrees the angle is mostly reached, and above 34 rarely.
   With any refusal `added`, `excepted` and `reached` stay, and the vertices added so far do, too.
   Refusals: NO_ROOM, OUT_OF_MEMORY, UNFINISHED. */
dcel_status dcel_constrained_refine(dcel_constrained *triangulation, const dcel_refinement *parameters,
                                    uint64_t *added, uint64_t *excepted, bool *reached);

#ifdef __cplusplus
}
#endif
#endif
