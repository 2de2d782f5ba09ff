/* Calls each export of crates/mesh_page with memory of every size up to what it needs, and with a buffer
   of every size up to what the answer has. Behind the memory, and behind the buffer, stands a page that
   can't be written: who writes past an end is stopped by the machine. What is kept, a mesh or a
   triangulation, gets more memory after each size that was too small, and has to end as one that had
   enough. */
#define _DEFAULT_SOURCE
#include "mesh_page.h"

#include <inttypes.h>
#include <stdio.h>
#include <stdlib.h>
#include <string.h>
#include <sys/mman.h>
#include <unistd.h>

#define FILL 0xa5
#define ENOUGH (1u << 20)
#define ROOM (1u << 14)

static const char LINES[] = "triangle 0 1 2\nappend 3\ninsert 3 1\nflip 0\nfoo\nout 3";
static const mesh_page_point POINTS[] = {{0, 0}, {4, 0}, {0, 3}, {5, 5}, {2, 2}, {4, 0}, {-9, 4}, {4, 1}};
#define COUNT(list) (sizeof(list) / sizeof(list)[0])

static int calls = 0;

static void must(bool holds, const char *name, const char *what, size_t size) {
    calls++;
    if (holds)
        return;
    fprintf(stderr, "%s: %s, at %zu\n", name, what, size);
    exit(EXIT_FAILURE);
}

/* Bytes that end where a page begins that can't be written. */
typedef struct {
    uint8_t *all;
    size_t size;
} guarded;

static guarded guard(size_t size) {
    size_t page = (size_t)sysconf(_SC_PAGESIZE);
    size = (size + page - 1) / page * page;
    void *all = mmap(NULL, size + page, PROT_READ | PROT_WRITE, MAP_PRIVATE | MAP_ANONYMOUS, -1, 0);
    if (all == MAP_FAILED || mprotect((uint8_t *)all + size, page, PROT_NONE) != 0) {
        perror("no memory with a guard");
        exit(EXIT_FAILURE);
    }
    guarded made = {(uint8_t *)all, size};
    return made;
}

/* The last bytes of these. */
static uint8_t *last(guarded in, size_t size) { return in.all + in.size - size; }

static bool is_filled(const uint8_t *from, const uint8_t *to) {
    while (from < to)
        if (*from++ != FILL)
            return false;
    return true;
}

static guarded lent, more, buffer;

/* What a call answered. */
typedef struct {
    uint32_t status;
    uint64_t needed;
} answer;

static answer replies(mesh_page_memory memory, uint8_t *out, size_t room) {
    answer told = {9, 9};
    told.status = mesh_page_replies(memory, (const uint8_t *)LINES, sizeof LINES - 1, out, room, &told.needed);
    return told;
}
static answer picture(mesh_page_memory memory, uint8_t *out, size_t room) {
    answer told = {9, 9};
    told.status = mesh_page_picture(memory, (const uint8_t *)LINES, sizeof LINES - 1, true, out, room, &told.needed);
    return told;
}
static answer triangles(mesh_page_memory memory, uint8_t *out, size_t room) {
    answer told = {9, 9};
    told.status = mesh_page_triangles(memory, POINTS, COUNT(POINTS), (mesh_page_triangle *)out, room, &told.needed);
    return told;
}

typedef struct {
    const char *name;
    answer (*call)(mesh_page_memory memory, uint8_t *out, size_t room);
    size_t item;
} export_of;

static const export_of EXPORTS[] = {
    {"replies", replies, 1}, {"picture", picture, 1}, {"triangles", triangles, sizeof(mesh_page_triangle)}};

/* Calls with so much memory and room. Nothing stands changed before the memory, or beside what was put
   into the buffer. */
static answer call(const export_of *it, size_t size, size_t room) {
    uint8_t *memory = last(lent, size), *out = last(buffer, room * it->item);
    memset(memory > lent.all + 64 ? memory - 64 : lent.all, FILL, memory > lent.all + 64 ? 64 : (size_t)(memory - lent.all));
    memset(buffer.all, FILL, buffer.size);
    mesh_page_memory given = {memory, size};
    answer told = it->call(given, out, room);
    size_t put = (told.needed < room ? (size_t)told.needed : room) * it->item;
    must(is_filled(memory > lent.all + 64 ? memory - 64 : lent.all, memory), it->name, "it writes before its memory", size);
    must(is_filled(buffer.all, out) && is_filled(out + put, buffer.all + buffer.size), it->name, "it writes beside its answer", room);
    return told;
}

/* Whether the first line that isn't as it should be is refused for want of memory. */
static bool lacks_memory(const uint8_t *found, size_t length, const uint8_t *whole, size_t all) {
    static const char REFUSED[] = "refused 20 OutOfMemory\n";
    size_t at = 0, start = 0;
    while (at < length && at < all && found[at] == whole[at])
        if (found[at++] == '\n')
            start = at;
    return length - start >= sizeof REFUSED - 1 && memcmp(found + start, REFUSED, sizeof REFUSED - 1) == 0;
}

static void check(const export_of *it) {
    size_t room = ROOM / it->item;
    answer told = call(it, ENOUGH, room);
    must(told.status == MESH_PAGE_DONE && told.needed <= room, it->name, "it has no answer", ENOUGH);
    size_t needed = (size_t)told.needed, length = needed * it->item;
    uint8_t *whole = (uint8_t *)malloc(length);
    must(whole != NULL, it->name, "there is no memory", length);
    memcpy(whole, last(buffer, room * it->item), length);
    for (size_t few = 0; few <= needed; few++) {
        told = call(it, ENOUGH, few);
        must(told.status == (few < needed ? MESH_PAGE_SHORT : MESH_PAGE_DONE) && told.needed == needed, it->name, "the status is wrong", few);
        must(memcmp(last(buffer, few * it->item), whole, few * it->item) == 0, it->name, "the answer is wrong", few);
    }
    size_t size = 0;
    for (bool is_enough = false; !is_enough; size += 16) {
        must(size < ENOUGH, it->name, "no memory suffices", size);
        told = call(it, size, room);
        const uint8_t *out = last(buffer, room * it->item);
        is_enough = told.status == MESH_PAGE_DONE && told.needed == needed && memcmp(out, whole, length) == 0;
        bool is_refused = told.status == MESH_PAGE_NO_MEMORY && told.needed == 0;
        bool is_told = it->call == replies && told.status == MESH_PAGE_DONE && lacks_memory(out, (size_t)told.needed, whole, length);
        must(is_enough || is_refused || is_told, it->name, "it had too little memory, and doesn't say so", size);
    }
    printf("%s: %zu items, with %zu bytes\n", it->name, needed, size - 16);
    free(whole);
}

/* A coordinate past either end is told, and the ends themselves are points. */
static void check_range(void) {
    const int64_t end = (int64_t)1 << 53;
    const mesh_page_point ends[] = {{-end, -end}, {end, -end}, {end, end}, {-end, end}};
    for (size_t past = 0; past <= 2 * COUNT(ends); past++) {
        mesh_page_point given[COUNT(ends)];
        memcpy(given, ends, sizeof ends);
        if (past > 0) {
            int64_t *far = past % 2 ? &given[(past - 1) / 2].x : &given[(past - 1) / 2].y;
            *far += *far > 0 ? 1 : -1;
        }
        mesh_page_triangle found[2];
        mesh_page_memory memory = {last(lent, ENOUGH), ENOUGH};
        uint64_t needed = 9;
        uint32_t status = mesh_page_triangles(memory, given, COUNT(given), found, COUNT(found), &needed);
        must(past ? status == MESH_PAGE_OUT_OF_RANGE && needed == 0 : status == MESH_PAGE_DONE && needed == 2, "triangles", "the range is wrong", past);
    }
}

/* Two small answers are as they should be. The last point is the third one again. */
static void check_answers(void) {
    mesh_page_memory memory = {last(lent, ENOUGH), ENOUGH};
    static const char ASKED[] = "triangle 7 8 9\nflip 0\nfoo\nhull", REPLIES[] = "ok\nrefused 14 WouldLoop\nbad line\nhull 0 2 4\n";
    uint8_t text[sizeof REPLIES];
    uint64_t needed;
    must(mesh_page_replies(memory, (const uint8_t *)ASKED, sizeof ASKED - 1, text, sizeof text, &needed) == MESH_PAGE_DONE && needed == sizeof REPLIES - 1 &&
             memcmp(text, REPLIES, sizeof REPLIES - 1) == 0,
         "replies", "they are other ones", 0);
    const mesh_page_point given[] = {{0, 0}, {4, 0}, {5, 5}, {0, 3}, {5, 5}};
    static const mesh_page_triangle WANTED[] = {{0, 1, 3}, {1, 2, 3}};
    mesh_page_triangle found[2];
    must(mesh_page_triangles(memory, given, COUNT(given), found, COUNT(found), &needed) == MESH_PAGE_DONE && needed == COUNT(WANTED), "triangles", "there are others", 0);
    for (size_t i = 0; i < COUNT(WANTED); i++) {
        bool has = false;
        for (size_t k = 0; k < COUNT(found); k++) {
            mesh_page_triangle it = found[k], turned = {it.second, it.third, it.first}, again = {it.third, it.first, it.second};
            has = has || memcmp(&it, &WANTED[i], sizeof it) == 0 || memcmp(&turned, &WANTED[i], sizeof it) == 0 || memcmp(&again, &WANTED[i], sizeof it) == 0;
        }
        must(has, "triangles", "one lacks", i);
    }
}

static bool is_one_of(mesh_page_triangle it, const mesh_page_triangle *list, size_t count) {
    mesh_page_triangle turned = {it.second, it.third, it.first}, again = {it.third, it.first, it.second};
    for (size_t i = 0; i < count; i++)
        if (memcmp(&it, &list[i], sizeof it) == 0 || memcmp(&turned, &list[i], sizeof it) == 0 || memcmp(&again, &list[i], sizeof it) == 0)
            return true;
    return false;
}

/* What is kept of these points has the triangles of a call that keeps nothing, by the vertices told. */
static void check_triangles(mesh_page_kept *kept, const uint32_t *vertices, size_t size) {
    mesh_page_memory memory = {last(lent, ENOUGH), ENOUGH};
    mesh_page_triangle wanted[2 * COUNT(POINTS)], *found = (mesh_page_triangle *)last(buffer, 2 * COUNT(POINTS) * sizeof *found);
    uint64_t needed, count;
    must(mesh_page_triangles(memory, POINTS, COUNT(POINTS), wanted, COUNT(wanted), &count) == MESH_PAGE_DONE, "triangles", "there are none", size);
    must(mesh_page_list_triangles(kept, found, count - 1, &needed) == MESH_PAGE_SHORT && needed == count, "list_triangles", "the buffer isn't short", size);
    must(mesh_page_list_triangles(kept, found, count, &needed) == MESH_PAGE_DONE && needed == count, "list_triangles", "they aren't as many", size);
    for (size_t i = 0; i < count; i++) {
        mesh_page_triangle named = {vertices[wanted[i].first], vertices[wanted[i].second], vertices[wanted[i].third]};
        must(is_one_of(named, found, count), "list_triangles", "one lacks", size);
    }
}

/* With all its points removed one by one it is as one that was made, and freed it is kept no longer. */
static void check_removed(mesh_page_kept *kept, size_t size) {
    const mesh_page_point origin = {0, 0}, far = {(int64_t)1 << 54, 0};
    uint32_t vertex = 9, left = COUNT(POINTS) - 1; /* two of the points are equal */
    uint64_t moved, needed;
    must(mesh_page_nearest(kept, origin, &vertex) == MESH_PAGE_DONE && vertex < left, "nearest", "it has none", size);
    must(mesh_page_nearest(kept, far, &vertex) == MESH_PAGE_OUT_OF_RANGE && mesh_page_insert(kept, far, &vertex) == MESH_PAGE_OUT_OF_RANGE, "nearest", "the range is wrong", size);
    must(mesh_page_remove(kept, left, &moved) == MESH_PAGE_NO_SUCH_VERTEX, "remove", "there is one more", size);
    for (; left > 0; left--)
        must(mesh_page_remove(kept, 0, &moved) == MESH_PAGE_DONE && moved == (left > 1 ? left - 1 : UINT64_MAX), "remove", "another vertex moves", left);
    must(mesh_page_nearest(kept, origin, &vertex) == MESH_PAGE_DONE && vertex == UINT32_MAX, "nearest", "one is left", size);
    must(mesh_page_insert(kept, origin, &vertex) == MESH_PAGE_DONE && vertex == 0, "insert", "it isn't the first", size);
    mesh_page_free(kept);
    must(mesh_page_finish(kept) == MESH_PAGE_NOT_KEPT && mesh_page_insert(kept, origin, &vertex) == MESH_PAGE_NOT_KEPT, "free", "it is still kept", size);
    must(mesh_page_list_triangles(kept, NULL, 0, &needed) == MESH_PAGE_NOT_KEPT && needed == 0, "free", "it has triangles", size);
}

/* A triangulation that is kept, with memory of every size: what lacked is done once there is more. */
static void check_kept(void) {
    size_t size = 0;
    for (bool is_enough = false; !is_enough; size += 16) {
        must(size < ENOUGH, "kept", "no memory suffices", size);
        mesh_page_kept root = {NULL, false}, kept = {NULL, false};
        mesh_page_memory memory = {last(lent, size), size}, further = {last(more, ENOUGH), ENOUGH};
        uint32_t vertices[COUNT(POINTS)], status = mesh_page_lend(&root, memory);
        must(status == (root.is_open ? MESH_PAGE_DONE : MESH_PAGE_NO_MEMORY), "lend", "the status is wrong", size);
        if (!root.is_open)
            continue;
        status = mesh_page_delaunay(&root, &kept);
        if (status == MESH_PAGE_DONE)
            status = mesh_page_insert_all(&kept, POINTS, COUNT(POINTS), vertices, COUNT(vertices));
        is_enough = status == MESH_PAGE_DONE;
        must(is_enough || status == MESH_PAGE_NO_MEMORY || status == MESH_PAGE_UNFINISHED, "insert_all", "the status is wrong", size);
        must(mesh_page_lend(&root, further) == MESH_PAGE_DONE, "lend", "it isn't taken", size);
        must(kept.is_open || mesh_page_delaunay(&root, &kept) == MESH_PAGE_DONE, "delaunay", "it isn't made", size);
        must(mesh_page_finish(&kept) == MESH_PAGE_DONE, "finish", "it isn't whole", size);
        must(mesh_page_insert_all(&kept, POINTS, COUNT(POINTS), vertices, COUNT(vertices) - 1) == MESH_PAGE_SHORT, "insert_all", "the buffer isn't short", size);
        must(mesh_page_insert_all(&kept, POINTS, COUNT(POINTS), vertices, COUNT(vertices)) == MESH_PAGE_DONE, "insert_all", "it isn't done", size);
        check_triangles(&kept, vertices, size);
        check_removed(&kept, size);
        must(mesh_page_delaunay(&root, &kept) == MESH_PAGE_DONE, "delaunay", "its desk isn't used again", size);
    }
    printf("kept: with %zu bytes\n", size - 16);
}

/* A segment that is added, and is one of constraints then: here two, since a point is on it. */
static void check_segments(mesh_page_kept *kept, const uint32_t *vertices, size_t size) {
    uint32_t from = vertices[0], to = vertices[3], middle = vertices[4], left = vertices[1], right = vertices[2];
    mesh_page_ends found[2 * COUNT(POINTS)];
    uint64_t needed;
    bool told;
    must(mesh_page_can_add_constraint(kept, from, to, &told) == MESH_PAGE_DONE && told, "can_add_constraint", "it can't", size);
    must(mesh_page_add_constraint(kept, from, to) == MESH_PAGE_DONE, "add_constraint", "it isn't added", size);
    must(mesh_page_exists_constraint(kept, middle, from) && mesh_page_exists_constraint(kept, middle, to), "exists_constraint", "a part lacks", size);
    must(!mesh_page_exists_constraint(kept, from, to) && !mesh_page_exists_constraint(kept, from, UINT32_MAX), "exists_constraint", "there is one more", size);
    must(mesh_page_can_add_constraint(kept, left, right, &told) == MESH_PAGE_DONE && !told, "can_add_constraint", "it may cross", size);
    must(mesh_page_can_add_constraint(kept, left, UINT32_MAX, &told) == MESH_PAGE_DONE && !told, "can_add_constraint", "there is no such vertex", size);
    must(mesh_page_add_constraint(kept, left, right) == MESH_PAGE_CROSSES, "add_constraint", "it crosses", size);
    must(mesh_page_add_constraint(kept, left, UINT32_MAX) == MESH_PAGE_NO_SUCH_VERTEX, "add_constraint", "there is no such vertex", size);
    must(mesh_page_list_constraints(kept, found, 1, &needed) == MESH_PAGE_SHORT && needed == 2, "list_constraints", "the buffer isn't short", size);
    must(mesh_page_list_constraints(kept, found, 2, &needed) == MESH_PAGE_DONE && needed == 2, "list_constraints", "they aren't two", size);
    for (size_t i = 0; i < 2; i++)
        must(found[i].from == middle || found[i].to == middle, "list_constraints", "it is another one", i);
    must(mesh_page_remove_constraint(kept, from, to, &told) == MESH_PAGE_DONE && !told, "remove_constraint", "it was none", size);
    must(mesh_page_remove_constraint(kept, from, middle, &told) == MESH_PAGE_DONE && told, "remove_constraint", "it was one", size);
    must(!mesh_page_exists_constraint(kept, from, middle), "remove_constraint", "it is one still", size);
    must(mesh_page_remove_constraint(kept, to, middle, &told) == MESH_PAGE_DONE && told, "remove_constraint", "it was one", size);
    must(mesh_page_list_constraints(kept, found, 0, &needed) == MESH_PAGE_DONE && needed == 0, "list_constraints", "one is left", size);
}

/* What asks for constraints finds none in a Delaunay triangulation, nor on an empty desk. */
static void check_unconstrained(mesh_page_kept *kept, size_t size) {
    mesh_page_ends found[1];
    uint64_t needed = 9;
    bool told;
    must(mesh_page_can_add_constraint(kept, 0, 1, &told) == MESH_PAGE_NOT_KEPT, "can_add_constraint", "it can", size);
    must(mesh_page_add_constraint(kept, 0, 1) == MESH_PAGE_NOT_KEPT, "add_constraint", "it is added", size);
    must(mesh_page_remove_constraint(kept, 0, 1, &told) == MESH_PAGE_NOT_KEPT, "remove_constraint", "there is one", size);
    must(!mesh_page_exists_constraint(kept, 0, 1), "exists_constraint", "there is one", size);
    must(mesh_page_list_constraints(kept, found, 1, &needed) == MESH_PAGE_NOT_KEPT && needed == 0, "list_constraints", "there are some", size);
}

/* A constrained triangulation, with memory of every size, as `check_kept` has a Delaunay one. */
static void check_constrained(void) {
    size_t size = 0;
    for (bool is_enough = false; !is_enough; size += 16) {
        must(size < ENOUGH, "constrained", "no memory suffices", size);
        mesh_page_kept root = {NULL, false}, kept = {NULL, false};
        mesh_page_memory memory = {last(lent, size), size}, further = {last(more, ENOUGH), ENOUGH};
        uint32_t vertices[COUNT(POINTS)];
        if (mesh_page_lend(&root, memory) != MESH_PAGE_DONE)
            continue;
        uint32_t status = mesh_page_constrained(&root, &kept);
        if (status == MESH_PAGE_DONE)
            status = mesh_page_insert_all(&kept, POINTS, COUNT(POINTS), vertices, COUNT(vertices));
        if (status == MESH_PAGE_DONE)
            status = mesh_page_add_constraint(&kept, vertices[0], vertices[3]);
        is_enough = status == MESH_PAGE_DONE;
        must(is_enough || status == MESH_PAGE_NO_MEMORY || status == MESH_PAGE_UNFINISHED, "constrained", "the status is wrong", size);
        must(mesh_page_lend(&root, further) == MESH_PAGE_DONE, "lend", "it isn't taken", size);
        must(kept.is_open || mesh_page_constrained(&root, &kept) == MESH_PAGE_DONE, "constrained", "it isn't made", size);
        must(mesh_page_finish(&kept) == MESH_PAGE_DONE, "finish", "it isn't whole", size);
        must(mesh_page_insert_all(&kept, POINTS, COUNT(POINTS), vertices, COUNT(vertices)) == MESH_PAGE_DONE, "insert_all", "it isn't done", size);
        check_segments(&kept, vertices, size);
        check_triangles(&kept, vertices, size);
        check_removed(&kept, size);
        check_unconstrained(&kept, size);
        must(mesh_page_delaunay(&root, &kept) == MESH_PAGE_DONE, "delaunay", "its desk isn't used again", size);
        check_unconstrained(&kept, size);
        must(mesh_page_constrained(&root, &kept) == MESH_PAGE_DONE, "constrained", "it isn't made in place of another", size);
    }
    printf("constrained: with %zu bytes\n", size - 16);
}

/* Lines of all kinds; a removal is opened, looked at and closed. */
static const char *const TOLD[] = {"triangle 0 1 2", "append 3", "insert 3 1", "foo", "flip 99", "", "get 3", "isolate 3 1 3 5",
                                   "words", "append 4", "cleanup 3 4 5 / 2 3 1", "remove 3", "legalize 4 0 1 2", "counts"};
/* So many of them leave the removal open. */
#define OPENED 10

/* Has the mesh answer a line. Where memory lacks there is more: then the line is sent again, or only its
   reply lacks. Into a short buffer as much is put as fits, and the whole of it with the next call. */
static size_t reply_to(const char *line, mesh_page_kept *root, mesh_page_kept *kept, uint8_t *out, bool *is_enough, size_t size) {
    mesh_page_memory further = {last(more, ENOUGH), ENOUGH};
    const uint8_t *bytes = (const uint8_t *)line;
    uint8_t few[3] = {FILL, FILL, FILL};
    uint64_t needed = 9, again = 9;
    uint32_t status = mesh_page_answer(kept, bytes, strlen(line), few, 2, &needed);
    if (status == MESH_PAGE_NO_MEMORY || status == MESH_PAGE_UNFINISHED) {
        must(*is_enough && needed == 0 && is_filled(few, few + 3), "answer", "it has too little memory still, or tells something", size);
        *is_enough = false;
        must(mesh_page_lend(root, further) == MESH_PAGE_DONE, "lend", "it isn't taken", size);
        status = status == MESH_PAGE_NO_MEMORY ? mesh_page_answer(kept, bytes, strlen(line), few, 2, &needed)
                                               : mesh_page_last_reply(kept, few, 2, &needed);
    }
    must(status == MESH_PAGE_SHORT && needed > 2 && few[2] == FILL, "answer", "the buffer isn't short", size);
    uint8_t *all = last(buffer, (size_t)needed);
    must(mesh_page_last_reply(kept, all, (size_t)needed - 1, &again) == MESH_PAGE_SHORT && again == needed, "last_reply", "the buffer isn't short", size);
    must(mesh_page_last_reply(kept, all, (size_t)needed, &again) == MESH_PAGE_DONE && again == needed, "last_reply", "it isn't there", size);
    must(memcmp(all, few, 2) == 0 && all[needed - 1] == '\n', "last_reply", "it is another one", size);
    memcpy(out, all, (size_t)needed);
    return (size_t)needed;
}

/* The picture of the mesh is that of the first lines. */
static void check_drawn(mesh_page_kept *kept, const char *lines, size_t length, size_t size) {
    static uint8_t wanted[ROOM];
    mesh_page_memory memory = {last(lent, ENOUGH), ENOUGH};
    uint64_t needed = 9, count = 9;
    must(mesh_page_picture(memory, (const uint8_t *)lines, length, true, wanted, ROOM, &needed) == MESH_PAGE_DONE, "picture", "there is none", size);
    uint8_t *found = last(buffer, (size_t)needed);
    must(mesh_page_draw(kept, true, found, (size_t)needed - 1, &count) == MESH_PAGE_SHORT && count == needed, "draw", "the buffer isn't short", size);
    must(mesh_page_draw(kept, true, found, (size_t)needed, &count) == MESH_PAGE_DONE && count == needed, "draw", "there is none", size);
    must(memcmp(found, wanted, (size_t)needed) == 0, "draw", "it is another one", size);
}

/* A mesh is no triangulation, nor the other way round, and on an empty desk there is none. */
static void check_mesh_alone(mesh_page_kept *root, mesh_page_kept *kept, size_t size) {
    const mesh_page_point origin = {0, 0};
    uint8_t out[9];
    uint64_t needed = 9;
    uint32_t vertex;
    must(mesh_page_insert(kept, origin, &vertex) == MESH_PAGE_NOT_KEPT && mesh_page_finish(kept) == MESH_PAGE_NOT_KEPT, "insert", "a mesh has points", size);
    check_unconstrained(kept, size);
    for (int time = 0; time < 2; time++) {
        if (time == 0)
            must(mesh_page_delaunay(root, kept) == MESH_PAGE_DONE, "delaunay", "its desk isn't used again", size);
        else
            mesh_page_free(kept);
        must(mesh_page_answer(kept, out, 0, out, 9, &needed) == MESH_PAGE_NOT_KEPT && needed == 0, "answer", "there is a mesh", size);
        must(mesh_page_last_reply(kept, out, 9, &needed) == MESH_PAGE_NOT_KEPT && needed == 0, "last_reply", "there is a mesh", size);
        must(mesh_page_draw(kept, false, out, 9, &needed) == MESH_PAGE_NOT_KEPT && needed == 0, "draw", "there is a mesh", size);
    }
    must(mesh_page_mesh(root, kept) == MESH_PAGE_DONE, "mesh", "its desk isn't used again", size);
    must(mesh_page_last_reply(kept, out, 0, &needed) == MESH_PAGE_DONE && needed == 0, "last_reply", "there is one", size);
}

/* A mesh that is kept has the pictures of calls that keep nothing, while a removal is open and afterwards. */
static void check_pictures(const char *lines, size_t opened) {
    mesh_page_kept root = {NULL, false}, kept = {NULL, false};
    mesh_page_memory further = {last(more, ENOUGH), ENOUGH};
    static uint8_t found[ROOM];
    bool is_enough = true;
    must(mesh_page_lend(&root, further) == MESH_PAGE_DONE && mesh_page_mesh(&root, &kept) == MESH_PAGE_DONE, "mesh", "it isn't made", opened);
    for (size_t i = 0; i < COUNT(TOLD); i++) {
        reply_to(TOLD[i], &root, &kept, found, &is_enough, i);
        if (i + 1 == OPENED)
            check_drawn(&kept, lines, opened, i);
    }
    must(is_enough, "answer", "it lacks memory", opened);
    check_drawn(&kept, lines, strlen(lines), opened);
    check_mesh_alone(&root, &kept, opened);
}

/* A mesh that is kept, with memory of every size: it has the replies of a call that keeps
   nothing. */
static void check_mesh(void) {
    static uint8_t wanted[ROOM], found[ROOM];
    char lines[512] = "";
    size_t opened = 0, size = 0;
    for (size_t i = 0; i < COUNT(TOLD); i++) {
        strcat(strcat(lines, TOLD[i]), "\n");
        if (i + 1 == OPENED)
            opened = strlen(lines);
    }
    for (bool is_enough = false; !is_enough; size += 16) {
        must(size < ENOUGH, "mesh", "no memory suffices", size);
        mesh_page_kept root = {NULL, false}, kept = {NULL, false};
        mesh_page_memory memory = {last(lent, ENOUGH), ENOUGH}, little = {last(lent, size), size}, further = {last(more, ENOUGH), ENOUGH};
        uint64_t all = 9;
        must(mesh_page_replies(memory, (const uint8_t *)lines, strlen(lines), wanted, ROOM, &all) == MESH_PAGE_DONE, "replies", "there are none", size);
        if (mesh_page_lend(&root, little) != MESH_PAGE_DONE)
            continue;
        uint32_t status = mesh_page_mesh(&root, &kept);
        is_enough = status == MESH_PAGE_DONE;
        must(is_enough || status == MESH_PAGE_NO_MEMORY, "mesh", "the status is wrong", size);
        if (!is_enough)
            must(mesh_page_lend(&root, further) == MESH_PAGE_DONE && mesh_page_mesh(&root, &kept) == MESH_PAGE_DONE, "mesh", "it isn't made", size);
        size_t length = 0;
        for (size_t i = 0; i < COUNT(TOLD); i++)
            length += reply_to(TOLD[i], &root, &kept, found + length, &is_enough, size);
        must(length == all && memcmp(found, wanted, length) == 0, "answer", "the replies are other ones", size);
    }
    printf("mesh: with %zu bytes\n", size - 16);
    check_pictures(lines, opened);
}

int main(void) {
    lent = guard(ENOUGH);
    more = guard(ENOUGH);
    buffer = guard(ROOM);
    for (size_t i = 0; i < COUNT(EXPORTS); i++)
        check(&EXPORTS[i]);
    check_range();
    check_answers();
    check_kept();
    check_constrained();
    check_mesh();
    printf("%d checks\n", calls);
    return EXIT_SUCCESS;
}
