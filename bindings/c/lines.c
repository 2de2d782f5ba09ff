/* Talks with a mesh by lines: a triangle, a vertex in it, a line that is refused, and one that is
   none. */
#include "dcel.h"

#include <inttypes.h>
#include <stdio.h>
#include <stdlib.h>

static const char LINES[] = "triangle 7 8 9\nappend 10\ninsert 3 1\nflip 9\nfoo\nout 3\n";
static const size_t LENGTH = sizeof LINES - 1;

/* Returns the replies, how many bytes they are, and NULL if there was no memory. */
static uint8_t *replies_to(const char *lines, size_t length, uint64_t *needed) {
    uint8_t first[16];
    uint32_t status = dcel_replies((const uint8_t *)lines, length, first, sizeof first, needed);
    printf("a buffer of %zu bytes: status %" PRIu32 ", %" PRIu64 " needed\n", sizeof first, status,
           *needed);
    if (status == DCEL_OUT_OF_MEMORY)
        return NULL;
    size_t room = (size_t)*needed + 1; /* never 0 bytes */
    uint8_t *replies = (uint8_t *)malloc(room);
    if (replies == NULL)
        return NULL;
    status = dcel_replies((const uint8_t *)lines, length, replies, room, needed);
    printf("a buffer of %zu bytes: status %" PRIu32 "\n", room, status);
    if (status != DCEL_DONE) {
        free(replies);
        return NULL;
    }
    return replies;
}

int main(void) {
    uint64_t needed;
    uint8_t *replies = replies_to(LINES, LENGTH, &needed);
    if (replies == NULL)
        return EXIT_FAILURE;
    fwrite(replies, 1, (size_t)needed, stdout);
    free(replies);
    return EXIT_SUCCESS;
}
