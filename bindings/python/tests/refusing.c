/* A malloc and a realloc that meet no request once `dcel_requests_left` were met; all, if it is below 0.
   Link with -Wl,--wrap=malloc,--wrap=realloc. */
#include <stdbool.h>
#include <stddef.h>

long dcel_requests_left = -1;

void *__real_malloc(size_t size);
void *__real_realloc(void *block, size_t size);

static bool is_refused(void) {
    if (dcel_requests_left < 0)
        return false;
    if (dcel_requests_left == 0)
        return true;
    dcel_requests_left--;
    return false;
}

void *__wrap_malloc(size_t size) { return is_refused() ? NULL : __real_malloc(size); }
void *__wrap_realloc(void *block, size_t size) { return is_refused() ? NULL : __real_realloc(block, size); }
