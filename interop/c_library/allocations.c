#include "allocations.h"
#include <stddef.h>

void *__real_malloc(size_t size);
void *__real_realloc(void *from, size_t size);
void __real_free(void *from);

static long requests, held, refuses_at;
static int refuses_on, counts;

static int is_refused(void) {
    if (!counts) return 0;
    requests++;
    return refuses_at && (requests == refuses_at || (refuses_on && requests > refuses_at));
}

void *__wrap_malloc(size_t size) {
    void *block = is_refused() ? NULL : __real_malloc(size);
    held += counts && block;
    return block;
}

void *__wrap_realloc(void *from, size_t size) {
    if (is_refused()) return NULL;
    void *block = __real_realloc(from, size);
    held += counts && !from && block;
    return block;
}

void __wrap_free(void *block) {
    held -= counts && block;
    __real_free(block);
}

void begin_allocations(long at, int on) {
    requests = held = 0;
    refuses_at = at;
    refuses_on = on;
    counts = 1;
}

struct allocations end_allocations(void) {
    counts = 0;
    return (struct allocations){requests, held};
}
