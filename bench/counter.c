/* Counts the allocations of what is linked with it: the linker turns malloc, realloc and free to
 * these
 * (--wrap), and the C library's own calls stay as they are. */
#include "counter.h"
#include <malloc.h>

void *__real_malloc(size_t size);
void *__real_realloc(void *from, size_t size);
void __real_free(void *from);

static struct counted counted;
static long live;

static void change(long by) {
    live += by;
    if (live > counted.peak) {
        counted.peak = live;
    }
}

static long size_at(void *at) { return at ? (long)malloc_usable_size(at) : 0; }

void *__wrap_malloc(size_t size) {
    void *made = __real_malloc(size);
    counted.requests++;
    change(size_at(made));
    return made;
}

void *__wrap_realloc(void *from, size_t size) {
    long before = size_at(from);
    void *made = __real_realloc(from, size);
    counted.requests++;
    if (made) {
        change(size_at(made) - before);
    }
    return made;
}

void __wrap_free(void *from) {
    change(-size_at(from));
    __real_free(from);
}

void start_counting(void) {
    counted = (struct counted){0, 0};
    live = 0;
}

struct counted stop_counting(void) {
    return counted;
}
