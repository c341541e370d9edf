/* The allocator of the shared object that tests/run asks: it counts requests and blocks, and
 * refuses. The linker puts it before that of the C library (--wrap), for this object alone. */

typedef unsigned long size_t;

void *__real_malloc(size_t size);
void *__real_realloc(void *block, size_t size);
void __real_free(void *block);

static long requests, held, first, are_more;

/* Refuses the request of this number, the first being 1, and, where asked for, all after it; none
 * of 0. Begins to count anew. */
void tests_refuse(long number, long all) {
    requests = held = 0;
    first = number;
    are_more = all;
}

/* How many requests there were. */
long tests_requests(void) { return requests; }

/* How many blocks were taken and are not given back. */
long tests_held(void) { return held; }

static int is_refused(void) {
    requests++;
    return first > 0 && (requests == first || (are_more && requests > first));
}

void *__wrap_malloc(size_t size) {
    void *block = is_refused() ? 0 : __real_malloc(size);
    held += block != 0;
    return block;
}

void *__wrap_realloc(void *from, size_t size) {
    void *block = is_refused() ? 0 : __real_realloc(from, size);
    held += from == 0 && block != 0;
    return block;
}

void __wrap_free(void *block) {
    held -= block != 0;
    __real_free(block);
}
