/* Preloaded to a program, these stand in for the C library's malloc, realloc and free, and for what
 * starts the program. Requests are counted, and refused, while the program's main runs, and at no
 * other time. */
#include "program.h"
#include "c_library.h"

#define EXPORTED __attribute__((visibility("default")))

typedef int entry(int count, char **words);
typedef int start(entry *main, int count, char **words, void (*init)(void), void (*fini)(void),
                  void (*loader_fini)(void), void *stack_end);

/* The C library's own malloc, realloc and free. */
void *__libc_malloc(size_t size);
void *__libc_realloc(void *from, size_t size);
void __libc_free(void *block);

static entry *program_main;
static long made, held, first_refused;
static int refuses_on, is_running;

struct ended run_main(int count, char **words, long refused, int on) {
    made = held = 0;
    first_refused = refused;
    refuses_on = on;
    is_running = 1;
    int status = program_main(count, words);
    is_running = 0;
    return (struct ended){status, made, held};
}

static int is_refused(void) {
    made += is_running;
    return is_running && first_refused > 0 &&
           (made == first_refused || (refuses_on && made > first_refused));
}

EXPORTED void *malloc(size_t size) {
    void *block = is_refused() ? 0 : __libc_malloc(size);
    held += is_running && block != 0;
    return block;
}

EXPORTED void *realloc(void *from, size_t size) {
    if (is_refused()) {
        return 0;
    }
    void *block = __libc_realloc(from, size);
    held += is_running && from == 0 && block != 0;
    return block;
}

EXPORTED void free(void *block) {
    held -= is_running && block != 0;
    __libc_free(block);
}

/* Starts the program as the C library does, with try_program in place of its main. */
EXPORTED int __libc_start_main(entry *main, int count, char **words, void (*init)(void),
                               void (*fini)(void), void (*loader_fini)(void), void *stack_end) {
    start *start_main = (start *)dlsym(RTLD_NEXT, "__libc_start_main");
    program_main = main;
    return start_main(try_program, count, words, init, fini, loader_fini, stack_end);
}
