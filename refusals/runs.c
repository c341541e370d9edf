#include "runs.h"
#include "program.h"

/* The status with which a program ends where an allocation fails. */
enum { OUT_OF_MEMORY = 1 };

static FILE *report, *complaints;
static int passed;
static long requests;

void start_runs(void) {
    FILE *input = tmpfile(), *output = tmpfile();
    report = fdopen(dup(STDOUT_FILENO), "w");
    complaints = fdopen(dup(STDERR_FILENO), "w");
    int nowhere = open("/dev/null", O_WRONLY);
    if (!input || !output || !report || !complaints || dup2(fileno(input), STDIN_FILENO) < 0 ||
        dup2(fileno(output), STDOUT_FILENO) < 0 || dup2(nowhere, STDERR_FILENO) < 0) {
        die("no files for the program's streams");
    }
}

void fail(const char *name, const char *why) {
    fprintf(complaints, "refusals: %s: %s\n", name, why);
    fclose(complaints);
    exit(1);
}

static struct answer run(long refused, int on) {
    static char name[] = "refusals", *words[] = {name, 0};
    struct answer answer;
    if (lseek(STDIN_FILENO, 0, SEEK_SET) || lseek(STDOUT_FILENO, 0, SEEK_SET) ||
        ftruncate(STDOUT_FILENO, 0)) {
        fail("a run", "a file cannot be rewound");
    }
    struct ended it = run_main(1, words, refused, on);
    answer.status = it.status;
    answer.requests = it.requests;
    answer.held = it.held;
    answer.octets = octets_in(STDOUT_FILENO);
    return answer;
}

/* Whether a run with failing allocations ended well: as the undisturbed one, or as a failed
 * allocation with nothing written. */
static int is_well(const struct answer *it, const struct answer *undisturbed) {
    int is_wanting = it->status == OUT_OF_MEMORY && it->octets.count == 0 && it->requests > 0;
    int is_same = it->status == undisturbed->status &&
                  are_equal(&it->octets, &undisturbed->octets);
    return it->held == 0 && (is_wanting || is_same);
}

/* Makes each allocation fail in turn, until a run meets none, and returns how many runs that
 * took. */
static long refuse_each(const char *name, const struct answer *undisturbed, int on) {
    for (long refused = 1;; refused++) {
        struct answer it = run(refused, on);
        if (!is_well(&it, undisturbed)) {
            fprintf(complaints,
                    "refusals: request %ld refused%s: status %d, %zu octets, %ld blocks held\n",
                    refused, on ? " and each after it" : "", it.status, it.octets.count, it.held);
            fail(name, "a refused request");
        }
        if (it.requests < refused) {
            return refused;
        }
    }
}

struct answer try_runs(const char *name, const struct octets *octets, int status) {
    hold(STDIN_FILENO, octets);
    struct answer undisturbed = run(0, 0);
    if (undisturbed.status != status || undisturbed.held != 0) {
        fprintf(complaints, "refusals: status %d, %ld blocks held\n", undisturbed.status,
                undisturbed.held);
        fail(name, "the undisturbed run");
    }
    long runs = 1 + refuse_each(name, &undisturbed, 0) + refuse_each(name, &undisturbed, 1);
    fprintf(report, "%s\t%ld\t%ld\n", name, undisturbed.requests, runs);
    passed++;
    requests += undisturbed.requests;
    return undisturbed;
}

void end_runs(void) {
    if (requests == 0) {
        fail("the program", "none of its requests is seen");
    }
    fprintf(report, "%d passed, 0 failed\n", passed);
    fclose(report);
}
