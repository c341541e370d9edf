/* Runs each command of a program, krbtool or jolmurig, a process a run, with its allocations
 * failing, each in turn: that one alone, and that one with all after it. Each is run over a
 * standard error that fails, too, and a command that succeeds over the other devices. Prints a
 * line a command: its first words, how many requests it makes, and in how many runs it was run.
 * Ends with status 1 at the first run that holds a block when it ends, takes of an input that is
 * not read, or gives neither what its row says nor, after an error or over a device that failed,
 * the line that reports that alone. */
#include "c_library.h"
#include COMMANDS
#include "octets.h"
#include "program.h"

/* Where a process reports its allocations: after its three streams. */
enum { COUNTS = 3 };

/* The status of a process that could not run the command, what stands for a device that is closed,
 * and the room for the path of this object. */
enum { NOT_RUN = 99, CLOSED = -1, PATH = 4096 };

/* What a process is given in place of its three streams. */
struct devices {
    const char *name;
    int streams[3];
};

struct answer {
    int status;
    struct octets output, lines;
    long requests, held;
    /* How many octets of its input were taken. */
    long taken;
};

/* The files of the streams, where no device fails, that of the allocations' report, and the one
 * that arguments name. */
static int files[3], counts_file, named_file;

/* Runs the command of these arguments, as the allocation of the environment's number fails, and
 * reports its allocations. */
static int run_here(int count, char **words, const char *refused) {
    long number;
    int on;
    if (sscanf(refused, "%ld %d", &number, &on) != 2) {
        return NOT_RUN;
    }
    struct ended it = run_main(count, words, number, on);
    long counts[] = {it.requests, it.held};
    return pwrite(COUNTS, counts, sizeof counts, 0) == sizeof counts ? it.status : NOT_RUN;
}

/* Turns this process to one that runs the command. */
static void become(const struct command *command, const struct devices *devices, long refused,
                   int on) {
    char variable[64], preloaded[PATH], *environment[] = {variable, preloaded, 0};
    char *words[WORDS + 2] = {PROGRAM};
    for (int i = 0; i < WORDS && command->words[i]; i++) {
        words[1 + i] = (char *)command->words[i];
    }
    snprintf(variable, sizeof variable, "REFUSED=%ld %d", refused, on);
    snprintf(preloaded, sizeof preloaded, "LD_PRELOAD=%s", getenv("LD_PRELOAD"));
    if (dup2(counts_file, COUNTS) < 0 || dup2(named_file, NAMED) < 0) {
        _exit(NOT_RUN);
    }
    for (int i = 0; i < 3; i++) {
        if (devices->streams[i] == CLOSED) {
            close(i);
        } else if (dup2(devices->streams[i], i) < 0) {
            _exit(NOT_RUN);
        }
    }
    execve("/proc/self/exe", words, environment);
    _exit(NOT_RUN);
}

static struct answer run(const struct command *command, const struct devices *devices, long refused,
                         int on) {
    static const struct octets none;
    struct octets input = octets_of(command->input);
    struct octets file = octets_of(command->file ? command->file : "");
    struct answer answer;
    long counts[2] = {-1, -1};
    hold(files[0], &input);
    hold(files[1], &none);
    hold(files[2], &none);
    hold(counts_file, &none);
    hold(named_file, &file);
    int process = fork(), status;
    if (process == 0) {
        become(command, devices, refused, on);
    }
    if (process < 0 || waitpid(process, &status, 0) != process) {
        die("a command cannot be run");
    }
    if (pread(counts_file, counts, sizeof counts, 0) != sizeof counts) {
        die("a command told nothing of its requests");
    }
    answer.status = status & 0x7f ? NOT_RUN : status >> 8;
    answer.output = octets_in(files[1]);
    answer.lines = octets_in(files[2]);
    answer.requests = counts[0];
    answer.held = counts[1];
    answer.taken = lseek(files[0], 0, SEEK_CUR);
    return answer;
}

/* Whether a command's result is this one: the status, the lines, and the digits of the output; and
 * nothing is taken of an input that is not read. */
static int is_answer(const struct command *command, const struct answer *it, int status,
                     const char *lines, const char *output) {
    struct octets wanted = octets_of(output);
    return it->status == status && it->held == 0 && (command->reads || it->taken == 0) &&
           are_equal(&it->output, &wanted) && it->lines.count == strlen(lines) &&
           memcmp(it->lines.at, lines, it->lines.count) == 0;
}

static int is_as_told(const struct command *command, const struct answer *it) {
    return is_answer(command, it, command->status, command->lines, command->output);
}

/* A command's word of this place, or nothing: its second is its encryption type where it has
 * one. */
static const char *word(const struct command *command, int place) {
    return command->words[place] ? command->words[place] : "";
}

static void fail(const struct command *command, const char *when, long refused,
                 const struct answer *it) {
    fprintf(stderr,
            "refusals: " PROGRAM " %s %s: %s (%ld): status %d, %ld octets taken, %zu octets, "
            "%ld blocks held, %.*s\n",
            word(command, 0), word(command, 1), when, refused, it->status, it->taken,
            it->output.count, it->held, (int)it->lines.count, (const char *)it->lines.at);
    exit(1);
}

static int is_word(const char *one, const char *other) {
    return strlen(one) == strlen(other) && memcmp(one, other, strlen(one)) == 0;
}

/* The status of a failure that is no answer: `accept` has 1 for a client that is not let in; its
 * help is help. */
static int failure_status(const struct command *command) {
    for (int place = 0; place < WORDS && command->words[place]; place++) {
        if (is_word(command->words[place], "--help")) {
            return 1;
        }
    }
    return is_word(word(command, 0), "accept") ? 2 : 1;
}

/* Makes each allocation fail in turn, until a run meets none, and returns how many runs that
 * took. */
static long refuse_each(const struct command *command, const struct devices *devices, int on) {
    for (long refused = 1;; refused++) {
        struct answer it = run(command, devices, refused, on);
        int is_met = it.requests >= refused;
        /* The line of an error may be what could not be made. */
        int is_reported =
            is_answer(command, &it, 1, MEMORY_LINE, "") ||
            is_answer(command, &it, failure_status(command), MEMORY_LINE, "") ||
            (command->status != 0 && is_answer(command, &it, command->status, MEMORY_LINE, ""));
        if (!is_as_told(command, &it) && !(is_met && is_reported)) {
            fail(command, on ? "this request refused and each after it" : "this request refused",
                 refused, &it);
        }
        if (!is_met) {
            return refused;
        }
    }
}

/* Runs a command that succeeds over a device that fails. */
static void try_device(const struct command *command, const struct devices *devices,
                       const char *line) {
    struct answer it = run(command, devices, 0, 0);
    if (!is_answer(command, &it, failure_status(command), line, "")) {
        fail(command, devices->name, 0, &it);
    }
}

/* Runs a command that does not read its input over one that fails: its result stays. */
static void try_unread(const struct command *command, const struct devices *devices) {
    struct answer it = run(command, devices, 0, 0);
    if (!is_as_told(command, &it)) {
        fail(command, devices->name, 0, &it);
    }
}

static int device(const char *path, int flags) {
    int opened = open(path, flags);
    if (opened < 0) {
        die("a device cannot be opened");
    }
    return opened;
}

/* Runs a command over each device that fails, and returns how many runs that took. */
static long try_devices(const struct command *command) {
    int ends[2];
    if (pipe(ends) || close(ends[0])) {
        die("no pipe");
    }
    int directory = device("/", O_RDONLY), full = device("/dev/full", O_WRONLY);
    struct devices unread[] = {
        {"an input that is closed", {CLOSED, files[1], files[2]}},
        {"an input that is a directory", {directory, files[1], files[2]}},
    };
    struct devices unwritten[] = {
        {"an output that is closed", {files[0], CLOSED, files[2]}},
        {"an output that is full", {files[0], full, files[2]}},
        {"an output that nobody reads", {files[0], ends[1], files[2]}},
    };
    long reads = sizeof unread / sizeof *unread;
    for (long i = 0; i < reads; i++) {
        if (command->reads) {
            try_device(command, &unread[i], READ_LINE);
        } else {
            try_unread(command, &unread[i]);
        }
    }
    long writes = sizeof unwritten / sizeof *unwritten;
    for (long i = 0; i < writes; i++) {
        try_device(command, &unwritten[i], WRITE_LINE);
    }
    long runs = reads + writes;
    close(directory);
    close(full);
    close(ends[1]);
    return runs;
}

/* Runs a command over each standard error that fails, and returns how many runs that took: where
 * its lines cannot be written, its status and its output stay. */
static long try_without_lines(const struct command *command) {
    int ends[2];
    if (pipe(ends) || close(ends[0])) {
        die("no pipe");
    }
    int full = device("/dev/full", O_WRONLY);
    struct devices unwritten[] = {
        {"a standard error that is closed", {files[0], files[1], CLOSED}},
        {"a standard error that is full", {files[0], files[1], full}},
        {"a standard error that nobody reads", {files[0], files[1], ends[1]}},
    };
    long runs = sizeof unwritten / sizeof *unwritten;
    for (long i = 0; i < runs; i++) {
        struct answer it = run(command, &unwritten[i], 0, 0);
        if (!is_answer(command, &it, command->status, "", command->output)) {
            fail(command, unwritten[i].name, 0, &it);
        }
    }
    close(full);
    close(ends[1]);
    return runs;
}

/* Returns how many requests the command makes. */
static long try_command(const struct command *command) {
    struct devices devices = {"files", {files[0], files[1], files[2]}};
    struct answer undisturbed = run(command, &devices, 0, 0);
    if (!is_as_told(command, &undisturbed)) {
        fail(command, "undisturbed", 0, &undisturbed);
    }
    long runs = 1 + refuse_each(command, &devices, 0) + refuse_each(command, &devices, 1) +
                try_without_lines(command);
    if (command->status == 0) {
        runs += try_devices(command);
    }
    printf(PROGRAM " %s %s\t%ld\t%ld\n", word(command, 0), word(command, 1),
           undisturbed.requests, runs);
    return undisturbed.requests;
}

static int file(void) {
    FILE *made = tmpfile();
    if (!made) {
        die("no file for a command's streams");
    }
    return fileno(made);
}

int try_program(int count, char **words) {
    const char *refused = getenv("REFUSED");
    if (refused) {
        return run_here(count, words, refused);
    }
    /* The first, so that no other has the places of these in a process. */
    counts_file = file();
    named_file = file();
    for (int i = 0; i < 3; i++) {
        files[i] = file();
    }
    int passed = sizeof commands / sizeof *commands;
    long requests = 0;
    for (int i = 0; i < passed; i++) {
        requests += try_command(&commands[i]);
    }
    if (requests == 0) {
        die("none of the requests of " PROGRAM " is seen");
    }
    printf("%d commands passed\n", passed);
    return 0;
}
