/* Preloaded to a program: standard input (0), output (1) and error (2) as devices of which each call
 * moves few octets, and one call fails or is interrupted. DEVICES has four numbers: how many octets a
 * call moves at most, the device and the number of the call that fails, from 1 (0: none does), and its
 * errno. As the program ends, the numbers of calls of each device go to the file descriptor
 * DEVICES_TOLD. */
#define _GNU_SOURCE
#include <errno.h>
#include <stdio.h>
#include <stdlib.h>
#include <sys/syscall.h>
#include <unistd.h>

static size_t most;
static int failing, code, told = -1;
static long number, calls[3];

__attribute__((constructor)) static void begin(void) {
    const char *devices = getenv("DEVICES"), *to = getenv("DEVICES_TOLD");
    if (!devices || sscanf(devices, "%zu %d %ld %d", &most, &failing, &number, &code) != 4) most = 0;
    if (to) told = atoi(to);
}

__attribute__((destructor)) static void end(void) {
    char line[80];
    int size = snprintf(line, sizeof line, "%ld %ld %ld", calls[0], calls[1], calls[2]);
    if (told > 2) syscall(SYS_write, told, line, (size_t)size);
}

/* Moves octets of a device, or of any other file, by this call of the system. */
static ssize_t move(long call, int file, void *octets, size_t count) {
    if (file >= 0 && file <= 2 && most) {
        if (++calls[file] == number && file == failing) {
            errno = code;
            return -1;
        }
        if (count > most) count = most;
    }
    return syscall(call, file, octets, count);
}

ssize_t read(int file, void *octets, size_t count) { return move(SYS_read, file, octets, count); }

ssize_t write(int file, const void *octets, size_t count) {
    return move(SYS_write, file, (void *)octets, count);
}
