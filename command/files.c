/* Files, mapped, and standard input as a whole. */
#define _POSIX_C_SOURCE 200809L
#include "command.h"

#include <errno.h>
#include <fcntl.h>
#include <signal.h>
#include <stdio.h>
#include <stdlib.h>
#include <string.h>
#include <sys/mman.h>
#include <sys/stat.h>
#include <unistd.h>

int is_line(const char *file) {
    return strcmp(file, "-") == 0;
}

const char *called(const char *file) {
    return is_line(file) ? "standard input" : file;
}

/* All of standard input; the same again where it is asked for twice. */
static struct record taken(void) {
    static uint8_t *bytes;
    static size_t len, room;
    static int ended;
    struct record all;
    ssize_t n;
    while (!ended) {
        if (len == room) {
            room = room == 0 ? 1 << 16 : 2 * room;
            bytes = realloc(bytes, room);
            if (bytes == NULL) fail("-", strerror(errno));
        }
        n = read(STDIN_FILENO, bytes + len, room - len);
        if (n < 0 && errno != EINTR) fail("-", strerror(errno));
        if (n > 0) len += (size_t)n;
        ended = n == 0;
    }
    all.bytes = bytes;
    all.len = len;
    return all;
}

/* A mapped file whose bytes are gone, or cannot be read, shows itself by a signal. */
static char loss[4352];

static void gone(int signal_number) {
    ssize_t told;
    (void)signal_number;
    progress_wipe();
    told = write(STDERR_FILENO, loss, strlen(loss));
    (void)told;
    _exit(COULD_NOT);
}

struct record map(const char *name) {
    static const uint8_t none;
    struct record record = {&none, 0};
    struct stat about;
    void *bytes;
    int file;
    if (is_line(name)) return taken();
    /* without O_NONBLOCK a pipe would be waited for */
    file = open(name, O_RDONLY | O_NONBLOCK);
    if (file < 0 || fstat(file, &about) != 0) fail(name, strerror(errno));
    if (S_ISDIR(about.st_mode)) fail(name, strerror(EISDIR));
    if (!S_ISREG(about.st_mode)) fail(name, "not a regular file (a pipe is read as standard input, FILE -)");
    if ((uintmax_t)about.st_size > SIZE_MAX) fail(name, "too large for this machine");
    if (about.st_size > 0) {
        bytes = mmap(NULL, (size_t)about.st_size, PROT_READ, MAP_PRIVATE, file, 0);
        if (bytes == MAP_FAILED) fail(name, strerror(errno));
        record.bytes = bytes;
        record.len = (size_t)about.st_size;
        snprintf(loss, sizeof loss, "spindlewren: %s: cut short meanwhile, or it cannot be read\n", name);
        signal(SIGBUS, gone);
    }
    close(file);
    return record;
}
