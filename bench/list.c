/* list COMMAND FILE: the command's list over a record of full frames, made in FILE, beside three walks: over the program's own bytes, over the file's own pages, which this
   program has mapped already, and by a process that maps the file: processor time for a frame, user and system, the least of many rounds in turn. list FILE: that process. */
#define _DEFAULT_SOURCE
#include "spindlewren.h"

#include <fcntl.h>
#include <spawn.h>
#include <stdio.h>
#include <stdlib.h>
#include <string.h>
#include <sys/mman.h>
#include <sys/resource.h>
#include <sys/wait.h>
#include <time.h>

enum { SORTS = 4, ROUNDS = 20, FRAMES = 43690, FL = 1532, HEAD = 4 + 3 * 4 + 2 };

static const size_t len = (size_t)FRAMES * SPINDLEWREN_FRAME;

static void put_sum(uint8_t *bytes, size_t n) {
    unsigned r = 0xFFFF, bit;
    size_t i;
    for (i = 0; i < n; i++)
        for (r ^= (unsigned)bytes[i] << 8, bit = 0; bit < 8; bit++) r = (r << 1 ^ (r & 0x8000 ? 0x1021 : 0)) & 0xFFFF;
    bytes[n] = (uint8_t)(~r >> 8);
    bytes[n + 1] = (uint8_t)~r;
}

/* Three streams, STL 684, 80 and 0, and no FIC. */
static void full_frame(uint8_t *frame, unsigned n) {
    static const uint8_t start[] = {0xFF, 0x07, 0x3A, 0xB6, 0, 3, FL >> 8, FL & 0xFF, 0, 0, 2, 0xAC, 4, 0, 0, 80, 8, 0, 0, 0};
    size_t i;
    memset(frame, 0xFF, SPINDLEWREN_FRAME);
    memcpy(frame, start, sizeof start);
    for (i = 1; n % 2 == 1 && i < 4; i++) frame[i] ^= 0xFF;
    frame[4] = (uint8_t)(n % 250);
    memset(frame + 20, 0, 2);
    put_sum(frame + 4, HEAD);
    for (i = 24; i < 4 + (FL + 1) * 4; i++) frame[i] = (uint8_t)(31 * i + 7);
    put_sum(frame + 24, 4 + (FL + 1) * 4 - 24);
}

static double seconds(struct timeval t) {
    return (double)t.tv_sec + (double)t.tv_usec / 1e6;
}

static double spent(void) {
    struct timespec t;
    clock_gettime(CLOCK_PROCESS_CPUTIME_ID, &t);
    return (double)t.tv_sec + (double)t.tv_nsec / 1e9;
}

static size_t frames_of(const uint8_t *bytes, size_t n) {
    uint8_t walk[SPINDLEWREN_WALK];
    size_t frames = 0;
    spindlewren_begin(3, walk, sizeof walk);
    do {
        spindlewren_step(bytes, n, walk, sizeof walk);
        frames += walk[SPINDLEWREN_KIND] == SPINDLEWREN_IS_FRAME;
    } while (walk[SPINDLEWREN_KIND] != SPINDLEWREN_IS_DONE);
    return frames;
}

static double walked(const uint8_t *record) {
    double began = spent();
    if (frames_of(record, len) != FRAMES) exit(1);
    return spent() - began;
}

static const uint8_t *mapped(const char *name) {
    int file = open(name, O_RDONLY);
    void *bytes = file < 0 ? MAP_FAILED : mmap(NULL, len, PROT_READ, MAP_PRIVATE, file, 0);
    if (bytes == MAP_FAILED) exit(1);
    return bytes;
}

static double process(char **words) {
    struct rusage used;
    char *none[] = {NULL};
    posix_spawn_file_actions_t actions;
    int status;
    pid_t child;
    posix_spawn_file_actions_init(&actions);
    posix_spawn_file_actions_addopen(&actions, 1, "/dev/null", O_WRONLY, 0);
    /* not by fork, which would copy the tables of this program's own memory in the other's time */
    if (posix_spawn(&child, words[0], &actions, NULL, words, none) != 0 || wait4(child, &status, 0, &used) != child || status != 0) exit(1);
    posix_spawn_file_actions_destroy(&actions);
    return seconds(used.ru_utime) + seconds(used.ru_stime);
}

static uint8_t *made(const char *name) {
    uint8_t *record = malloc(len);
    FILE *file = fopen(name, "wb");
    unsigned n;
    if (file == NULL || record == NULL) exit(1);
    for (n = 0; n < 500; n++) full_frame(record + (size_t)n * SPINDLEWREN_FRAME, n);
    for (; n < FRAMES; n++) memcpy(record + (size_t)n * SPINDLEWREN_FRAME, record + (size_t)(n % 500) * SPINDLEWREN_FRAME, SPINDLEWREN_FRAME);
    if (fwrite(record, 1, len, file) != len || fclose(file) != 0) exit(1);
    return record;
}

int main(int argc, char **argv) {
    static const char *const what[SORTS] = {"the walk over bytes of the program's own", "the walk over the file's pages", "a process that maps the file and walks it", "list"};
    double least[SORTS] = {1e9, 1e9, 1e9, 1e9};
    const uint8_t *own, *pages;
    unsigned n;
    int i;
    if (argc == 2) return frames_of(mapped(argv[1]), len) != FRAMES;
    if (argc != 3) return 1;
    own = made(argv[2]);
    pages = mapped(argv[2]);
    for (n = 0; n < ROUNDS; n++) {
        char *alone[] = {argv[0], argv[2], NULL}, *list[] = {argv[1], "list", argv[2], NULL};
        double now[SORTS];
        now[0] = walked(own);
        now[1] = walked(pages);
        now[2] = process(alone);
        now[3] = process(list);
        for (i = 0; i < SORTS; i++)
            if (now[i] < least[i]) least[i] = now[i];
    }
    printf("ns of processor for a full frame, and list over it\n");
    for (i = 0; i < SORTS; i++) printf("  %-42s %4.0f  %.2f\n", what[i], 1e9 * least[i] / FRAMES, least[SORTS - 1] / least[i]);
    return 0;
}
