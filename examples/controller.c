/* Walks a record: a line for each frame, lost mark and idle period, the sub-channels of the first frame, and how many tests were put. */
#define _POSIX_C_SOURCE 200809L
#include "spindlewren.h"

#include <errno.h>
#include <fcntl.h>
#include <stdio.h>
#include <stdlib.h>
#include <string.h>
#include <sys/mman.h>
#include <sys/stat.h>
#include <unistd.h>

enum { BAD_USE = 2 };

struct record {
    const uint8_t *bytes;
    size_t len;
};

static void fail(const char *name, const char *why) {
    fprintf(stderr, "controller: %s: %s\n", name, why);
    exit(EXIT_FAILURE);
}

/* The whole file, mapped, so that its size does not matter. It may grow meanwhile, but must not be written over (docs/BOUNDARY.md). */
static struct record map(const char *name) {
    static const uint8_t none;
    struct record record = {&none, 0};
    struct stat about;
    void *bytes;
    /* without O_NONBLOCK a pipe would be waited for */
    int file = open(name, O_RDONLY | O_NONBLOCK);
    if (file < 0 || fstat(file, &about) != 0) fail(name, strerror(errno));
    if (!S_ISREG(about.st_mode)) fail(name, "not a regular file");
    if (about.st_size > 0) {
        bytes = mmap(NULL, (size_t)about.st_size, PROT_READ, MAP_PRIVATE, file, 0);
        if (bytes == MAP_FAILED) fail(name, strerror(errno));
        record.bytes = bytes;
        record.len = (size_t)about.st_size;
    }
    close(file);
    return record;
}

static void part_line(const char *what, const uint8_t *part) {
    unsigned start = (unsigned)spindlewren_number(part, SPINDLEWREN_START, 2);
    unsigned len = (unsigned)spindlewren_number(part, SPINDLEWREN_LEN, 2);
    printf("  %s: %u bytes from byte %u on\n", what, len, start);
}

static void sub_channels(const uint8_t *frame, uint64_t place) {
    uint8_t answer[SPINDLEWREN_ANSWER], part[SPINDLEWREN_PART], number;
    char what[96];
    size_t i;
    if (spindlewren_read(frame, SPINDLEWREN_FRAME, answer, sizeof answer) != 0) return;
    number = spindlewren_profile(frame, SPINDLEWREN_FRAME);
    printf("first frame, at %llu, sub-channels: %u, profile: %u %s\n", (unsigned long long)place, answer[SPINDLEWREN_NST], number,
           spindlewren_label(number));
    if (spindlewren_fic(frame, SPINDLEWREN_FRAME, part, sizeof part) == 0) part_line("FIC", part);
    for (i = 0; spindlewren_stream(frame, SPINDLEWREN_FRAME, i, part, sizeof part) == 0; i++) {
        const uint8_t *entry = answer + spindlewren_entry(i);
        snprintf(what, sizeof what, "SCID %u, SAD %u, TPL %u, STL %u", entry[SPINDLEWREN_SCID],
                 (unsigned)spindlewren_number(entry, SPINDLEWREN_SAD, 2), entry[SPINDLEWREN_TPL],
                 (unsigned)spindlewren_number(entry, SPINDLEWREN_STL, 2));
        part_line(what, part);
    }
}

/* Both main-stream sums beside a frame whose level they raised: it came with level 0 or 1, and they differ. */
static void sums(const uint8_t *frame, const uint8_t *answer) {
    unsigned sent = (unsigned)spindlewren_number(answer, SPINDLEWREN_SENT, 2);
    unsigned worked = (unsigned)spindlewren_number(answer, SPINDLEWREN_WORKED, 2);
    if (sent != worked && (frame[0] == 0xFF || frame[0] == 0xF0)) printf(" sum %04X, worked out %04X", sent, worked);
}

static void item_line(struct record record, const uint8_t *walk) {
    uint8_t answer[SPINDLEWREN_ANSWER];
    uint64_t place = spindlewren_number(walk, SPINDLEWREN_ITEM, 8);
    uint8_t number = walk[SPINDLEWREN_NUMBER];
    if (walk[SPINDLEWREN_KIND] == SPINDLEWREN_IS_DONE)
        printf("end %llu\n", (unsigned long long)place);
    else if (walk[SPINDLEWREN_KIND] == SPINDLEWREN_IS_LOST)
        printf("%llu lost %u - %s\n", (unsigned long long)place, number, spindlewren_label(number));
    else if (walk[SPINDLEWREN_KIND] == SPINDLEWREN_IS_IDLE)
        printf("%llu idle %u -\n", (unsigned long long)place, number);
    else if (spindlewren_read(record.bytes + place, SPINDLEWREN_FRAME, answer, sizeof answer) == 0) {
        printf("%llu frame %u %u", (unsigned long long)place, answer[SPINDLEWREN_FCT], answer[SPINDLEWREN_LEVEL]);
        sums(record.bytes + place, answer);
        putchar('\n');
    }
}

/* The walk at its beginning; false where the words are not 'RECORD' or '--limit M RECORD'. */
static int begun(int argc, char **argv, uint8_t *walk) {
    unsigned long limit = 3;
    char *end = "";
    uint8_t refusal;
    if (argc == 4 && strcmp(argv[1], "--limit") == 0 && argv[2][0] >= '0' && argv[2][0] <= '9')
        limit = strtoul(argv[2], &end, 10);
    else if (argc != 2)
        return 0;
    if (*end != '\0') return 0;
    refusal = spindlewren_begin(limit, walk, SPINDLEWREN_WALK);
    if (refusal != 0) fail(argv[2], spindlewren_label(refusal));
    return 1;
}

/* How many times the whole walk put the acceptance test to a place. */
static void closing_line(struct record record, size_t limit) {
    uint8_t answer[SPINDLEWREN_LOOKS];
    if (spindlewren_looks(record.bytes, record.len, limit, answer, sizeof answer) == 0)
        printf("tests put to places: %llu\n", (unsigned long long)spindlewren_number(answer, 0, sizeof answer));
}

int main(int argc, char **argv) {
    uint8_t walk[SPINDLEWREN_WALK];
    const uint8_t *first = NULL;
    uint64_t first_place = 0;
    struct record record;
    if (!begun(argc, argv, walk)) {
        fprintf(stderr, "usage: controller [--limit M] RECORD\n");
        return BAD_USE;
    }
    record = map(argv[argc - 1]);
    puts("place kind code level");
    do {
        uint8_t refusal = spindlewren_step(record.bytes, record.len, walk, sizeof walk);
        if (refusal != 0) fail(argv[argc - 1], spindlewren_label(refusal));
        item_line(record, walk);
        if (first == NULL && walk[SPINDLEWREN_KIND] == SPINDLEWREN_IS_FRAME) {
            first_place = spindlewren_number(walk, SPINDLEWREN_ITEM, 8);
            first = record.bytes + first_place;
        }
    } while (walk[SPINDLEWREN_KIND] != SPINDLEWREN_IS_DONE);
    if (first != NULL) sub_channels(first, first_place);
    closing_line(record, walk[SPINDLEWREN_LIMIT]);
    if (ferror(stdout) || fflush(stdout) != 0) fail("standard output", strerror(errno));
    return EXIT_SUCCESS;
}
