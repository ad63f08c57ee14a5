/* Follows a live line: bytes from standard input as they come, and a line for each item at once. One buffer of fixed size, no heap. */
#define _POSIX_C_SOURCE 200809L
#include "spindlewren.h"

#include <errno.h>
#include <stdio.h>
#include <stdlib.h>
#include <string.h>
#include <unistd.h>

/* Where more bytes are wanted fewer than KEPT are kept, so there is always room for a piece. */
enum { KEPT = 2 * SPINDLEWREN_FRAME, PIECE = 4096, BAD_USE = 2 };

static struct {
    uint8_t bytes[KEPT + PIECE];
    size_t begin, end; /* the window: the line's bytes from the walk's place on */
    uint8_t more;      /* 0 once the line has ended */
    uint8_t walk[SPINDLEWREN_WALK];
} line = {{0}, 0, 0, 1, {0}};

static void fail(const char *why) {
    fprintf(stderr, "live: %s\n", why);
    exit(EXIT_FAILURE);
}

/* The next piece behind what is kept; none means that the line has ended. */
static void take_piece(void) {
    ssize_t n;
    memmove(line.bytes, line.bytes + line.begin, line.end - line.begin);
    line.end -= line.begin;
    line.begin = 0;
    do n = read(STDIN_FILENO, line.bytes + line.end, sizeof line.bytes - line.end);
    while (n < 0 && errno == EINTR);
    if (n < 0) fail(strerror(errno));
    if (n == 0) line.more = 0;
    line.end += (size_t)n;
}

/* Written at once, not when a buffer is full. */
static void say(const char *text) {
    size_t len = strlen(text);
    while (len > 0) {
        ssize_t n = write(STDOUT_FILENO, text, len);
        if (n < 0 && errno == EINTR) continue;
        if (n <= 0) fail(strerror(errno));
        text += n;
        len -= (size_t)n;
    }
}

/* `item` is where the item's bytes are. */
static void item_line(const uint8_t *item) {
    uint8_t answer[SPINDLEWREN_ANSWER];
    char text[64];
    unsigned long long place = spindlewren_number(line.walk, SPINDLEWREN_ITEM, 8);
    unsigned number = line.walk[SPINDLEWREN_NUMBER];
    switch (line.walk[SPINDLEWREN_KIND]) {
    case SPINDLEWREN_IS_LOST: snprintf(text, sizeof text, "%llu lost %u -\n", place, number); break;
    case SPINDLEWREN_IS_IDLE: snprintf(text, sizeof text, "%llu idle %u -\n", place, number); break;
    case SPINDLEWREN_IS_DONE: snprintf(text, sizeof text, "end %llu\n", place); break;
    default:
        /* a frame that is told is accepted */
        spindlewren_read(item, SPINDLEWREN_FRAME, answer, sizeof answer);
        snprintf(text, sizeof text, "%llu frame %u %u\n", place, answer[SPINDLEWREN_FCT], answer[SPINDLEWREN_LEVEL]);
    }
    say(text);
}

/* One step: what it tells, and where the next window begins. */
static void step(void) {
    uint64_t from = spindlewren_number(line.walk, SPINDLEWREN_PLACE, 8);
    const uint8_t *window = line.bytes + line.begin;
    uint8_t refusal = spindlewren_live(window, line.end - line.begin, line.more, line.walk, sizeof line.walk);
    if (refusal != 0) fail(spindlewren_label(refusal));
    if (line.walk[SPINDLEWREN_KIND] != SPINDLEWREN_IS_MORE) item_line(window + (spindlewren_number(line.walk, SPINDLEWREN_ITEM, 8) - from));
    line.begin += (size_t)(spindlewren_number(line.walk, SPINDLEWREN_PLACE, 8) - from);
    if (line.walk[SPINDLEWREN_KIND] == SPINDLEWREN_IS_MORE) take_piece();
}

int main(int argc, char **argv) {
    size_t limit = 3;
    uint8_t refusal;
    char *end;
    if (argc == 3 && strcmp(argv[1], "--limit") == 0 && argv[2][0] >= '0' && argv[2][0] <= '9') {
        limit = strtoul(argv[2], &end, 10);
        if (*end != '\0') argc = 0;
    } else if (argc != 1) {
        argc = 0;
    }
    if (argc == 0) {
        fprintf(stderr, "usage: live [--limit M] <LINE\n");
        return BAD_USE;
    }
    refusal = spindlewren_begin(limit, line.walk, sizeof line.walk);
    if (refusal != 0) fail(spindlewren_label(refusal));
    say("place kind code level\n");
    do step();
    while (line.walk[SPINDLEWREN_KIND] != SPINDLEWREN_IS_DONE);
    return EXIT_SUCCESS;
}
