/* Standard input as a live line: any length, one buffer. */
#define _POSIX_C_SOURCE 200809L
#include "command.h"

#include <errno.h>
#include <stdio.h>
#include <string.h>
#include <unistd.h>

/* Where more bytes are wanted, fewer than KEPT are kept. */
enum { KEPT = 2 * SPINDLEWREN_FRAME, PIECE = 65536 };

struct line {
    uint8_t bytes[KEPT + PIECE];
    size_t begin, end; /* the window: the line's bytes from the walk's place on */
    uint8_t more;
};

/* The next piece behind what is kept. What was told is written out first: the piece may be long in coming. */
static void take_piece(struct line *line, uint64_t place) {
    ssize_t n;
    fflush(stdout);
    heed(place);
    memmove(line->bytes, line->bytes + line->begin, line->end - line->begin);
    line->end -= line->begin;
    line->begin = 0;
    do n = read(STDIN_FILENO, line->bytes + line->end, sizeof line->bytes - line->end);
    while (n < 0 && errno == EINTR);
    if (n < 0) fail("-", strerror(errno));
    if (n == 0) line->more = 0;
    line->end += (size_t)n;
}

void each_of_line(uint8_t *walk, teller tell, void *to) {
    static struct line line = {{0}, 0, 0, 1};
    do {
        uint64_t from = spindlewren_number(walk, SPINDLEWREN_PLACE, 8), place;
        const uint8_t *window = line.bytes + line.begin;
        /* a walk that was begun is refused nothing */
        spindlewren_live(window, line.end - line.begin, line.more, walk, SPINDLEWREN_WALK);
        line.begin += (size_t)(spindlewren_number(walk, SPINDLEWREN_PLACE, 8) - from);
        place = spindlewren_number(walk, SPINDLEWREN_ITEM, 8);
        if (walk[SPINDLEWREN_KIND] == SPINDLEWREN_IS_MORE) {
            take_piece(&line, place);
        } else {
            tell(window + (place - from), place, walk, to);
        }
    } while (walk[SPINDLEWREN_KIND] != SPINDLEWREN_IS_DONE);
}
