/* A live line against the walk over the whole record: the same items whatever the pieces are, few bytes kept, in lock each item with its last byte. */
#include "spindlewren.h"

#include <stdio.h>
#include <stdlib.h>
#include <string.h>

enum { ROOM = 1 << 20, TWO = 2 * SPINDLEWREN_FRAME };

static uint8_t record[ROOM], frames[8 * SPINDLEWREN_FRAME], window[TWO + 20000];
static size_t len, calls, items;
static uint64_t seed = 20261115;

static void fail(const char *what, size_t piece, size_t limit) {
    printf("live: %s FAILED, pieces of %zu, limit %zu, a record of %zu bytes\n", what, piece, limit, len);
    exit(1);
}

static size_t below(size_t n) {
    seed ^= seed << 13;
    seed ^= seed >> 7;
    seed ^= seed << 17;
    return (size_t)(seed >> 11) % n;
}

/* What the walk over the whole record and the line have told so far, in turn. */
static void same(const uint8_t *line, uint8_t *walk, const uint8_t *item, size_t piece, size_t limit) {
    uint64_t place = spindlewren_number(line, SPINDLEWREN_ITEM, 8);
    if (spindlewren_step(record, len, walk, SPINDLEWREN_WALK) != 0) fail("step", piece, limit);
    if (memcmp(line + SPINDLEWREN_KIND, walk + SPINDLEWREN_KIND, SPINDLEWREN_WALK - SPINDLEWREN_KIND) != 0) fail("item", piece, limit);
    if (memcmp(line + SPINDLEWREN_MISSES, walk + SPINDLEWREN_MISSES, 3) != 0) fail("state", piece, limit);
    if (line[SPINDLEWREN_KIND] == SPINDLEWREN_IS_FRAME && memcmp(item, record + place, SPINDLEWREN_FRAME) != 0) fail("frame's bytes", piece, limit);
    items++;
}

/* The record by pieces of one length, or of random ones where it is 0. */
static void by_pieces(size_t piece, size_t limit) {
    uint8_t line[SPINDLEWREN_WALK], walk[SPINDLEWREN_WALK];
    size_t have = 0, came = 0;
    spindlewren_begin(limit, line, sizeof line);
    spindlewren_begin(limit, walk, sizeof walk);
    do {
        uint64_t from = spindlewren_number(line, SPINDLEWREN_PLACE, 8), on;
        int lock = line[SPINDLEWREN_LOCK];
        if (spindlewren_live(window, have, came < len, line, sizeof line) != 0) fail("refused", piece, limit);
        calls++;
        on = spindlewren_number(line, SPINDLEWREN_PLACE, 8) - from;
        if (on > have) fail("place beyond the window", piece, limit);
        if (line[SPINDLEWREN_KIND] != SPINDLEWREN_IS_MORE) same(line, walk, window + (spindlewren_number(line, SPINDLEWREN_ITEM, 8) - from), piece, limit);
        memmove(window, window + on, have - on);
        have -= on;
        if (line[SPINDLEWREN_KIND] == SPINDLEWREN_IS_MORE) {
            size_t n = piece > 0 ? piece : 1 + below(20000);
            if (spindlewren_number(line, SPINDLEWREN_ITEM, 8) != from + on) fail("place of more", piece, limit);
            if (have >= (lock ? SPINDLEWREN_FRAME : TWO)) fail("too much kept", piece, limit);
            if (n > len - came) n = len - came;
            memcpy(window + have, record + came, n);
            have += n;
            came += n;
        }
    } while (line[SPINDLEWREN_KIND] != SPINDLEWREN_IS_DONE);
    if (came != len) fail("done while more may come", piece, limit);
}

static void by_every_piece(size_t limit, int ones) {
    static const size_t pieces[] = {7, 188, 6143, 6144, 6145, 12287, 12288, 12289, 0};
    size_t i;
    for (i = 0; i < sizeof pieces / sizeof pieces[0]; i++) by_pieces(pieces[i], limit);
    if (ones) by_pieces(1, limit);
}

static void add(const uint8_t *bytes, size_t n) {
    if (n > sizeof record - len) n = sizeof record - len;
    memcpy(record + len, bytes, n);
    len += n;
}

/* Frames of the samples with damage: bytes changed, bytes left out, bytes put in between, null transmissions. */
static void damaged(void) {
    size_t n = 1 + below(12), i;
    len = 0;
    for (i = 0; i < n; i++) {
        uint8_t frame[SPINDLEWREN_FRAME];
        size_t sort = below(10), k;
        memcpy(frame, frames + SPINDLEWREN_FRAME * (i % 2), sizeof frame);
        if (sort == 0) memset(frame + 4, 0xFF, 4);
        if (sort == 1) frame[below(sizeof frame)] ^= (uint8_t)(1 + below(255));
        if (sort == 2)
            for (k = 0; k < sizeof frame; k++) frame[k] = (uint8_t)below(256);
        add(frame, sort == 3 ? below(sizeof frame) : sizeof frame);
        if (sort == 4) add(frames + below(20000), below(9000));
    }
}

static void sample(const char *name, int ones) {
    FILE *file = fopen(name, "rb");
    size_t limit;
    if (file == NULL) fail(name, 0, 0);
    len = fread(record, 1, sizeof record, file);
    fclose(file);
    for (limit = 1; limit <= 8; limit++) by_every_piece(limit, ones);
}

static void refusals(void) {
    uint8_t walk[SPINDLEWREN_WALK + 1] = {0}, was[SPINDLEWREN_WALK + 1];
    spindlewren_begin(3, walk, SPINDLEWREN_WALK);
    memcpy(was, walk, sizeof was);
    if (spindlewren_live(NULL, 0, 1, walk, sizeof walk) != 1 || spindlewren_live(NULL, 0, 2, walk, sizeof walk - 1) != 12) fail("refusals", 0, 3);
    if (memcmp(was, walk, sizeof was) != 0) fail("refused, and written", 0, 3);
    if (spindlewren_live(NULL, 0, 1, walk, SPINDLEWREN_WALK) != 0 || walk[SPINDLEWREN_KIND] != SPINDLEWREN_IS_MORE) fail("nothing has come", 0, 3);
    if (spindlewren_live(NULL, 0, 0, walk, SPINDLEWREN_WALK) != 0 || walk[SPINDLEWREN_KIND] != SPINDLEWREN_IS_DONE) fail("nothing came", 0, 3);
    walk[SPINDLEWREN_LOCK] = 2;
    if (spindlewren_live(NULL, 0, 1, walk, SPINDLEWREN_WALK) != 12) fail("a wide lock", 0, 3);
    walk[SPINDLEWREN_LOCK] = 0;
    walk[SPINDLEWREN_LIMIT] = 9;
    if (spindlewren_live(NULL, 0, 1, walk, SPINDLEWREN_WALK) != 0 || walk[SPINDLEWREN_KIND] != SPINDLEWREN_IS_DONE) fail("limit 9", 0, 9);
    walk[SPINDLEWREN_LIMIT] = 3;
    walk[SPINDLEWREN_PLACE] = 0x80;
    if (spindlewren_live(NULL, 0, 1, walk, SPINDLEWREN_WALK) != 0 || walk[SPINDLEWREN_KIND] != SPINDLEWREN_IS_DONE) fail("place 2^63", 0, 3);
}

int main(int argc, char **argv) {
    int i;
    refusals();
    for (i = 1; i < argc; i++) sample(argv[i], i == 1);
    memcpy(frames, record, sizeof frames);
    for (i = 0; i < 200; i++) {
        damaged();
        by_every_piece((size_t)(1 + i % 8), i % 20 == 0);
    }
    printf("live: %zu items by pieces are those of the whole record, %zu calls, 0 mismatches\n", items, calls);
    return 0;
}
