/* How many tests a walk puts, from C: the samples and the worst record known with every limit, every wrong length, guards around the answer. */
#include <stdio.h>
#include <stdlib.h>
#include <string.h>

#include "spindlewren.h"

enum { FRAME = SPINDLEWREN_FRAME, LOOKS = SPINDLEWREN_LOOKS, GUARD = 64, MOST = 3 * LOOKS, LONGEST = 1 << 20, FILL = 0xA5, WORST = 40000 };

static int bad = 0;
static unsigned long calls = 0;

static void hold(int right, const char *what, size_t at) {
    if (!right) {
        printf("sizing: %s at %lu: FAILED\n", what, (unsigned long)at);
        bad = 1;
    }
}

/* With guards on both sides of the answer, which is untouched on a refusal and written whole otherwise. */
static unsigned looks(const uint8_t *record, size_t len, size_t limit, uint8_t *answer, size_t answer_len) {
    uint8_t room[GUARD + MOST + GUARD], before[sizeof room];
    unsigned number;
    memset(room, FILL, sizeof room);
    memcpy(before, room, sizeof room);
    number = spindlewren_looks(record, len, limit, room + GUARD, answer_len);
    hold(memcmp(room, before, GUARD) == 0, "guard before", answer_len);
    hold(memcmp(room + GUARD + answer_len, before, sizeof room - GUARD - answer_len) == 0, "guard behind", answer_len);
    if (number != 0) hold(memcmp(room, before, sizeof room) == 0, "written on a refusal", answer_len);
    memcpy(answer, room + GUARD, answer_len);
    calls++;
    return number;
}

static void is(const char *what, const uint8_t *record, size_t len, size_t limit, uint64_t count) {
    uint8_t answer[LOOKS];
    hold(looks(record, len, limit, answer, sizeof answer) == 0, what, limit);
    hold(spindlewren_number(answer, 0, LOOKS) == count, what, limit);
}

/* The counts with limits 1 to 8. */
static void sample(const char *name, const uint64_t *counts) {
    static uint8_t bytes[LONGEST];
    FILE *f = fopen(name, "rb");
    size_t len, limit;
    if (f == NULL || (len = fread(bytes, 1, sizeof bytes, f)) < FRAME) {
        printf("sizing: cannot read %s\n", name);
        exit(2);
    }
    fclose(f);
    for (limit = 1; limit <= 8; limit++) is(name, bytes, len, limit, counts[limit - 1]);
}

/* A header without streams whose sum is the next place's sync word: a place stands every eight bytes, and none is ever confirmed. */
static void worst(void) {
    static const uint8_t eight[] = {0xFF, 0x07, 0x3A, 0xB6, 0xEE, 0x00, 0xE0, 0x01};
    static uint8_t bytes[WORST];
    size_t i, limit;
    for (i = 0; i < WORST; i++) bytes[i] = eight[i % 8];
    for (limit = 1; limit <= 8; limit++) is("the worst record known", bytes, WORST, limit, 37322);
    is("one place", bytes, FRAME, 3, 1);
    is("two places, no confirming one", bytes, FRAME + 1, 3, 2);
    is("a confirming place short of a byte", bytes, 2 * FRAME - 1, 3, FRAME);
    is("a confirming place", bytes, 2 * FRAME, 3, FRAME + 2);
    is("no place", bytes, FRAME - 1, 3, 0);
}

/* 27 comes first, then 1. */
static void refusals(void) {
    static const size_t limits[] = {0, 1, 2, 3, 4, 5, 6, 7, 8, 9, 10, 255, 256, 257, 259, (size_t)-1};
    static const uint8_t bytes[FRAME];
    uint8_t answer[MOST];
    size_t i, n;
    for (i = 0; i < sizeof limits / sizeof *limits; i++)
        for (n = 0; n <= MOST; n++) {
            int outside = limits[i] < 1 || limits[i] > 8;
            hold(looks(bytes, FRAME, limits[i], answer, n) == (outside ? 27U : n == LOOKS ? 0U : 1U), "number", n);
        }
    hold(spindlewren_looks(NULL, 0, 9, NULL, 0) == 27 && spindlewren_looks(NULL, 0, 3, NULL, 0) == 1, "null answer", 0);
    is("null record", NULL, 0, 3, 0);
}

int main(void) {
    static const uint64_t damaged[] = {885, 885, 885, 884, 784, 784, 784, 784};
    static const uint64_t four[] = {6148, 5, 5, 5, 5, 5, 5, 5};
    static const uint64_t night[] = {12298, 11, 11, 11, 11, 11, 11, 11};
    static const uint64_t noise[] = {13857, 13857, 13857, 13857, 13857, 13857, 13857, 13857};
    sample("samples/damaged.eti", damaged);
    sample("samples/four.eti", four);
    sample("samples/night.eti", night);
    sample("samples/noise.eti", noise);
    worst();
    refusals();
    printf("sizing: %lu calls, %s\n", calls, bad ? "FAILED" : "all held");
    return bad;
}
