/* Relaying from C: what comes out, every wrong length, guards around the output, and chains of up to fifty relays with damage on the way. */
#include <stdio.h>
#include <stdlib.h>
#include <string.h>

#include "spindlewren.h"

enum { FRAME = SPINDLEWREN_FRAME, GUARD = 64, LONGEST = 6200, FILL = 0xA5, MOST_RELAYS = 50 };

static int bad = 0;
static unsigned long calls = 0;

static void hold(int right, const char *what, size_t at) {
    if (!right) {
        printf("relays: %s at %lu: FAILED\n", what, (unsigned long)at);
        bad = 1;
    }
}

static uint8_t *load(const char *name, size_t least) {
    FILE *f = fopen(name, "rb");
    uint8_t *bytes = malloc(1 << 20);
    if (f == NULL || bytes == NULL || fread(bytes, 1, 1 << 20, f) < least) {
        printf("relays: cannot read %s\n", name);
        exit(2);
    }
    fclose(f);
    return bytes;
}

/* With guards on both sides of the output, which is untouched on a refusal; the frame lent is untouched always. */
static unsigned relay(const uint8_t *frame, size_t len, uint8_t *out, size_t out_len) {
    static uint8_t room[GUARD + LONGEST + GUARD], before[sizeof room], lent[LONGEST];
    unsigned number;
    memset(room, FILL, sizeof room);
    memcpy(room + GUARD, out, out_len);
    memcpy(before, room, sizeof room);
    memcpy(lent, frame, len);
    number = spindlewren_relay(frame, len, room + GUARD, out_len);
    hold(memcmp(lent, frame, len) == 0, "the frame lent", len);
    hold(memcmp(room, before, GUARD) == 0, "guard before", out_len);
    hold(memcmp(room + GUARD + out_len, before + GUARD + out_len, sizeof room - GUARD - out_len) == 0, "guard behind", out_len);
    if (number != 0) hold(memcmp(room, before, sizeof room) == 0, "written on a refusal", out_len);
    memcpy(out, room + GUARD, out_len);
    calls++;
    return number;
}

/* Frames with right sums and padding of 55 come out as they went in. */
static void clean(const uint8_t *four) {
    static const size_t at[] = {0, 6144, 18432};
    uint8_t out[FRAME];
    size_t i;
    for (i = 0; i < 3; i++) {
        memset(out, FILL, sizeof out);
        hold(relay(four + at[i], FRAME, out, FRAME) == 0, "a clean frame", at[i]);
        hold(memcmp(out, four + at[i], FRAME) == 0, "a clean frame as it was", at[i]);
    }
}

/* Every length of frame and of output. Reading's number comes first: a broken sync word is 2 whatever the output is. */
static void lengths(const uint8_t *four) {
    static uint8_t out[LONGEST];
    size_t n;
    for (n = 0; n <= LONGEST; n++) {
        memset(out, (int)n, sizeof out);
        hold(relay(four, n, out, FRAME) == (n == FRAME ? 0U : 1U), "frame length", n);
        memset(out, (int)n, sizeof out);
        hold(relay(four, FRAME, out, n) == (n == FRAME ? 0U : 1U), "output length", n);
        memset(out, (int)n, sizeof out);
        hold(relay(four + 12288, FRAME, out, n) == 2, "broken sync word", n);
    }
    memset(out, FILL, sizeof out);
    hold(spindlewren_relay(NULL, 0, out, FRAME) == 1, "null frame", 0);
    hold(out[0] == FILL && memcmp(out, out + 1, sizeof out - 1) == 0, "null frame", 1);
    hold(spindlewren_relay(four, FRAME, NULL, 0) == 1, "null output", 0);
    hold(spindlewren_relay(NULL, 0, NULL, 0) == 1, "null both", 0);
    calls += 3;
}

static uint32_t state = 1;

static uint32_t number(void) {
    state = state * 1664525 + 1013904223;
    return state >> 8;
}

static const uint8_t statuses[] = {0xFF, 0xF0, 0x0F, 0x00};

/* One chain: the level behind each relay is the worst of the first and 2 for each wrong sum met, and what is read there has equal sums. */
static void chain(const uint8_t *first, unsigned level, size_t relays) {
    uint8_t sent[FRAME], arrived[FRAME], answer[SPINDLEWREN_ANSWER];
    size_t main_start, main_end, n;
    memcpy(sent, first, FRAME);
    sent[0] = statuses[level];
    hold(spindlewren_read(sent, FRAME, answer, sizeof answer) == 0, "first frame", relays);
    main_start = 4 + (answer[SPINDLEWREN_NST] + 2U) * 4;
    main_end = 4 + ((size_t)spindlewren_number(answer, SPINDLEWREN_FL, 2) + 1) * 4;
    for (n = 0; n < relays; n++) {
        memcpy(arrived, sent, FRAME);
        /* from the main stream on any byte may change: now and then one does, or the main stream, or all */
        switch (number() % 8) {
        case 0: arrived[main_start + number() % (FRAME - main_start)] ^= (uint8_t)(1 + number() % 255); break;
        case 1: arrived[main_start] ^= 1; break;
        case 2: memset(arrived + main_end + 8, (int)number(), FRAME - main_end - 8); break;
        case 3: if (number() % 4 == 0) memset(arrived + main_start, (int)number(), FRAME - main_start); break;
        }
        hold(spindlewren_read(arrived, FRAME, answer, sizeof answer) == 0, "what arrives", n);
        if (memcmp(answer + SPINDLEWREN_SENT, answer + SPINDLEWREN_WORKED, 2) != 0 && level < 2) level = 2;
        memset(sent, FILL, sizeof sent);
        hold(relay(arrived, FRAME, sent, FRAME) == 0, "refused in a chain", n);
        hold(sent[0] == statuses[level], "status byte behind a relay", n);
        hold(spindlewren_read(sent, FRAME, answer, sizeof answer) == 0, "read behind a relay", n);
        hold(answer[SPINDLEWREN_LEVEL] == level, "level behind a relay", n);
        hold(memcmp(answer + SPINDLEWREN_SENT, answer + SPINDLEWREN_WORKED, 2) == 0, "sums behind a relay", n);
    }
}

/* With no damage the frame arrives whole. */
static void undamaged(const uint8_t *first) {
    uint8_t sent[FRAME], out[FRAME];
    size_t n;
    memcpy(sent, first, FRAME);
    for (n = 0; n < MOST_RELAYS; n++) {
        hold(relay(sent, FRAME, out, FRAME) == 0, "undamaged", n);
        memcpy(sent, out, FRAME);
    }
    hold(memcmp(sent, first, FRAME) == 0, "undamaged", n);
}

int main(void) {
    uint8_t *four = load("samples/four.eti", 4 * FRAME), *damaged = load("samples/damaged.eti", 31597 + FRAME);
    uint8_t out[FRAME];
    size_t n;
    clean(four);
    lengths(four);
    /* the sample's frame with a wrong main-stream sum: level 2, and relayed again it stays as it is */
    memset(out, FILL, sizeof out);
    hold(relay(damaged + 25453, FRAME, out, FRAME) == 0 && out[0] == statuses[2], "a wrong sum", 25453);
    undamaged(out);
    undamaged(four);
    for (n = 1; n <= MOST_RELAYS; n++) {
        chain(four, (unsigned)n % 4, n);
        chain(damaged + 25453, (unsigned)(n / 4) % 4, n);
    }
    free(four);
    free(damaged);
    printf("relays: %lu calls, %s\n", calls, bad ? "FAILED" : "ok");
    return bad;
}
