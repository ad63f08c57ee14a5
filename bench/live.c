/* The walk over a live line by pieces of 188 and of 6,144 bytes, and beside it the walk over the whole record: least times of many runs. */
#define _POSIX_C_SOURCE 200809L
#include "spindlewren.h"

#include <stdio.h>
#include <stdlib.h>
#include <string.h>
#include <time.h>

enum { ROUNDS = 15, PERIODS = 1000, TWO = 2 * SPINDLEWREN_FRAME };

static size_t piece;
static uint8_t record[(size_t)PERIODS * SPINDLEWREN_FRAME], window[TWO + 65536];

static double now(void) {
    struct timespec t;
    clock_gettime(CLOCK_MONOTONIC, &t);
    return (double)t.tv_sec * 1e6 + (double)t.tv_nsec / 1e3;
}

static size_t whole(void) {
    uint8_t walk[SPINDLEWREN_WALK];
    size_t items = 0;
    spindlewren_begin(3, walk, sizeof walk);
    do {
        spindlewren_step(record, sizeof record, walk, sizeof walk);
        items++;
    } while (walk[SPINDLEWREN_KIND] != SPINDLEWREN_IS_DONE);
    return items;
}

/* The buffer is as large as an integrator would have it, and moved to its front when its end is reached. */
static size_t by_pieces(void) {
    uint8_t walk[SPINDLEWREN_WALK];
    size_t begin = 0, end = 0, came = 0, items = 0;
    uint64_t from = 0;
    spindlewren_begin(3, walk, sizeof walk);
    do {
        uint64_t place;
        spindlewren_live(window + begin, end - begin, came < sizeof record, walk, sizeof walk);
        place = spindlewren_number(walk, SPINDLEWREN_PLACE, 8);
        begin += (size_t)(place - from);
        from = place;
        if (walk[SPINDLEWREN_KIND] == SPINDLEWREN_IS_MORE) {
            size_t n = sizeof record - came < piece ? sizeof record - came : piece;
            if (end + n > sizeof window) {
                memmove(window, window + begin, end - begin);
                end -= begin;
                begin = 0;
            }
            memcpy(window + end, record + came, n);
            end += n;
            came += n;
        } else {
            items++;
        }
    } while (walk[SPINDLEWREN_KIND] != SPINDLEWREN_IS_DONE);
    return items;
}

/* What by_pieces does beside the calls: it copies, and reads the walk's place. */
static size_t beside(void) {
    uint8_t walk[SPINDLEWREN_WALK] = {0};
    size_t came, end = 0, sum = 0;
    for (came = 0; came + piece <= sizeof record; came += piece) {
        if (end + piece > sizeof window) end = TWO;
        memcpy(window + end, record + came, piece);
        end += piece;
        walk[end & 7] = window[end - 1];
        sum += (size_t)spindlewren_number(walk, SPINDLEWREN_PLACE, 8);
    }
    return sum;
}

static double least(size_t (*run)(void), size_t *items) {
    double best = 0;
    int i;
    for (i = 0; i < ROUNDS; i++) {
        double began = now(), took;
        *items = run();
        took = now() - began;
        if (i == 0 || took < best) best = took;
    }
    return best / PERIODS;
}

static void tell(const char *what) {
    static const size_t pieces[] = {188, SPINDLEWREN_FRAME};
    size_t a, b, c, i;
    double w = least(whole, &a);
    for (i = 0; i < 2; i++) {
        double p, m;
        piece = pieces[i];
        p = least(by_pieces, &b);
        m = least(beside, &c);
        printf("%-24s %6zu %8.3f %8.3f %8.3f %6.2f\n", what, piece, w, p, m, (p - m) / w);
        if (a != b) exit(1);
    }
}

int main(int argc, char **argv) {
    FILE *file = fopen(argc > 1 ? argv[1] : "samples/four.eti", "rb");
    uint64_t seed = 88172645463325252u;
    size_t i;
    if (file == NULL || fread(record, 1, TWO, file) != TWO) return 1;
    fclose(file);
    printf("us for a period          pieces    whole     line   beside  ratio\n");
    for (i = 2; i < PERIODS; i++) memcpy(record + i * SPINDLEWREN_FRAME, record + i % 2 * SPINDLEWREN_FRAME, SPINDLEWREN_FRAME);
    tell("in lock");
    for (i = 0; i < sizeof record; i++) {
        seed ^= seed << 13;
        seed ^= seed >> 7;
        seed ^= seed << 17;
        record[i] = (uint8_t)(seed >> 32);
    }
    tell("hunting in noise");
    memset(record, 0, sizeof record);
    tell("hunting in zero bytes");
    return 0;
}
