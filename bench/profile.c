/* The profile of a full frame beside its main-stream sum: 64 streams that pass, 55 of STL 12 with option B at level 4 (15 units each) and nine of
   STL 3 with option A at level 4 (4 units each), 861 units. Besides: the same frame with an FL that is off by one, which is judged to the end and
   refused; the nine spread among the others; the sub-channels in the other order, and in none; one stream
   with STL 0 among the others; 32 streams of each kind in turn, so that no size is that
   of the stream before, and the same with unequal protection at level 5 for STL 12 (16 units), beside the sum of their own, shorter main stream. The least
   and the median of many short rounds, the sorts in turn. */
#define _POSIX_C_SOURCE 200809L
#include "spindlewren.h"

#include <stdio.h>
#include <stdlib.h>
#include <string.h>
#include <time.h>

uint16_t spindlewren_sum(const uint8_t *bytes, size_t len);

enum { NST = 64, ROUNDS = 400, CALLS = 50 };
enum { SUM, JUDGING, PROFILE, SPREAD, TURNED, MIXED, EMPTY, TURN_SUM, TURN, UNEQUAL, COLLISION, OVERLAP, SORTS };

static uint8_t *frame;
static volatile unsigned kept;

static double now(void) {
    struct timespec t;
    clock_gettime(CLOCK_MONOTONIC, &t);
    return (double)t.tv_sec * 1e9 + (double)t.tv_nsec;
}

static void put(size_t at, size_t width, uint32_t n) {
    while (width-- > 0) {
        frame[at + width] = (uint8_t)n;
        n >>= 8;
    }
}

static int by_turns(int sort) { return sort >= TURN_SUM && sort <= UNEQUAL; }

static uint32_t units(int sort, uint32_t i) {
    int small = sort == SPREAD ? i % 7 == 6 : by_turns(sort) ? i % 2 == 1 : i >= 55;
    return sort == EMPTY && i == 20 ? 0 : small ? 4 : sort == UNEQUAL ? 16 : 15;
}

/* the units of the streams that lie before stream i: those before it in the table, behind it, or before it in another order */
static uint32_t first(int sort, uint32_t i) {
    uint32_t j, sad = 0;
    for (j = 0; j < NST; j++)
        if (sort == TURNED ? j > i : sort == MIXED ? j * 37 % NST < i * 37 % NST : j < i) sad += units(sort, j);
    return sort == OVERLAP && i == NST - 1 ? sad - 1 : sad;
}

static size_t build(int sort) {
    uint32_t i, stls = 0;
    size_t fl;
    put(0, 4, 0xFF073AB6);
    for (i = 0; i < NST; i++) {
        uint32_t u = units(sort, i), stl = u == 0 ? 0 : u == 4 ? 3 : 12, tpl = u == 4 ? 35 : u == 16 ? 4 : 39;
        put(8 + 4 * (size_t)i, 4, i << 26 | first(sort, i) << 16 | tpl << 10 | stl);
        stls += stl;
    }
    fl = NST + 1 + 2 * stls;
    put(4, 4, (uint32_t)(10u << 24 | NST << 16 | (fl + (sort == JUDGING))));
    put(4 + (NST + 1) * 4 + 2, 2, spindlewren_sum(frame + 4, (NST + 1) * 4 + 2));
    return fl;
}

static int up(const void *a, const void *b) {
    double x = *(const double *)a, y = *(const double *)b;
    return (x > y) - (x < y);
}

int main(void) {
    static const char *what[SORTS] = {"main-stream sum",
                                      "spindlewren_profile, refused by reading's last rules but one",
                                      "spindlewren_profile",
                                      "spindlewren_profile, sizes spread",
                                      "spindlewren_profile, in the other order",
                                      "spindlewren_profile, in no order",
                                      "spindlewren_profile, a stream without bytes",
                                      "main-stream sum, sizes in turn",
                                      "spindlewren_profile, sizes in turn",
                                      "spindlewren_profile, sizes in turn, half of them of unequal protection",
                                      "spindlewren_collision",
                                      "spindlewren_collision, the last two overlap"};
    static double times[SORTS][ROUNDS];
    uint8_t found[SPINDLEWREN_COLLISION];
    size_t from = 4 + (NST + 2) * 4, len, i;
    int round, sort;
    void *page;
    if (posix_memalign(&page, 4096, SPINDLEWREN_FRAME)) return 1; /* the sum's time goes by the frame's place in a page */
    frame = memset(page, 0, SPINDLEWREN_FRAME);
    for (round = 0; round < ROUNDS; round++)
        for (sort = 0; sort < SORTS; sort++) {
            double began;
            len = 4 + (build(sort) + 1) * 4 - from;
            if (spindlewren_profile(frame, SPINDLEWREN_FRAME) != (sort == OVERLAP ? SPINDLEWREN_OVERLAP : sort == JUDGING ? 9 : 0)) return 1;
            began = now();
            for (i = 0; i < CALLS; i++)
                kept += sort == SUM || sort == TURN_SUM ? spindlewren_sum(frame + from, len)
                        : sort >= COLLISION ? spindlewren_collision(frame, SPINDLEWREN_FRAME, found, sizeof found)
                                            : spindlewren_profile(frame, SPINDLEWREN_FRAME);
            times[sort][round] = (now() - began) / CALLS;
        }
    for (sort = 0; sort < SORTS; sort++) qsort(times[sort], ROUNDS, sizeof times[sort][0], up);
    for (sort = 0; sort < SORTS; sort++) {
        const double *t = times[sort], *sum = times[by_turns(sort) ? TURN_SUM : SUM];
        printf("%s: least %.0f ns, median %.0f ns; over the sum %.2f, %.2f\n", what[sort], t[0], t[ROUNDS / 2], t[0] / sum[0],
               t[ROUNDS / 2] / sum[ROUNDS / 2]);
    }
    return 0;
}
