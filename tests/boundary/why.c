/* Reasons for places: the answer bytes of every sort of reason, every limit with every length of answer, and places around the range's end. */
#include "test.h"

#include <string.h>

static size_t limit;

/* The index is the place. */
static unsigned asked(const uint8_t *bytes, size_t len, size_t i, uint8_t *out, size_t out_len) {
    return spindlewren_why(bytes, len, limit, i, out, out_len);
}

static void is(const uint8_t *record, size_t len, size_t m, size_t place, uint8_t reason, uint8_t refusal, uint64_t before) {
    uint8_t answer[SPINDLEWREN_WHY];
    memset(answer, FILL, sizeof answer);
    limit = m;
    hold(guarded(asked, record, len, place, answer, sizeof answer) == 0, "why", place);
    hold(answer[SPINDLEWREN_REASON] == reason && answer[SPINDLEWREN_REFUSAL] == refusal && spindlewren_number(answer, SPINDLEWREN_BEFORE, 8) == before,
         "reason", place);
}

/* Typed from the listings and the scope's rules: four frames, the third without its sync word. */
static void reasons(const uint8_t *four, size_t four_len, const uint8_t *night, size_t night_len) {
    static uint8_t twice[2 * SPINDLEWREN_FRAME];
    is(four, four_len, 3, 0, SPINDLEWREN_HANDED_OUT, 0, 0);
    is(four, four_len, 3, 12288, SPINDLEWREN_LOST, 2, 0);
    is(four, four_len, 3, 6145, SPINDLEWREN_STEPPED_OVER, 0, 6144);
    is(four, four_len, 3, 18431, SPINDLEWREN_STEPPED_OVER, 0, 12288);
    is(four, four_len, 3, 18432, SPINDLEWREN_HANDED_OUT, 0, 0);
    is(four, four_len, 1, 12289, SPINDLEWREN_REFUSED, 2, 0);
    is(four, four_len, 1, 18432, SPINDLEWREN_NOT_STANDING, 0, 0);
    is(four, SPINDLEWREN_FRAME, 3, 0, SPINDLEWREN_NOT_STANDING, 0, 0);
    is(night, night_len, 3, 12288, SPINDLEWREN_HANDED_OUT, 0, 0);
    is(night, night_len, 1, 43008, SPINDLEWREN_REFUSED, 4, 0);
    /* the same frame again; and again, with its header sum broken: not standing is named first */
    memcpy(twice, four, SPINDLEWREN_FRAME);
    memcpy(twice + SPINDLEWREN_FRAME, four, SPINDLEWREN_FRAME);
    is(twice, sizeof twice, 3, 0, SPINDLEWREN_SAME_SYNC, 0, 0);
    twice[SPINDLEWREN_FRAME + 12] ^= 1;
    is(twice, sizeof twice, 3, 0, SPINDLEWREN_NOT_STANDING, 0, 0);
}

/* 27 for the limit, then 1 for the length, then 34 for the place. */
static void order(const uint8_t *four, size_t four_len) {
    static const size_t limits[] = {0, 1, 3, 8, 9, 255, 256, 259, (size_t)-1};
    static const size_t places[] = {0, 18432, 18433, 24576, (size_t)-6144, (size_t)-1};
    uint8_t answer[2 * SPINDLEWREN_WHY];
    size_t i, n, p;
    for (i = 0; i < sizeof limits / sizeof *limits; i++)
        for (p = 0; p < sizeof places / sizeof *places; p++)
            for (n = 0; n <= sizeof answer; n++) {
                unsigned number = places[p] > 18432 ? 34U : 0U;
                if (n != SPINDLEWREN_WHY) number = 1;
                if (limits[i] < 1 || limits[i] > 8) number = 27;
                memset(answer, FILL, sizeof answer);
                limit = limits[i];
                hold(guarded(asked, four, four_len, places[p], answer, n) == number, "order of why's refusals", n);
            }
    /* shorter than a period every place is outside, and null is a record of no bytes */
    limit = 3;
    for (n = 0; n < SPINDLEWREN_FRAME; n++) hold(guarded(asked, four, n, 0, answer, SPINDLEWREN_WHY) == 34, "why in a short record", n);
    hold(guarded(asked, NULL, 0, 0, answer, SPINDLEWREN_WHY) == 34, "why over null", 0);
    hold(asked(four, four_len, 0, NULL, 0) == 1, "why into null", 0);
}

void whys(const uint8_t *four, size_t four_len, const uint8_t *night, size_t night_len) {
    reasons(four, four_len, night, night_len);
    order(four, four_len);
}
