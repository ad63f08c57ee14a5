/* The exports against answers that an independent program worked out, against every wrong length, and with guards around all that is lent. */
#include "test.h"

#include <stdio.h>
#include <stdlib.h>
#include <string.h>

static int bad = 0;
static unsigned long calls = 0;

void hold(int right, const char *what, size_t at) {
    if (!right) {
        printf("boundary: %s at %lu: FAILED\n", what, (unsigned long)at);
        bad = 1;
    }
}

static uint8_t *load(const char *name, size_t *len) {
    FILE *f = fopen(name, "rb");
    uint8_t *bytes = malloc(1 << 20);
    if (f == NULL || bytes == NULL) {
        printf("boundary: cannot read %s\n", name);
        exit(2);
    }
    *len = fread(bytes, 1, 1 << 20, f);
    fclose(f);
    return bytes;
}

unsigned read_frame(const uint8_t *bytes, size_t len, size_t i, uint8_t *out, size_t out_len) {
    (void)i;
    return spindlewren_read(bytes, len, out, out_len);
}
unsigned fic(const uint8_t *bytes, size_t len, size_t i, uint8_t *out, size_t out_len) {
    (void)i;
    return spindlewren_fic(bytes, len, out, out_len);
}
unsigned stream(const uint8_t *bytes, size_t len, size_t i, uint8_t *out, size_t out_len) {
    return spindlewren_stream(bytes, len, i, out, out_len);
}
unsigned begin(const uint8_t *bytes, size_t len, size_t i, uint8_t *out, size_t out_len) {
    (void)bytes;
    (void)len;
    return spindlewren_begin(i, out, out_len);
}
unsigned step(const uint8_t *bytes, size_t len, size_t i, uint8_t *out, size_t out_len) {
    (void)i;
    return spindlewren_step(bytes, len, out, out_len);
}

unsigned guarded(request *ask, const uint8_t *bytes, size_t len, size_t i, uint8_t *out, size_t out_len) {
    static uint8_t room[GUARD + MOST + GUARD], before[sizeof room];
    unsigned number;
    memset(room, FILL, sizeof room);
    memcpy(room + GUARD, out, out_len);
    memcpy(before, room, sizeof room);
    number = ask(bytes, len, i, room + GUARD, out_len);
    hold(memcmp(room, before, GUARD) == 0, "guard before", out_len);
    hold(memcmp(room + GUARD + out_len, before + GUARD + out_len, sizeof room - GUARD - out_len) == 0, "guard behind", out_len);
    if (number != 0) hold(memcmp(room, before, sizeof room) == 0, "written on a refusal", out_len);
    memcpy(out, room + GUARD, out_len);
    calls++;
    return number;
}

/* Every length of answer up to twice the right one, and every length of frame; only the right ones are accepted. */
static void lengths(request *ask, const uint8_t *frame, size_t right) {
    static uint8_t out[MOST];
    size_t n;
    for (n = 0; n <= 2 * right; n++) {
        memset(out, 0, sizeof out);
        hold(guarded(ask, frame, SPINDLEWREN_FRAME, 0, out, n) == (n == right ? 0U : 1U), "answer length", n);
    }
    for (n = 0; n <= LONGEST; n++) {
        memset(out, 0, sizeof out);
        hold(guarded(ask, frame, n, 0, out, right) == (n == SPINDLEWREN_FRAME || ask == step ? 0U : 1U), "frame length", n);
    }
}

static void part_at(request *ask, const uint8_t *frame, size_t i, size_t start, size_t len) {
    uint8_t part[SPINDLEWREN_PART];
    memset(part, FILL, sizeof part);
    hold(guarded(ask, frame, SPINDLEWREN_FRAME, i, part, sizeof part) == 0, "part", i);
    hold(spindlewren_number(part, SPINDLEWREN_START, 2) == start, "part's place", i);
    hold(spindlewren_number(part, SPINDLEWREN_LEN, 2) == len, "part's length", i);
}

void parts(const uint8_t *frame, const uint8_t *answer) {
    static const size_t beyond[] = {0, 1, 63, 64, 191, (size_t)-1};
    uint8_t part[SPINDLEWREN_PART] = {FILL, FILL, FILL, FILL};
    size_t nst = answer[SPINDLEWREN_NST], i;
    size_t at = 4 + (nst + 2) * 4, len = answer[SPINDLEWREN_FICF] == 0 ? 0 : answer[SPINDLEWREN_MID] == 3 ? 128 : 96;
    part_at(fic, frame, 0, at, len);
    for (i = 0; i < nst; i++) {
        at += len;
        len = 8 * (size_t)spindlewren_number(answer, spindlewren_entry(i) + SPINDLEWREN_STL, 2);
        part_at(stream, frame, i, at, len);
    }
    for (i = 0; i < sizeof beyond / sizeof *beyond; i++)
        hold(guarded(stream, frame, SPINDLEWREN_FRAME, beyond[i] == (size_t)-1 ? beyond[i] : nst + beyond[i], part, sizeof part) == 13, "stream beyond", i);
}

/* The frames of the samples, each held to its answer of answers.bin. */
static void frames(const uint8_t *four, const uint8_t *damaged) {
    static const size_t four_at[] = {0, 6144, 18432}, damaged_at[] = {777, 6921, 13165, 19309, 25453, 31597};
    uint8_t answer[SPINDLEWREN_ANSWER];
    size_t answers_len, i;
    uint8_t *answers = load("tests/boundary/answers.bin", &answers_len);
    hold(answers_len == 9 * SPINDLEWREN_ANSWER, "answers", answers_len);
    for (i = 0; i < 9; i++) {
        const uint8_t *frame = i < 3 ? four + four_at[i] : damaged + damaged_at[i - 3];
        const uint8_t *expected = answers + i * SPINDLEWREN_ANSWER;
        memset(answer, FILL, sizeof answer);
        hold(guarded(read_frame, frame, SPINDLEWREN_FRAME, 0, answer, sizeof answer) == 0, "accepted", i);
        hold(memcmp(answer, expected, sizeof answer) == 0, "answer", i);
        parts(frame, expected);
    }
    free(answers);
}

/* A walk's line as the listing has it. */
static void line(const uint8_t *record, const uint8_t *walk, char *text, size_t size) {
    unsigned long place = (unsigned long)spindlewren_number(walk, SPINDLEWREN_ITEM, 8);
    uint8_t answer[SPINDLEWREN_ANSWER];
    if (walk[SPINDLEWREN_KIND] == SPINDLEWREN_IS_DONE) {
        snprintf(text, size, "end %lu\n", place);
    } else if (walk[SPINDLEWREN_KIND] == SPINDLEWREN_IS_LOST) {
        snprintf(text, size, "%lu lost %u -\n", place, walk[SPINDLEWREN_NUMBER]);
    } else if (walk[SPINDLEWREN_KIND] == SPINDLEWREN_IS_IDLE) {
        snprintf(text, size, "%lu idle %u -\n", place, walk[SPINDLEWREN_NUMBER]);
    } else {
        hold(spindlewren_read(record + place, SPINDLEWREN_FRAME, answer, sizeof answer) == 0, "frame handed out", place);
        snprintf(text, size, "%lu frame %u %u\n", place, answer[SPINDLEWREN_FCT], answer[SPINDLEWREN_LEVEL]);
        hold(walk[SPINDLEWREN_ITEM_FCT] == answer[SPINDLEWREN_FCT] && walk[SPINDLEWREN_ITEM_LEVEL] == answer[SPINDLEWREN_LEVEL], "FCT and level of the item", place);
    }
}

/* A walk over a record, held to the listing that tests/listing has of it, and then done once more. */
static void walked(const uint8_t *record, size_t len, const char *listing) {
    uint8_t walk[SPINDLEWREN_WALK], again[SPINDLEWREN_WALK];
    char text[80], expected[80];
    FILE *lines = fopen(listing, "r");
    memset(walk, FILL, sizeof walk);
    hold(guarded(begin, NULL, 0, 3, walk, sizeof walk) == 0, "begin", 3);
    hold(lines != NULL && fgets(expected, sizeof expected, lines) != NULL, listing, 0);
    while (lines != NULL && fgets(expected, sizeof expected, lines) != NULL) {
        memset(walk + SPINDLEWREN_KIND, FILL, SPINDLEWREN_WALK - SPINDLEWREN_KIND);
        hold(guarded(step, record, len, 0, walk, sizeof walk) == 0, "step", 0);
        line(record, walk, text, sizeof text);
        hold(strcmp(text, expected) == 0, text, 0);
    }
    hold(walk[SPINDLEWREN_KIND] == SPINDLEWREN_IS_DONE, "done", len);
    memcpy(again, walk, sizeof walk);
    hold(guarded(step, record, len, 0, again, sizeof again) == 0 && memcmp(again, walk, sizeof walk) == 0, "done stays done", len);
    if (lines != NULL) fclose(lines);
}

/* A walk begun with every limit, in bytes of every length up to twice the right one: 27 comes first. */
static void begins(void) {
    static const size_t limits[] = {0, 1, 2, 3, 4, 5, 6, 7, 8, 9, 10, 255, 256, 257, 259, (size_t)-1};
    uint8_t walk[2 * SPINDLEWREN_WALK], zero[SPINDLEWREN_WALK] = {0};
    size_t i, n;
    for (i = 0; i < sizeof limits / sizeof *limits; i++) {
        int outside = limits[i] < 1 || limits[i] > 8;
        for (n = 0; n <= sizeof walk; n++) {
            memset(walk, FILL, sizeof walk);
            hold(guarded(begin, NULL, 0, limits[i], walk, n) == (outside ? 27U : n == SPINDLEWREN_WALK ? 0U : 1U), "begin", n);
            zero[SPINDLEWREN_LIMIT] = (uint8_t)limits[i];
            if (!outside && n == SPINDLEWREN_WALK) hold(memcmp(walk, zero, sizeof zero) == 0, "a walk begun", limits[i]);
        }
    }
    hold(spindlewren_begin(0, NULL, 0) == 27 && spindlewren_begin(3, NULL, 0) == 1, "begin over null", 0);
    calls += 2;
}

/* A state that cannot be: refused, or done at its own place with nothing changed. */
static void states(const uint8_t *record, size_t len) {
    uint8_t walk[SPINDLEWREN_WALK], before[SPINDLEWREN_WALK];
    unsigned n;
    for (n = 0; n < 256; n++) {
        memset(walk, 0, sizeof walk);
        walk[SPINDLEWREN_LOCK] = (uint8_t)n;
        hold(guarded(step, record, len, 0, walk, sizeof walk) == (n < 2 ? 0U : 12U), "lock", n);
        memset(walk, 0, sizeof walk);
        walk[SPINDLEWREN_MISSES] = (uint8_t)n;
        walk[SPINDLEWREN_LOCK] = 1;
        walk[SPINDLEWREN_LIMIT] = 3;
        hold(guarded(step, record, len, 0, walk, sizeof walk) == 0, "misses", n);
        hold(walk[SPINDLEWREN_KIND] == (n < 3 ? SPINDLEWREN_IS_FRAME : SPINDLEWREN_IS_DONE), "misses", n);
        memset(walk, 0, sizeof walk);
        walk[SPINDLEWREN_LIMIT] = (uint8_t)n;
        walk[SPINDLEWREN_LOCK] = n & 1;
        hold(guarded(step, record, len, 0, walk, sizeof walk) == 0, "limit", n);
        hold(walk[SPINDLEWREN_KIND] == (n >= 1 && n <= 8 ? SPINDLEWREN_IS_FRAME : SPINDLEWREN_IS_DONE), "limit", n);
        hold(walk[SPINDLEWREN_LIMIT] == n, "the limit stays", n);
        memset(walk, FILL, sizeof walk);
        walk[SPINDLEWREN_PLACE] = (uint8_t)n;
        walk[SPINDLEWREN_LOCK] = n & 1;
        memcpy(before, walk, sizeof walk);
        hold(guarded(step, record, len, 0, walk, sizeof walk) == 0, "far place", n);
        hold(memcmp(walk, before, SPINDLEWREN_KIND) == 0 && memcmp(walk + SPINDLEWREN_ITEM, before, 8) == 0, "far place", n);
    }
}

/* A null pointer with length 0, for the bytes, for the answer and for both: refused with 1; a walk over no record is done where it stands. */
static void nulls(request *ask, const uint8_t *frame, size_t right) {
    static const uint8_t done[SPINDLEWREN_WALK] = {0, 0, 0, 0, 0, 0, 0, 7, 2, 1, 3, SPINDLEWREN_IS_DONE, 0, 0, 0, 0, 0, 0, 0, 0, 7, 0, 0};
    uint8_t out[SPINDLEWREN_ANSWER];
    memset(out, FILL, sizeof out);
    if (ask == step) memcpy(out, done, SPINDLEWREN_KIND);
    hold(guarded(ask, NULL, 0, 0, out, right) == (ask == step ? 0U : 1U), "null bytes", right);
    if (ask == step) hold(memcmp(out, done, sizeof done) == 0, "a walk over null", right);
    hold(ask(frame, SPINDLEWREN_FRAME, 0, NULL, 0) == 1, "null answer", right);
    hold(ask(NULL, 0, 0, NULL, 0) == 1, "null both", right);
    calls += 2;
}

int main(void) {
    size_t four_len, damaged_len, noise_len, night_len;
    uint8_t answer[SPINDLEWREN_ANSWER];
    uint8_t *four = load("samples/four.eti", &four_len);
    uint8_t *damaged = load("samples/damaged.eti", &damaged_len);
    uint8_t *noise = load("samples/noise.eti", &noise_len);
    uint8_t *night = load("samples/night.eti", &night_len);
    uint8_t *megabyte = calloc(1 << 20, 1);
    memset(answer, FILL, sizeof answer);
    frames(four, damaged);
    hold(guarded(read_frame, four + 12288, SPINDLEWREN_FRAME, 0, answer, sizeof answer) == 2, "broken sync word", 12288);
    hold(guarded(read_frame, megabyte, 1 << 20, 0, answer, sizeof answer) == 1, "a megabyte", 1 << 20);
    lengths(read_frame, four, SPINDLEWREN_ANSWER);
    lengths(fic, four, SPINDLEWREN_PART);
    lengths(stream, four, SPINDLEWREN_PART);
    lengths(step, four, SPINDLEWREN_WALK);
    nulls(read_frame, four, SPINDLEWREN_ANSWER);
    nulls(fic, four, SPINDLEWREN_PART);
    nulls(stream, four, SPINDLEWREN_PART);
    nulls(step, four, SPINDLEWREN_WALK);
    walked(four, four_len, "tests/listing/four.out");
    walked(damaged, damaged_len, "tests/listing/damaged.out");
    walked(noise, noise_len, "tests/listing/noise.out");
    walked(night, night_len, "tests/listing/night.out");
    walked(four, 0, "tests/listing/empty.out");
    begins();
    states(four, four_len);
    rows();
    whys(four, four_len, night, night_len);
    free(four);
    free(damaged);
    free(noise);
    free(night);
    free(megabyte);
    printf("boundary: %lu calls, %s\n", calls, bad ? "FAILED" : "ok");
    return bad;
}
