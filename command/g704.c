/* g704: the frames of a record as multiframes of a leased 2 Mbit/s line, and multiframes as frames. What a record does not have (management, supervision and
   G.704's own bytes) is zero on the way out and left aside on the way back. */
#include "command.h"
#include "json.h"
#include "spindlewren_lines.h"

#include <string.h>

/* The way out: how many frames were sent, how many the variant does not carry, and where the first of these is. */
struct sending {
    size_t variant;
    unsigned long long sent, refused, first;
};

static void send(const uint8_t *frame, uint64_t place, const uint8_t *walk, void *to) {
    static const uint8_t none[SPINDLEWREN_SYNCHRONISING];
    struct sending *s = to;
    uint8_t output[SPINDLEWREN_OUTPUT];
    uint8_t refusal;
    if (walk[SPINDLEWREN_KIND] != SPINDLEWREN_IS_FRAME) return;
    /* a frame that the walk hands out is accepted, and every part has its length: only 23 is left */
    refusal = spindlewren_line_out(frame, SPINDLEWREN_FRAME, s->variant, none, SPINDLEWREN_MANAGEMENT, none, SPINDLEWREN_SUPERVISION, none,
                                   SPINDLEWREN_SYNCHRONISING, none, SPINDLEWREN_SIGNALLING, output, sizeof output);
    if (refusal == SPINDLEWREN_ACCEPTED) {
        fwrite(output, 1, sizeof output, stdout);
        s->sent++;
    } else if (s->refused++ == 0) {
        s->first = place;
    }
}

static void out(const struct request *asked) {
    struct sending s = {asked->variant, 0, 0, 0};
    char reason[128];
    each_item(asked, NULL, send, &s);
    /* where the output cannot be written beside frames that are not sent, both are told below, and no counts */
    if (asked->json && (s.refused == 0 || all_written())) {
        json_begin(stderr);
        json_number("multiframes", s.sent);
        json_number("frames_not_sent", s.refused);
        json_end();
    }
    if (s.refused == 0) return;
    snprintf(reason, sizeof reason, "%llu frames not sent, the first at %llu: %s (refusal %u)", s.refused, s.first, spindlewren_label(SPINDLEWREN_TOO_LONG),
             SPINDLEWREN_TOO_LONG);
    fail(asked->file, reason);
}

/* The way back: what was met; the last, multiframes amiss whose rows are all clean as the other variant has them. */
struct bringing {
    unsigned long long arrays, hit, unmade, wrong, other;
};

static unsigned rows_hit(const uint8_t *array, size_t variant) {
    uint8_t clean[SPINDLEWREN_CODING_ROWS];
    unsigned i, hit = 0;
    spindlewren_line_rows(array, SPINDLEWREN_OUTPUT, variant, clean, sizeof clean);
    for (i = 0; i < sizeof clean; i++) hit += clean[i] == 0;
    return hit;
}

static size_t other_variant(size_t variant) {
    return variant == SPINDLEWREN_5592 ? SPINDLEWREN_5376 : SPINDLEWREN_5592;
}

/* Of a frame made with level 0: reading raises it where the main-stream sum is wrong. */
static int sum_wrong(const uint8_t *frame) {
    uint8_t answer[SPINDLEWREN_ANSWER];
    spindlewren_read(frame, SPINDLEWREN_FRAME, answer, sizeof answer);
    return answer[SPINDLEWREN_LEVEL] != 0;
}

static void bring(const uint8_t *array, size_t variant, struct bringing *b) {
    uint8_t information[SPINDLEWREN_5592], management[SPINDLEWREN_MANAGEMENT], supervision[SPINDLEWREN_SUPERVISION];
    uint8_t synchronising[SPINDLEWREN_SYNCHRONISING], signalling[SPINDLEWREN_SIGNALLING], check[SPINDLEWREN_CHECK_5376];
    uint8_t frame[SPINDLEWREN_FRAME];
    unsigned hit = rows_hit(array, variant);
    int made, wrong;
    /* every part has its length */
    spindlewren_line_back(array, SPINDLEWREN_OUTPUT, variant, information, variant, management, sizeof management, supervision, sizeof supervision, synchronising,
                          sizeof synchronising, signalling, sizeof signalling, check, variant == SPINDLEWREN_5592 ? SPINDLEWREN_CHECK_5592 : SPINDLEWREN_CHECK_5376);
    /* the sync words of the frames that are written take turns */
    made = spindlewren_line_frame(information, variant, variant, (uint8_t)((b->arrays - b->unmade) % 2), 0, frame, sizeof frame) == SPINDLEWREN_ACCEPTED;
    wrong = made && sum_wrong(frame);
    if (made) fwrite(frame, 1, sizeof frame, stdout);
    b->arrays++;
    b->hit += hit;
    b->unmade += !made;
    b->wrong += wrong;
    /* rows that are clean as 5376 are clean as 5592 too, so of such that says nothing */
    if (hit > 0 || (variant == SPINDLEWREN_5592 && (!made || wrong))) b->other += rows_hit(array, other_variant(variant)) == 0;
}

static void brought(const struct request *asked, const struct bringing *b) {
    char told[160];
    snprintf(told, sizeof told, "multiframes %llu, rows not clean %llu, frames not made %llu, main-stream sums wrong %llu", b->arrays, b->hit, b->unmade, b->wrong);
    /* as on the way out */
    if (b->unmade == 0) written();
    if (asked->json && (b->unmade == 0 || all_written())) {
        json_begin(stderr);
        json_number("multiframes", b->arrays);
        json_number("rows_not_clean", b->hit);
        json_number("frames_not_made", b->unmade);
        json_number("sums_wrong", b->wrong);
        json_number("clean_as_other_variant", b->other);
        json_end();
    } else if (b->other > 0) {
        fprintf(stderr, "spindlewren: %s: %llu of the multiframes have all rows clean as variant %u: --variant %u may be meant\n", called(asked->file), b->other,
                (unsigned)other_variant(asked->variant), (unsigned)other_variant(asked->variant));
    }
    if (b->unmade > 0) fail(asked->file, told);
    if (!asked->json) fprintf(stderr, "spindlewren: %s: %s\n", called(asked->file), told);
}

static void back(const struct request *asked) {
    struct record record = map(asked->file);
    struct bringing b = {0, 0, 0, 0, 0};
    size_t at;
    if (record.len % SPINDLEWREN_OUTPUT != 0) fail(asked->file, "not a whole number of multiframes of 6,144 bytes");
    progress_begin(record.len);
    for (at = 0; at < record.len; at += SPINDLEWREN_OUTPUT) {
        bring(record.bytes + at, asked->variant, &b);
        heed(at);
    }
    progress_end();
    brought(asked, &b);
}

void g704(const struct request *asked) {
    if (strcmp(asked->way, "out") == 0) out(asked);
    else back(asked);
}
