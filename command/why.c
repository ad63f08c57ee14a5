/* why: the reason for which a place was aired or not, in one sentence. */
#include "command.h"
#include "json.h"

/* What is told: the reason's name and its sentence; and, where it has them, the kind of what was handed out, a refusal number, the item before the place. */
struct told {
    const char *reason, *sentence, *kind;
    int refused, stepped;
    uint8_t refusal;
    unsigned long long item;
};

/* The refusal number of the period at a place: 1 where the record ends before it does. */
static uint8_t judged(struct record record, size_t place) {
    uint8_t answer[SPINDLEWREN_ANSWER];
    size_t left = record.len - place;
    return spindlewren_read(record.bytes + place, left < SPINDLEWREN_FRAME ? left : SPINDLEWREN_FRAME, answer, sizeof answer);
}

static struct told with_refusal(const char *reason, const char *sentence, uint8_t refusal) {
    struct told told = {.reason = reason, .sentence = sentence, .refused = 1, .refusal = refusal};
    return told;
}

static struct told handed_out(uint8_t refusal) {
    struct told told = {.reason = "handed out", .sentence = "handed out, as a frame", .kind = "frame"};
    if (refusal == SPINDLEWREN_ACCEPTED) return told;
    told = with_refusal("handed out", "handed out, as idle", refusal);
    told.kind = "idle";
    return told;
}

static struct told not_standing(uint8_t refusal) {
    return with_refusal("not standing",
                        refusal == SPINDLEWREN_LENGTH ? "stood, but the record ends before the period after it does" : "stood, but the period after it does not stand", refusal);
}

static struct told reason_of(struct record record, size_t place, const uint8_t *answer) {
    struct told same = {.reason = "same sync word", .sentence = "stood, but the period after it stands with the same sync word"};
    struct told stepped = {.reason = "stepped over", .sentence = "stepped over in lock, from the item at", .stepped = 1};
    stepped.item = spindlewren_number(answer, SPINDLEWREN_BEFORE, 8);
    switch (answer[SPINDLEWREN_REASON]) {
    case SPINDLEWREN_HANDED_OUT: return handed_out(judged(record, place));
    case SPINDLEWREN_LOST: return with_refusal("lost", "lost", answer[SPINDLEWREN_REFUSAL]);
    case SPINDLEWREN_REFUSED: return with_refusal("refused", "hunted over and refused", answer[SPINDLEWREN_REFUSAL]);
    case SPINDLEWREN_NOT_STANDING: return not_standing(judged(record, place + SPINDLEWREN_FRAME));
    case SPINDLEWREN_SAME_SYNC: return same;
    default: return stepped;
    }
}

static void as_text(size_t place, struct told told) {
    printf("%zu: %s", place, told.sentence);
    if (told.refused) printf(" (refusal %u, %s)", told.refusal, spindlewren_label(told.refusal));
    if (told.stepped) printf(" %llu", told.item);
    putchar('\n');
}

static void as_json(size_t place, struct told told) {
    json_begin(stdout);
    json_number("place", place);
    json_text("reason", told.reason);
    if (told.kind != NULL) json_text("kind", told.kind);
    if (told.refused) json_refusal(told.refusal);
    if (told.stepped) json_number("item", told.item);
    json_end();
}

void why(const struct request *asked) {
    struct record record = map(asked->file);
    uint8_t answer[SPINDLEWREN_WHY];
    uint8_t refusal = spindlewren_why(record.bytes, record.len, asked->limit, asked->place, answer, sizeof answer);
    if (refusal == SPINDLEWREN_PLACE_OUTSIDE) refuse_at(asked->file, asked->place, refusal);
    if (refusal != SPINDLEWREN_ACCEPTED) refuse(asked->file, refusal);
    if (asked->json) as_json(asked->place, reason_of(record, asked->place, answer));
    else as_text(asked->place, reason_of(record, asked->place, answer));
}
