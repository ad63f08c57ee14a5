/* profile: of each frame handed out, whether it passes the final-stage profile, and which streams are in the way. */
#include "command.h"
#include "json.h"

struct count {
    size_t json;
    unsigned long long frames, passing;
};

static unsigned field(const uint8_t *answer, size_t stream, size_t at, size_t width) {
    return (unsigned)spindlewren_number(answer, spindlewren_entry(stream) + at, width);
}

/* The streams that a number of the profile is about, by their place in the table. */
static void streams(const uint8_t *frame, const uint8_t *found) {
    uint8_t answer[SPINDLEWREN_ANSWER];
    unsigned first = found[SPINDLEWREN_FIRST], second = found[SPINDLEWREN_SECOND];
    spindlewren_read(frame, SPINDLEWREN_FRAME, answer, sizeof answer);
    switch (found[SPINDLEWREN_PROFILE]) {
    case SPINDLEWREN_EQUAL_SCIDS: printf("streams %u and %u, SCID %u\n", first, second, field(answer, first, SPINDLEWREN_SCID, 1)); break;
    case SPINDLEWREN_NO_SIZE:
        printf("stream %u, TPL %u, STL %u\n", first, field(answer, first, SPINDLEWREN_TPL, 1), field(answer, first, SPINDLEWREN_STL, 2));
        break;
    case SPINDLEWREN_BEYOND: printf("stream %u, from unit %u on\n", first, field(answer, first, SPINDLEWREN_SAD, 2)); break;
    default:
        printf("streams %u and %u, from units %u and %u on\n", first, second, field(answer, first, SPINDLEWREN_SAD, 2),
               field(answer, second, SPINDLEWREN_SAD, 2));
    }
}

/* The same by name: the streams, and what it is in their entries. */
static void streams_as_json(const uint8_t *frame, const uint8_t *found) {
    uint8_t answer[SPINDLEWREN_ANSWER];
    unsigned first = found[SPINDLEWREN_FIRST], second = found[SPINDLEWREN_SECOND];
    spindlewren_read(frame, SPINDLEWREN_FRAME, answer, sizeof answer);
    json_open("streams", '[');
    json_number(NULL, first);
    if (second != first) json_number(NULL, second);
    json_close(']');
    switch (found[SPINDLEWREN_PROFILE]) {
    case SPINDLEWREN_EQUAL_SCIDS: json_number("SCID", field(answer, first, SPINDLEWREN_SCID, 1)); break;
    case SPINDLEWREN_NO_SIZE:
        json_number("TPL", field(answer, first, SPINDLEWREN_TPL, 1));
        json_number("STL", field(answer, first, SPINDLEWREN_STL, 2));
        break;
    default:
        json_open("SAD", '[');
        json_number(NULL, field(answer, first, SPINDLEWREN_SAD, 2));
        if (second != first) json_number(NULL, field(answer, second, SPINDLEWREN_SAD, 2));
        json_close(']');
    }
}

static void as_json(unsigned long long place, const uint8_t *frame, const uint8_t *found) {
    uint8_t number = found[SPINDLEWREN_PROFILE];
    json_begin(stdout);
    json_number("place", place);
    json_raw("passes", number == 0 ? "true" : "false");
    if (number != 0) {
        json_refusal(number);
        streams_as_json(frame, found);
    }
    json_end();
}

static void as_text(unsigned long long place, const uint8_t *frame, const uint8_t *found) {
    uint8_t number = found[SPINDLEWREN_PROFILE];
    printf("%llu: ", place);
    if (number == 0) {
        puts("passes");
    } else {
        printf("does not pass (refusal %u, %s): ", number, spindlewren_label(number));
        streams(frame, found);
    }
}

static void judge(const uint8_t *item, uint64_t place, const uint8_t *walk, void *to) {
    struct count *count = to;
    uint8_t found[SPINDLEWREN_COLLISION];
    if (walk[SPINDLEWREN_KIND] != SPINDLEWREN_IS_FRAME) return;
    /* a frame that the walk hands out is accepted */
    spindlewren_collision(item, SPINDLEWREN_FRAME, found, sizeof found);
    count->frames++;
    count->passing += found[SPINDLEWREN_PROFILE] == 0;
    if (count->json) as_json(place, item, found);
    else as_text(place, item, found);
}

static void in_all(const struct count *count) {
    if (!count->json) {
        printf("frames %llu, passing %llu\n", count->frames, count->passing);
        return;
    }
    json_begin(stdout);
    json_number("frames", count->frames);
    json_number("passing", count->passing);
    json_end();
}

void profile(const struct request *asked) {
    struct count count = {asked->json, 0, 0};
    each_item(asked, "place: profile", judge, &count);
    in_all(&count);
    if (asked->strict && (count.passing < count.frames || count.frames == 0)) finish(NOT_ALL);
}
