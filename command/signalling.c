/* signalling: each message that the MNSC bytes of the frames handed out carry, and each drop of a group or message. */
#include "command.h"
#include "json.h"

/* What stands from frame to frame: signalling's own bytes, the buffer of a message, and what was met. */
struct gathering {
    uint8_t signal[SPINDLEWREN_SIGNAL];
    uint8_t bytes[SPINDLEWREN_MESSAGE];
    size_t json;
    unsigned long long frames, messages, dropped;
};

static void message(const struct gathering *g, unsigned long long place) {
    size_t i, len = (size_t)spindlewren_number(g->signal, SPINDLEWREN_SIGNAL_LENGTH, 8);
    printf("%llu: message of type %u, %u bytes:", place, g->signal[SPINDLEWREN_SIGNAL_NUMBER], (unsigned)len);
    for (i = 0; i < len; i++) printf(" %02X", g->bytes[i]);
    putchar('\n');
}

static void message_as_json(const struct gathering *g, unsigned long long place) {
    size_t i, len = (size_t)spindlewren_number(g->signal, SPINDLEWREN_SIGNAL_LENGTH, 8);
    json_begin(stdout);
    json_number("place", place);
    json_text("kind", "message");
    json_number("type", g->signal[SPINDLEWREN_SIGNAL_NUMBER]);
    json_open("bytes", '[');
    for (i = 0; i < len; i++) json_number(NULL, g->bytes[i]);
    json_close(']');
    json_end();
}

static void drop(const struct gathering *g, unsigned long long place) {
    uint8_t number = g->signal[SPINDLEWREN_SIGNAL_NUMBER];
    if (!g->json) {
        printf("%llu: dropped (refusal %u, %s)\n", place, number, spindlewren_label(number));
        return;
    }
    json_begin(stdout);
    json_number("place", place);
    json_text("kind", "dropped");
    json_refusal(number);
    json_end();
}

static void gather(const uint8_t *item, uint64_t place, const uint8_t *walk, void *to) {
    struct gathering *g = to;
    uint8_t answer[SPINDLEWREN_ANSWER];
    if (walk[SPINDLEWREN_KIND] != SPINDLEWREN_IS_FRAME) return;
    /* a frame that the walk hands out is accepted, and the bytes lent have their lengths */
    spindlewren_read(item, SPINDLEWREN_FRAME, answer, sizeof answer);
    spindlewren_signal_step(answer[SPINDLEWREN_FP], (uint16_t)spindlewren_number(answer, SPINDLEWREN_MNSC, 2), g->signal, sizeof g->signal, g->bytes, sizeof g->bytes);
    g->frames++;
    switch (g->signal[SPINDLEWREN_SIGNAL_KIND]) {
    case SPINDLEWREN_IS_MESSAGE:
        g->messages++;
        if (g->json) message_as_json(g, place);
        else message(g, place);
        break;
    case SPINDLEWREN_IS_DROP:
        g->dropped++;
        drop(g, place);
        break;
    default: break;
    }
}

void signalling(const struct request *asked) {
    struct gathering g = {.json = asked->json};
    each_item(asked, "place: signalling", gather, &g);
    if (!asked->json) {
        printf("frames %llu, messages %llu, dropped %llu\n", g.frames, g.messages, g.dropped);
        return;
    }
    json_begin(stdout);
    json_number("frames", g.frames);
    json_number("messages", g.messages);
    json_number("dropped", g.dropped);
    json_end();
}
