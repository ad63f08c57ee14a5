/* list: a line for each item of a record, or of a line as it comes. */
#define _POSIX_C_SOURCE 200809L
#include "command.h"
#include "json.h"

#include <string.h>
#include <unistd.h>

enum { LONGEST = 96 };

/* Lines gather in `text`, at most so many bytes of them, and are written out in one go: a call of stdio for each line would take as long as making it. */
struct listing {
    size_t json;
    int coloured;
    unsigned long long lost, frames;
    size_t most, used;
    char text[1 << 14];
};

static const char *const kinds[] = {"frame", "lost", "idle"};

/* Lines are put together from their end, so that no digit is moved; printf would take a third of the walk's own time. */
static char *text_before(char *end, const char *text) {
    size_t len = strlen(text);
    memcpy(end - len, text, len);
    return end - len;
}

static char *frame_before(char *at, uint64_t place, unsigned fct, unsigned level) {
    *--at = '\n';
    *--at = (char)('0' + level);
    *--at = ' ';
    at = number_before(at, fct);
    at = memcpy(at - 7, " frame ", 7);
    return number_before(at, place);
}

/* A lost mark, which is red in colours, or an idle period, which is dim. */
static char *refused_before(char *at, uint64_t place, unsigned kind, unsigned refusal, int coloured) {
    at = text_before(at, coloured ? " -\033[0m\n" : " -\n");
    at = number_before(at, refusal);
    *--at = ' ';
    at = text_before(at, kinds[kind]);
    *--at = ' ';
    at = number_before(at, place);
    return coloured ? text_before(at, kind == SPINDLEWREN_IS_LOST ? "\033[31m" : "\033[2m") : at;
}

static void write_out(struct listing *l) {
    fwrite(l->text, 1, l->used, stdout);
    l->used = 0;
}

static void as_text(struct listing *l, uint64_t place, unsigned kind, unsigned code, unsigned level) {
    char text[LONGEST], *end = text + sizeof text;
    char *at = kind == SPINDLEWREN_IS_FRAME ? frame_before(end, place, code, level) : refused_before(end, place, kind, code, l->coloured);
    memcpy(l->text + l->used, at, (size_t)(end - at));
    l->used += (size_t)(end - at);
    if (l->used > l->most) write_out(l);
}

static void as_json(uint64_t place, unsigned kind, unsigned code, unsigned level) {
    json_begin(stdout);
    json_number("place", place);
    json_text("kind", kinds[kind]);
    if (kind == SPINDLEWREN_IS_FRAME) {
        json_number("FCT", code);
        json_number("level", level);
    } else {
        json_refusal((uint8_t)code);
    }
    json_end();
}

static void at_end(struct listing *l, unsigned long long place) {
    write_out(l);
    if (!l->json) {
        printf("end %llu\n", place);
        return;
    }
    json_begin(stdout);
    json_number("end", place);
    json_end();
}

static void line(const uint8_t *item, uint64_t place, const uint8_t *walk, void *to) {
    struct listing *l = to;
    unsigned kind = walk[SPINDLEWREN_KIND], code = kind == SPINDLEWREN_IS_FRAME ? walk[SPINDLEWREN_ITEM_FCT] : walk[SPINDLEWREN_NUMBER];
    (void)item;
    if (kind == SPINDLEWREN_IS_DONE) {
        at_end(l, place);
        return;
    }
    l->lost += kind == SPINDLEWREN_IS_LOST;
    l->frames += kind == SPINDLEWREN_IS_FRAME;
    if (l->json) as_json(place, kind, code, walk[SPINDLEWREN_ITEM_LEVEL]);
    else as_text(l, place, kind, code, walk[SPINDLEWREN_ITEM_LEVEL]);
}

void list(const struct request *asked) {
    static struct listing l;
    l.json = asked->json;
    l.coloured = coloured();
    /* what is looked at as it comes waits for nothing */
    if (!is_line(asked->file) && !isatty(STDOUT_FILENO)) l.most = sizeof l.text - LONGEST;
    each_item(asked, "place kind code level", line, &l);
    if (asked->strict && (l.lost > 0 || l.frames == 0)) finish(NOT_ALL);
}
