/* extract: the bytes of one stream, or of the FIC, of every frame handed out, to standard output. */
#include "command.h"
#include "json.h"

#include <string.h>

/* What is taken out, whether periods without it are filled, how many bytes the last part had; and what was met: any frame, and those that have the part. */
struct taking {
    int fic, handed_out;
    size_t fill, stream, last;
    unsigned long long frames, filled, bytes;
};

static void put(const uint8_t *bytes, struct taking *t) {
    fwrite(bytes, 1, t->last, stdout);
    t->bytes += t->last;
}

/* A period that has not the part: a lost or idle one, or a frame without that stream. */
static void fill(struct taking *t) {
    static const uint8_t zeros[SPINDLEWREN_FRAME];
    if (!t->fill || t->last == 0) return;
    put(zeros, t);
    t->filled++;
}

static void take(const uint8_t *frame, uint64_t place, const uint8_t *walk, void *to) {
    struct taking *t = to;
    uint8_t part[SPINDLEWREN_PART];
    uint8_t refusal;
    (void)place;
    if (walk[SPINDLEWREN_KIND] == SPINDLEWREN_IS_DONE) return;
    if (walk[SPINDLEWREN_KIND] != SPINDLEWREN_IS_FRAME) {
        fill(t);
        return;
    }
    refusal = t->fic ? spindlewren_fic(frame, SPINDLEWREN_FRAME, part, sizeof part) : spindlewren_stream(frame, SPINDLEWREN_FRAME, t->stream, part, sizeof part);
    t->handed_out = 1;
    if (refusal != SPINDLEWREN_ACCEPTED) {
        fill(t);
        return;
    }
    t->last = (size_t)spindlewren_number(part, SPINDLEWREN_LEN, 2);
    t->frames++;
    put(frame + spindlewren_number(part, SPINDLEWREN_START, 2), t);
}

void extract(const struct request *asked) {
    struct taking t = {.fic = strcmp(asked->part, "fic") == 0, .fill = asked->fill};
    if (!t.fic) digits(asked->part, &t.stream);
    each_item(asked, NULL, take, &t);
    if (t.frames == 0) fail(asked->file, t.handed_out ? "no frame handed out has that stream" : "no frame is handed out");
    if (t.fic && t.bytes == 0) fail(asked->file, "no frame handed out has a FIC");
    if (!asked->json) return;
    json_begin(stderr);
    json_number("frames", t.frames);
    json_number("filled", t.filled);
    json_number("bytes", t.bytes);
    json_end();
}
