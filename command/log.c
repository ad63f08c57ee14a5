/* log: the fault log of a record, a record of sixteen bytes for each item but done. */
#include "command.h"
#include "json.h"

struct logging {
    const char *file;
    unsigned long long records;
};

static void keep(const uint8_t *item, uint64_t place, const uint8_t *walk, void *to) {
    struct logging *l = to;
    uint8_t kind = walk[SPINDLEWREN_KIND], code = walk[SPINDLEWREN_NUMBER], level = 0xFF;
    uint8_t bytes[SPINDLEWREN_LOG_RECORD], refusal;
    (void)item;
    if (kind == SPINDLEWREN_IS_DONE) return;
    if (kind == SPINDLEWREN_IS_FRAME) {
        code = walk[SPINDLEWREN_ITEM_FCT];
        level = walk[SPINDLEWREN_ITEM_LEVEL];
    }
    /* never refused, by proof */
    refusal = spindlewren_log_write((size_t)place, kind, code, level, bytes, sizeof bytes);
    if (refusal != SPINDLEWREN_ACCEPTED) refuse(l->file, refusal);
    fwrite(bytes, sizeof bytes, 1, stdout);
    l->records++;
}

void keep_log(const struct request *asked) {
    struct logging l = {asked->file, 0};
    each_item(asked, NULL, keep, &l);
    if (!asked->json) return;
    json_begin(stderr);
    json_number("records", l.records);
    json_number("bytes", SPINDLEWREN_LOG_RECORD * l.records);
    json_end();
}
