/* sheet: what one log or several joined add up to, in words. */
#include "command.h"
#include "json.h"

#include <string.h>

const unsigned sheet_rows[SHEET_ROWS] = {0, 1, 2, 3, 6, 7, 9, 10, 11, 12, 13, 14, SPINDLEWREN_IDLE_ROW};

void name_row(unsigned row, char *text, size_t size) {
    static const char *const levels[] = {"no damage known", "as it came", "main-stream sum wrong, or as it came", "the worst, as it came"};
    if (row < SPINDLEWREN_LOST_ROW)
        snprintf(text, size, "frames at level %u: %s", row, levels[row]);
    else if (row == SPINDLEWREN_IDLE_ROW)
        snprintf(text, size, "idle: %s", spindlewren_label(SPINDLEWREN_NULL));
    else
        snprintf(text, size, "lost, refusal %u: %s", row - SPINDLEWREN_LOST_ROW, spindlewren_label((uint8_t)(row - SPINDLEWREN_LOST_ROW)));
}

static int allowed(const uint8_t *record, uint8_t level) {
    uint8_t bytes[SPINDLEWREN_LOG_RECORD];
    return spindlewren_log_write(0, record[SPINDLEWREN_LOG_KIND], record[SPINDLEWREN_LOG_CODE], level, bytes, sizeof bytes) == SPINDLEWREN_ACCEPTED;
}

/* What is wrong in a bad record: the kind, else the code, if no level would do, else the level, else the tail. */
static void tell_bad(const char *file, unsigned long long number, const uint8_t *record) {
    static const char *const kinds[] = {"a frame", "a lost mark", "an idle item"};
    unsigned kind = record[SPINDLEWREN_LOG_KIND], code = record[SPINDLEWREN_LOG_CODE], level = record[SPINDLEWREN_LOG_LEVEL];
    char reason[160];
    int n = snprintf(reason, sizeof reason, "record %llu, at byte %llu: ", number, number * SPINDLEWREN_LOG_RECORD);
    char *rest = reason + n;
    size_t room = sizeof reason - (size_t)n;
    if (kind >= SPINDLEWREN_IS_DONE)
        snprintf(rest, room, "kind %u is none of 0, 1 and 2 (refusal 29)", kind);
    else if (!allowed(record, 0) && !allowed(record, 0xFF))
        snprintf(rest, room, "code %u is not one of %s (refusal 29)", code, kinds[kind]);
    else if (!allowed(record, record[SPINDLEWREN_LOG_LEVEL]))
        snprintf(rest, room, "level %u is not one of %s (refusal 29)", level, kinds[kind]);
    else
        snprintf(rest, room, "its last five bytes are not all zero (refusal 29)");
    fail(file, reason);
}

struct record add_log(const char *file, uint8_t *sheet) {
    struct record log = map(file);
    uint8_t judged[SPINDLEWREN_JUDGED];
    size_t bad;
    uint8_t refusal = spindlewren_sheet(log.bytes, log.len, sheet, SPINDLEWREN_SHEET);
    if (refusal == SPINDLEWREN_ACCEPTED) return log;
    if (refusal != SPINDLEWREN_NOT_ALLOWED) refuse(file, refusal);
    spindlewren_log_judged(log.bytes, log.len, judged, sizeof judged);
    bad = (size_t)spindlewren_number(judged, SPINDLEWREN_LOG_BAD, 8);
    tell_bad(file, bad, log.bytes + SPINDLEWREN_LOG_RECORD * bad);
    return log;
}

unsigned long long total(const uint8_t *sheet, unsigned row) {
    return spindlewren_number(sheet, SPINDLEWREN_TOTALS + 8 * row, 8);
}

unsigned long long all_items(const uint8_t *sheet) {
    unsigned long long all = 0;
    unsigned row;
    for (row = 0; row < SPINDLEWREN_SHEET_ROWS; row++) all += total(sheet, row);
    return all;
}

void missing_frames(const uint8_t *sheet, char *text) {
    unsigned long long high = spindlewren_number(sheet, SPINDLEWREN_HIGH, 8), low = spindlewren_number(sheet, SPINDLEWREN_LOW, 8);
    if (high == 0)
        snprintf(text, MISSING_DIGITS, "%llu", low);
    else
        snprintf(text, MISSING_DIGITS, "%llu%09llu", high, low);
}

unsigned share(unsigned long long n, unsigned long long all) {
    unsigned hundredths, place;
    if (all == 0) return 0;
    /* digit by digit, so that nothing overflows */
    hundredths = (unsigned)(n / all);
    for (place = 0; place < 4; place++) {
        n = n % all * 10;
        hundredths = hundredths * 10 + (unsigned)(n / all);
    }
    n %= all;
    return hundredths + (n >= all - n);
}

static void line(const uint8_t *sheet, unsigned row, unsigned long long all, int wide) {
    char what[96];
    unsigned part = share(total(sheet, row), all);
    name_row(row, what, sizeof what);
    printf("%*llu %5u.%02u  %s\n", wide, total(sheet, row), part / 100, part % 100, what);
}

static void table(const struct request *asked, const uint8_t *sheet) {
    char missing[MISSING_DIGITS], items[MISSING_DIGITS];
    unsigned long long all = all_items(sheet);
    int wide = (int)strlen("items"), n;
    size_t i;
    missing_frames(sheet, missing);
    n = snprintf(items, sizeof items, "%llu", all);
    if (n > wide) wide = n;
    if ((int)strlen(missing) > wide) wide = (int)strlen(missing);
    printf("%*s per cent  what\n", wide, "items");
    for (i = 0; i < SHEET_ROWS; i++) line(sheet, sheet_rows[i], all, wide);
    printf("%*s %5u.00  all items, of %zu %s\n", wide, items, all == 0 ? 0 : 100, asked->count, asked->count == 1 ? "log" : "logs joined");
    printf("%*s           frames missing by FCT, from each frame to the next\n", wide, missing);
}

static void as_json(const struct request *asked, const uint8_t *sheet) {
    char missing[MISSING_DIGITS], number[4];
    size_t i;
    missing_frames(sheet, missing);
    json_begin(stdout);
    json_number("logs", asked->count);
    json_number("items", all_items(sheet));
    json_open("frames_at_level", '[');
    for (i = 0; i < SPINDLEWREN_LOST_ROW; i++) json_number(NULL, total(sheet, sheet_rows[i]));
    json_close(']');
    json_open("lost_by_refusal", '{');
    for (; i + 1 < SHEET_ROWS; i++) {
        snprintf(number, sizeof number, "%u", sheet_rows[i] - SPINDLEWREN_LOST_ROW);
        json_number(number, total(sheet, sheet_rows[i]));
    }
    json_close('}');
    json_number("idle", total(sheet, SPINDLEWREN_IDLE_ROW));
    json_raw("frames_missing", missing);
    json_end();
}

void sheet(const struct request *asked) {
    uint8_t bytes[SPINDLEWREN_SHEET];
    size_t i;
    memset(bytes, 0, sizeof bytes);
    for (i = 0; i < asked->count; i++) add_log(asked->files[i], bytes);
    if (asked->html) page(asked, bytes);
    else if (asked->json) as_json(asked, bytes);
    else table(asked, bytes);
}
