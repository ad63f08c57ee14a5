/* The page of sheet --html: each log as a strip in time, and the totals as bars. No script, nothing fetched; its size does not grow with a log's. */
#include "command.h"

#include <stdio.h>
#include <string.h>

/* A strip has at most so many columns, of whole periods of 24 ms; it is as many units wide. */
enum { COLUMNS = 600, PERIOD = 6144, MS = 24, MINUTE = 2500, LEFT = 380, RIGHT = 170, LANE = 22, TALL = 16, WIDE = LEFT + COLUMNS + RIGHT, TEXT = 160 };

/* What a strip shows: how many items of each row stand in each column, and how many periods a column has. */
struct strip {
    unsigned long long counts[SHEET_ROWS][COLUMNS];
    unsigned long long first[SHEET_ROWS], last[SHEET_ROWS];
    unsigned long long periods, each;
    unsigned columns;
};

static const char *const colours[SHEET_ROWS] = {"#009e73", "#e69f00", "#d55e00", "#a00000", "#332288", "#332288", "#332288",
                                                "#332288", "#332288", "#332288", "#332288", "#332288", "#56b4e9"};

/* A name as text of the page: what is not printable ASCII is a question mark. */
static void text(const char *name) {
    for (; *name != '\0'; name++) {
        switch (*name) {
        case '&': fputs("&amp;", stdout); break;
        case '<': fputs("&lt;", stdout); break;
        case '>': fputs("&gt;", stdout); break;
        case '"': fputs("&quot;", stdout); break;
        default: putchar(*name >= ' ' && *name <= '~' ? *name : '?');
        }
    }
}

/* So many periods as a time: in seconds where `scale`, as many periods or more, are less than a minute, else in hours, minutes and seconds. */
static const char *time_of(unsigned long long periods, unsigned long long scale, char *to) {
    unsigned long long s = periods / 125 * 3 + periods % 125 * MS / 1000, ms = periods % 125 * MS % 1000;
    if (scale < MINUTE)
        snprintf(to, TEXT, "%llu.%03llu s", s, ms);
    else
        snprintf(to, TEXT, "%llu:%02llu:%02llu", s / 3600, s / 60 % 60, s % 60);
    return to;
}

static size_t lane_of(const uint8_t *entry) {
    unsigned kind = entry[SPINDLEWREN_LOG_KIND], row = SPINDLEWREN_IDLE_ROW;
    size_t lane = 0;
    if (kind == SPINDLEWREN_IS_FRAME) row = entry[SPINDLEWREN_LOG_LEVEL];
    if (kind == SPINDLEWREN_IS_LOST) row = SPINDLEWREN_LOST_ROW + entry[SPINDLEWREN_LOG_CODE];
    while (sheet_rows[lane] != row) lane++;
    return lane;
}

/* The entries of a good log: the period at which each stands, by its place. */
static unsigned long long entry_at(struct record log, size_t i, uint8_t *entry) {
    spindlewren_log_entry(log.bytes, log.len, i, entry, SPINDLEWREN_LOG_ENTRY);
    return spindlewren_number(entry, SPINDLEWREN_LOG_PLACE, 8) / PERIOD;
}

static void fill(struct record log, struct strip *strip) {
    uint8_t entry[SPINDLEWREN_LOG_ENTRY];
    size_t i, lane, n = log.len / SPINDLEWREN_LOG_RECORD;
    memset(strip, 0, sizeof *strip);
    for (i = 0; i < n; i++) {
        unsigned long long period = entry_at(log, i, entry);
        if (period >= strip->periods) strip->periods = period + 1;
    }
    strip->each = strip->periods == 0 ? 1 : (strip->periods - 1) / COLUMNS + 1;
    strip->columns = (unsigned)((strip->periods + strip->each - 1) / strip->each);
    for (i = 0; i < n; i++) {
        unsigned long long period = entry_at(log, i, entry), column = period / strip->each;
        unsigned long long *count;
        lane = lane_of(entry);
        count = strip->counts[lane];
        if (strip->last[lane] == 0 || period < strip->first[lane]) strip->first[lane] = period;
        if (period + 1 > strip->last[lane]) strip->last[lane] = period + 1;
        count[column]++;
    }
}

/* Marks of one lane: from its floor up, as tall as the share of the column's periods, and at least 3 so that one is seen. */
static void marks(const struct strip *strip, size_t lane, unsigned floor) {
    unsigned column = 0;
    printf("<path fill=\"%s\" d=\"", colours[lane]);
    while (column < strip->columns) {
        unsigned from = column, left, right, tall = 0;
        for (; column < strip->columns; column++) {
            unsigned long long n = strip->counts[lane][column], most = n > strip->each ? n : strip->each;
            unsigned here = n == 0 ? 0 : (unsigned)((double)TALL * (double)n / (double)most + 0.5);
            if (n != 0 && here < 3) here = 3;
            if (column == from) tall = here;
            if (here != tall) break;
        }
        left = LEFT + from * COLUMNS / strip->columns;
        right = LEFT + column * COLUMNS / strip->columns;
        if (tall != 0) printf("M%u %uh%uv-%uh-%uz", left, floor, right - left, tall, right - left);
    }
    printf("\"/>");
}

static void lane(const struct strip *strip, const uint8_t *sheet, size_t row, unsigned y) {
    char what[TEXT], from[TEXT], to[TEXT];
    unsigned long long n = total(sheet, sheet_rows[row]);
    unsigned part = share(n, all_items(sheet));
    name_row(sheet_rows[row], what, sizeof what);
    printf("<g><title>%s: %llu of %llu items, the first at %s, the last at %s</title>", what, n, all_items(sheet), time_of(strip->first[row], strip->periods, from),
           time_of(strip->last[row] - 1, strip->periods, to));
    printf("<text x=\"%d\" y=\"%u\" text-anchor=\"end\">%s</text>", LEFT - 8, y + TALL - 4, what);
    printf("<rect x=\"%d\" y=\"%u\" width=\"%d\" height=\"%d\" fill=\"#f2f2f2\"/>", LEFT, y, COLUMNS, TALL);
    marks(strip, row, y + TALL);
    printf("<text x=\"%d\" y=\"%u\">%llu (%u.%02u per cent)</text></g>\n", LEFT + COLUMNS + 8, y + TALL - 4, n, part / 100, part % 100);
}

/* The scale under the lanes: the beginning, up to three times between, and the end of the last period. */
static void scale(const struct strip *strip, unsigned y) {
    char at[TEXT];
    unsigned long long step = (strip->periods + 3) / 4, period = 0;
    for (;;) {
        unsigned x = LEFT + (unsigned)((double)COLUMNS * (double)period / ((double)strip->columns * (double)strip->each) + 0.5);
        printf("<path stroke=\"#555\" d=\"M%u %uv6\"/><text x=\"%u\" y=\"%u\" text-anchor=\"middle\">%s</text>", x, y, x, y + 18, time_of(period, strip->periods, at));
        if (period == strip->periods) break;
        period = strip->periods - period < step ? strip->periods : period + step;
    }
    printf("\n");
}

/* One log: a lane for each row that has items, the time from left to right. */
static void night(const char *name, size_t number) {
    static struct strip strip;
    uint8_t sheet[SPINDLEWREN_SHEET];
    char all[TEXT], column[TEXT];
    struct record log;
    unsigned y = 0, lanes = 0;
    size_t row;
    memset(sheet, 0, sizeof sheet);
    log = add_log(name, sheet);
    fill(log, &strip);
    for (row = 0; row < SHEET_ROWS; row++) lanes += total(sheet, sheet_rows[row]) != 0;
    printf("<h2>");
    text(called(name));
    printf("</h2>\n");
    if (lanes == 0) {
        printf("<p>The log is empty.</p>\n");
        return;
    }
    time_of(strip.periods, strip.periods, all);
    time_of(strip.each, strip.each, column);
    printf("<p>%llu items in %s of the record. Time runs from left to right by an item's place, 24 ms for each period of 6,144 bytes; one column is %s. A mark is as tall as "
           "its share of the column, and never too small to be seen; where no lane has one, nothing was handed out.</p>\n", all_items(sheet), all, column);
    printf("<svg xmlns=\"http://www.w3.org/2000/svg\" role=\"img\" aria-labelledby=\"t%zu d%zu\" viewBox=\"0 0 %d %u\">\n<title id=\"t%zu\">", number, number, WIDE,
           lanes * LANE + 30, number);
    text(called(name));
    printf(" in time</title>\n<desc id=\"d%zu\">A strip of %s, a lane for each kind of item that occurs, with its name on the left and how many there are on the "
           "right.</desc>\n", number, all);
    for (row = 0; row < SHEET_ROWS; row++) {
        if (total(sheet, sheet_rows[row]) == 0) continue;
        lane(&strip, sheet, row, y);
        y += LANE;
    }
    scale(&strip, y);
    printf("</svg>\n");
}

static void bars(const uint8_t *sheet) {
    char what[TEXT];
    unsigned long long all = all_items(sheet);
    unsigned y = 0;
    size_t row;
    printf("<svg xmlns=\"http://www.w3.org/2000/svg\" role=\"img\" aria-labelledby=\"t0 d0\" viewBox=\"0 0 %d %d\">\n<title id=\"t0\">Totals</title>\n", WIDE, SHEET_ROWS * LANE);
    printf("<desc id=\"d0\">A bar for each kind of item, with its name on the left and how many there are on the right; the whole width is all %llu items.</desc>\n", all);
    for (row = 0; row < SHEET_ROWS; row++, y += LANE) {
        unsigned long long n = total(sheet, sheet_rows[row]);
        unsigned part = share(n, all), wide = n == 0 ? 0 : part * COLUMNS / 10000;
        name_row(sheet_rows[row], what, sizeof what);
        if (n != 0 && wide == 0) wide = 1;
        printf("<g><title>%s: %llu</title><text x=\"%d\" y=\"%u\" text-anchor=\"end\">%s</text>", what, n, LEFT - 8, y + TALL - 4, what);
        printf("<rect x=\"%d\" y=\"%u\" width=\"%d\" height=\"%d\" fill=\"#f2f2f2\"/>", LEFT, y, COLUMNS, TALL);
        printf("<rect x=\"%d\" y=\"%u\" width=\"%u\" height=\"%d\" fill=\"%s\"/>", LEFT, y, wide, TALL, colours[row]);
        printf("<text x=\"%d\" y=\"%u\">%llu (%u.%02u per cent)</text></g>\n", LEFT + COLUMNS + 8, y + TALL - 4, n, part / 100, part % 100);
    }
    printf("</svg>\n");
}

void page(const struct request *asked, const uint8_t *sheet) {
    char missing[MISSING_DIGITS];
    size_t i;
    missing_frames(sheet, missing);
    puts("<!DOCTYPE html>\n<html xmlns=\"http://www.w3.org/1999/xhtml\" lang=\"en\">\n<head>\n<meta charset=\"utf-8\"/>\n<title>Sheet of frames, lost marks and idle periods</title>\n"
         "<style>body { font: 15px sans-serif; color: #111; background: #fff; max-width: 1150px; margin: 1em auto; padding: 0 1em } svg { width: 100%; height: auto } "
         "svg text { font: 12px sans-serif }</style>\n</head>\n<body>\n<h1>Sheet of frames, lost marks and idle periods</h1>");
    printf("<p>%llu items of %zu %s. Frames missing by FCT, from each frame to the next: %s.</p>\n<h2>Totals</h2>\n", all_items(sheet), asked->count,
           asked->count == 1 ? "log" : "logs joined", missing);
    bars(sheet);
    for (i = 0; i < asked->count; i++) night(asked->files[i], i + 1);
    puts("</body>\n</html>");
}
