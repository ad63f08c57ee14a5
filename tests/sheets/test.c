/* Logs and sheets from C, against a model written from the request: every kind, code and level, every byte of a record damaged, every wrong length, every
   refusal at its edge and in its order; guards around what is lent, which is untouched on a refusal. */
#include <stdio.h>
#include <stdlib.h>
#include <string.h>

#include "spindlewren.h"

enum { GUARD = 16, FILL = 0xA5, MOST = 400, RECORD = SPINDLEWREN_LOG_RECORD, SHEET = SPINDLEWREN_SHEET };

static int bad = 0;
static unsigned long calls = 0;

static void hold(int right, const char *what, unsigned long long at) {
    if (!right) {
        printf("sheets: %s at %llu: FAILED\n", what, at);
        bad = 1;
    }
}

/* ---- the model */
static int allowed(unsigned kind, unsigned code, unsigned level) {
    if (kind == 0) return code <= 249 && level <= 3;
    if (kind == 1) return level == 0xFF && (code == 2 || code == 3 || (code >= 5 && code <= 10));
    return kind == 2 && code == 4 && level == 0xFF;
}

static int good(const uint8_t *record) {
    static const uint8_t zero[5];
    return allowed(record[8], record[9], record[10]) && memcmp(record + 11, zero, 5) == 0;
}

static void put(uint8_t *to, size_t width, unsigned long long n) {
    for (; width-- > 0; n >>= 8) to[width] = (uint8_t)n;
}

/* The number of a log, and the first bad record for 29. */
static unsigned judge(const uint8_t *log, size_t len, size_t *first) {
    size_t i;
    *first = 0;
    if (len % RECORD != 0) return 28;
    for (i = 0; i < len / RECORD; i++)
        if (!good(log + RECORD * i)) {
            *first = i;
            return 29;
        }
    return 0;
}

struct model {
    unsigned long long totals[16], high, low;
    unsigned met, fct;
};

static void write_model(const struct model *m, uint8_t *to) {
    size_t i;
    for (i = 0; i < 16; i++) put(to + 8 * i, 8, m->totals[i]);
    put(to + 128, 8, m->high);
    put(to + 136, 8, m->low);
    to[144] = (uint8_t)m->met;
    to[145] = (uint8_t)m->fct;
}

static int goes_on(const struct model *m, unsigned long long n) {
    size_t i;
    for (i = 0; i < 16; i++)
        if (m->totals[i] > UINT64_MAX - n) return 0;
    if (m->high > UINT64_MAX - n || m->low >= 1000000000 || m->met > 1) return 0;
    return m->met == 0 ? m->fct == 0 : m->fct <= 249;
}

static void add(struct model *m, const uint8_t *log, size_t n) {
    for (; n > 0; n--, log += RECORD) {
        unsigned kind = log[8], code = log[9], level = log[10];
        m->totals[kind == 0 ? level : kind == 1 ? 4 + code : 15]++;
        if (kind != 0) continue;
        if (m->met) m->low += (250 + code - m->fct + 249) % 250;
        m->high += m->low / 1000000000;
        m->low %= 1000000000;
        m->met = 1;
        m->fct = code;
    }
}

/* ---- the calls, each with guards on both sides of what it is lent */
static void writes(size_t place, unsigned kind, unsigned code, unsigned level, size_t lent) {
    uint8_t room[GUARD + 64 + GUARD], due[sizeof room];
    unsigned told, number = lent != RECORD ? 37 : allowed(kind, code, level) ? 0 : 29;
    memset(room, FILL, sizeof room);
    memcpy(due, room, sizeof room);
    if (number == 0) {
        memset(due + GUARD, 0, RECORD);
        put(due + GUARD, 8, place);
        due[GUARD + 8] = (uint8_t)kind;
        due[GUARD + 9] = (uint8_t)code;
        due[GUARD + 10] = (uint8_t)level;
    }
    told = spindlewren_log_write(place, (uint8_t)kind, (uint8_t)code, (uint8_t)level, lent == 0 ? NULL : room + GUARD, lent);
    hold(told == number && memcmp(room, due, sizeof room) == 0, "write", kind << 16 | code << 8 | level);
    calls++;
}

static void judges(const uint8_t *log, size_t len, size_t lent) {
    uint8_t room[GUARD + 32 + GUARD], due[sizeof room];
    unsigned told;
    size_t first;
    memset(room, FILL, sizeof room);
    memcpy(due, room, sizeof room);
    if (lent == SPINDLEWREN_JUDGED) {
        due[GUARD + SPINDLEWREN_LOG_NUMBER] = (uint8_t)judge(log, len, &first);
        put(due + GUARD + SPINDLEWREN_LOG_BAD, 8, first);
    }
    told = spindlewren_log_judged(len == 0 ? NULL : log, len, lent == 0 ? NULL : room + GUARD, lent);
    hold(told == (lent == SPINDLEWREN_JUDGED ? 0 : 1) && memcmp(room, due, sizeof room) == 0, "judged", len);
    calls++;
}

static void reads(const uint8_t *log, size_t len, size_t i, size_t lent) {
    uint8_t room[GUARD + 32 + GUARD], due[sizeof room];
    unsigned told, number = lent != SPINDLEWREN_LOG_ENTRY ? 1 : len % RECORD != 0 ? 28 : i >= len / RECORD ? 34 : good(log + RECORD * i) ? 0 : 29;
    memset(room, FILL, sizeof room);
    memcpy(due, room, sizeof room);
    if (number == 0) memcpy(due + GUARD, log + RECORD * i, SPINDLEWREN_LOG_ENTRY);
    told = spindlewren_log_entry(len == 0 ? NULL : log, len, i, lent == 0 ? NULL : room + GUARD, lent);
    hold(told == number && memcmp(room, due, sizeof room) == 0, "entry", i);
    calls++;
}

/* The model goes on with the log where nothing is refused. */
static unsigned sums(struct model *m, const uint8_t *log, size_t len, size_t lent) {
    uint8_t room[GUARD + 200 + GUARD], due[sizeof room];
    unsigned told, number;
    size_t first;
    memset(room, FILL, sizeof room);
    if (lent >= SHEET) write_model(m, room + GUARD);
    memcpy(due, room, sizeof room);
    number = lent != SHEET ? 1 : judge(log, len, &first);
    if (number == 0 && !goes_on(m, len / RECORD)) number = 12;
    if (number == 0) {
        add(m, log, len / RECORD);
        write_model(m, due + GUARD);
    }
    told = spindlewren_sheet(len == 0 ? NULL : log, len, lent == 0 ? NULL : room + GUARD, lent);
    hold(told == number && memcmp(room, due, sizeof room) == 0, "sheet", len);
    calls++;
    return told;
}

/* ---- logs made to order */
static uint32_t seed = 20261115;
static unsigned any(unsigned below) {
    seed = seed * 1664525 + 1013904223;
    return (seed >> 8) % below;
}

static void record(uint8_t *to, unsigned long long place, unsigned kind, unsigned code, unsigned level) {
    memset(to, 0, RECORD);
    put(to, 8, place);
    to[8] = (uint8_t)kind;
    to[9] = (uint8_t)code;
    to[10] = (uint8_t)level;
}

static void make(uint8_t *log, size_t n) {
    static const unsigned lost[] = {2, 3, 5, 6, 7, 8, 9, 10};
    size_t i;
    for (i = 0; i < n; i++, log += RECORD) {
        unsigned long long place = (unsigned long long)any(65536) << 48 | any(65536);
        unsigned kind = any(5);
        if (kind == 1)
            record(log, place, 1, lost[any(8)], 0xFF);
        else if (kind == 2)
            record(log, place, 2, 4, 0xFF);
        else
            record(log, place, 0, any(250), any(4));
    }
}

static void test_records(void) {
    static const unsigned kinds[] = {0, 1, 2, 3, 4, 255};
    unsigned k, code, level;
    size_t lent;
    for (k = 0; k < sizeof kinds / sizeof kinds[0]; k++)
        for (code = 0; code < 256; code++)
            for (level = 0; level < 256; level++) writes((size_t)0xFEDCBA9876543210 + code, kinds[k], code, level, RECORD);
    for (lent = 0; lent <= 64; lent++) {
        writes(6144, 0, 249, 3, lent);
        writes(6144, 3, 0, 0xFF, lent);
    }
    writes(SIZE_MAX, 1, 10, 0xFF, RECORD);
}

static void test_judging(void) {
    uint8_t log[RECORD * 5], once[sizeof log];
    size_t at, other, len, lent;
    unsigned value;
    make(log, 5);
    for (len = 0; len <= sizeof log; len++)
        for (lent = 0; lent <= 12; lent++) {
            judges(log, len, lent);
            reads(log, len, 0, lent);
            reads(log, len, len / RECORD, lent);
            reads(log, len, SIZE_MAX, lent);
            reads(log, len, len / RECORD - 1, lent);
        }
    /* every byte with every value, alone and with another record bad too */
    for (at = 0; at < sizeof log; at++)
        for (value = 0; value < 256; value++) {
            memcpy(once, log, sizeof once);
            once[at] = (uint8_t)value;
            judges(once, sizeof once, SPINDLEWREN_JUDGED);
            reads(once, sizeof once, at / RECORD, SPINDLEWREN_LOG_ENTRY);
            reads(once, sizeof once, (at / RECORD + 1) % 5, SPINDLEWREN_LOG_ENTRY);
            other = any(5);
            once[RECORD * other + 15] = 1;
            judges(once, sizeof once, SPINDLEWREN_JUDGED);
        }
}

static void test_sheets(void) {
    static uint8_t week[RECORD * MOST * 7];
    struct model joined, nights;
    unsigned turn, night;
    for (turn = 0; turn < 300; turn++) {
        size_t at = 0, n;
        memset(&nights, 0, sizeof nights);
        memset(&joined, 0, sizeof joined);
        for (night = 0; night < 7; night++, at += n) {
            n = any(MOST);
            if (any(4) == 0) n = any(3);
            make(week + RECORD * at, n);
            hold(sums(&nights, week + RECORD * at, RECORD * n, SHEET) == 0, "a night", night);
        }
        hold(sums(&joined, week, RECORD * at, SHEET) == 0, "a week", at);
        hold(memcmp(&joined, &nights, sizeof joined) == 0, "seven nights", at);
    }
    /* one FCT after another, each pair of them */
    for (turn = 0; turn < 250 * 250; turn++) {
        memset(&joined, 0, sizeof joined);
        record(week, 0, 0, turn / 250, 0);
        record(week + RECORD, 0, 1, 2, 0xFF);
        record(week + 2 * RECORD, 0, 0, turn % 250, 0);
        sums(&joined, week, 3 * RECORD, SHEET);
        hold(joined.low == (turn % 250 + 250 - turn / 250 + 249) % 250, "a pair", turn);
    }
}

static void test_refusals(void) {
    uint8_t log[RECORD * 5];
    struct model m, clean;
    size_t i, n, lent;
    unsigned met, fct;
    memset(&clean, 0, sizeof clean);
    make(log, 5);
    for (lent = 0; lent <= 160; lent++) {
        m = clean;
        sums(&m, log, sizeof log, lent);
        sums(&m, log, 17, lent);
    }
    for (n = 0; n <= 5; n++) {
        for (i = 0; i < 16; i++) {
            m = clean;
            m.totals[i] = UINT64_MAX - n;
            hold(sums(&m, log, RECORD * n, SHEET) == 0, "a total at its limit", i);
            m = clean;
            m.totals[i] = UINT64_MAX - n + (n != 0);
            hold(sums(&m, log, RECORD * n, SHEET) == (n == 0 ? 0 : 12), "a total above", i);
        }
        m = clean;
        m.high = UINT64_MAX - n;
        m.low = 999999999;
        m.met = 1;
        hold(sums(&m, log, RECORD * n, SHEET) == 0, "high at its limit", n);
        m = clean;
        m.high = UINT64_MAX - n + (n != 0);
        hold(sums(&m, log, RECORD * n, SHEET) == (n == 0 ? 0 : 12), "high above", n);
        m = clean;
        m.low = 1000000000;
        hold(sums(&m, log, RECORD * n, SHEET) == 12, "low above", n);
        for (met = 0; met < 256; met++)
            for (fct = 0; fct < 256; fct++) {
                m = clean;
                m.met = met;
                m.fct = fct;
                sums(&m, log, RECORD * n, SHEET);
            }
    }
    /* 28 before 29 before 12, and 1 before all of them */
    m = clean;
    m.met = 2;
    log[RECORD * 3 + 8] = 3;
    hold(sums(&m, log, sizeof log - 1, SHEET) == 28, "28 first", 0);
    hold(sums(&m, log, sizeof log, SHEET) == 29, "29 then", 0);
    hold(sums(&m, log, RECORD * 3, SHEET) == 12, "12 last", 0);
    hold(sums(&m, log, sizeof log - 1, SHEET - 1) == 1, "1 before all", 0);
    /* a bad record behind good ones: nothing is kept of these */
    m = clean;
    hold(sums(&m, log, sizeof log, SHEET) == 29, "a bad record", 3);
}

int main(void) {
    test_records();
    test_judging();
    test_sheets();
    test_refusals();
    if (!bad) printf("sheets: %lu calls held\n", calls);
    return bad;
}
