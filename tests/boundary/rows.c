/* The frames of the scope's bench figures, built from its field widths, and what the exports must answer. */
#include "test.h"

#include <string.h>

/* A figure: the fields, what is wrong with the sums, and the number, level and FL that it names. */
struct row {
    const char *name;
    unsigned status, fct, ficf, nst, fp, mid, stl[3], bad_header, bad_main;
    unsigned number, level, fl;
};

static const struct row figures[] = {
    {"NST 0, FICF 0", 0xFF, 0, 0, 0, 0, 1, {0, 0, 0}, 0, 0, 0, 0, 1},
    {"NST 0, FICF 1, MID 3", 0xFF, 0, 1, 0, 0, 3, {0, 0, 0}, 0, 0, 0, 0, 33},
    {"NST 1, FICF 1, MID 1, STL 24", 0xFF, 0, 1, 1, 0, 1, {24, 0, 0}, 0, 0, 0, 0, 74},
    {"FCT 249, FP 5, MID 2", 0xFF, 249, 1, 1, 5, 2, {24, 0, 0}, 0, 0, 0, 0, 74},
    {"level 0, main-stream sum wrong", 0xFF, 0, 1, 1, 0, 1, {24, 0, 0}, 0, 1, 0, 2, 74},
    {"level 3, main-stream sum wrong", 0x00, 0, 1, 1, 0, 1, {24, 0, 0}, 0, 1, 0, 3, 74},
    {"3 streams, STL total 764", 0xFF, 0, 0, 3, 0, 1, {255, 255, 254}, 0, 0, 0, 0, 1532},
    {"2 streams, STL total 765", 0xFF, 0, 0, 2, 0, 1, {383, 382, 0}, 0, 0, 10, 0, 1533},
    {"STL 684", 0xFF, 0, 0, 1, 0, 1, {684, 0, 0}, 0, 0, 0, 0, 1370},
    {"STL 685", 0xFF, 0, 0, 1, 0, 1, {685, 0, 0}, 0, 0, 8, 0, 1372},
    {"NST 65 and bad header sum", 0xFF, 0, 0, 65, 0, 1, {0, 0, 0}, 1, 0, 5, 0, 66},
};

static void put(uint8_t *bytes, size_t at, unsigned width, unsigned long n) {
    while (width > 0) {
        width--;
        bytes[at + width] = n & 0xFF;
        n >>= 8;
    }
}

/* Annex D, bit by bit. */
static unsigned sum(const uint8_t *bytes, size_t from, size_t to) {
    unsigned crc = 0xFFFF, bit;
    for (; from < to; from++)
        for (bit = 0x80; bit != 0; bit >>= 1)
            crc = ((crc << 1) ^ (((crc >> 15) ^ ((bytes[from] & bit) != 0)) ? 0x1021 : 0)) & 0xFFFF;
    return ~crc & 0xFFFF;
}

static unsigned stl(const struct row *row, size_t i) {
    return i < 3 ? row->stl[i] : 0;
}

/* Entry i has SCID i + 1, SAD 54 and TPL 34. The frame has what fits of its bytes: one that is refused may be cut. */
static void build(const struct row *row, uint8_t *frame) {
    static uint8_t whole[2 * SPINDLEWREN_FRAME];
    size_t head = 4 + (row->nst + 1) * 4, end = 4 + (row->fl + 1) * 4, i;
    memset(whole, 0x55, sizeof whole);
    put(whole, 0, 4, (unsigned long)row->status << 24 | 0x073AB6);
    put(whole, 4, 4, (unsigned long)row->fct << 24 | row->ficf << 23 | row->nst << 16 | row->fp << 13 | row->mid << 11 | row->fl);
    for (i = 0; i < row->nst; i++)
        put(whole, 8 + 4 * i, 4, (unsigned long)(i + 1) << 26 | 54UL << 16 | 34 << 10 | stl(row, i));
    put(whole, head, 2, 0x1234);
    put(whole, head + 2, 2, sum(whole, 4, head + 2) ^ row->bad_header);
    for (i = head + 4; i < end; i++) whole[i] = (uint8_t)(i * 7);
    put(whole, end, 4, (unsigned long)(sum(whole, head + 4, end) ^ row->bad_main) << 16 | 0xABCD);
    put(whole, end + 4, 4, 0xEFFFFFFF);
    memcpy(frame, whole, SPINDLEWREN_FRAME);
}

static void expect(const struct row *row, const uint8_t *frame, uint8_t *answer) {
    size_t i;
    unsigned worked = sum(frame, 12 + 4 * row->nst, 8 + 4 * row->fl);
    memset(answer, 0, SPINDLEWREN_ANSWER);
    answer[SPINDLEWREN_LEVEL] = (uint8_t)row->level;
    answer[SPINDLEWREN_FCT] = (uint8_t)row->fct;
    answer[SPINDLEWREN_FICF] = (uint8_t)row->ficf;
    answer[SPINDLEWREN_NST] = (uint8_t)row->nst;
    answer[SPINDLEWREN_FP] = (uint8_t)row->fp;
    answer[SPINDLEWREN_MID] = (uint8_t)row->mid;
    put(answer, SPINDLEWREN_FL, 2, row->fl);
    put(answer, SPINDLEWREN_MNSC, 2, 0x1234);
    put(answer, SPINDLEWREN_RFU, 2, 0xABCD);
    answer[SPINDLEWREN_RFA] = 0xEF;
    put(answer, SPINDLEWREN_TIME, 3, 0xFFFFFF);
    put(answer, SPINDLEWREN_SENT, 2, worked ^ row->bad_main);
    put(answer, SPINDLEWREN_WORKED, 2, worked);
    for (i = 0; i < row->nst; i++) {
        uint8_t *entry = answer + spindlewren_entry(i);
        entry[SPINDLEWREN_SCID] = (uint8_t)(i + 1);
        put(entry, SPINDLEWREN_SAD, 2, 54);
        entry[SPINDLEWREN_TPL] = 34;
        put(entry, SPINDLEWREN_STL, 2, stl(row, i));
    }
}

/* The scope gives the first eight logical bytes of the fourth figure. */
static const uint8_t fourth[] = {0xF9, 0x81, 0xB0, 0x4A, 0x04, 0x36, 0x88, 0x18};

void rows(void) {
    static uint8_t frame[SPINDLEWREN_FRAME], answer[SPINDLEWREN_ANSWER], expected[SPINDLEWREN_ANSWER];
    size_t i;
    for (i = 0; i < sizeof figures / sizeof *figures; i++) {
        const struct row *row = &figures[i];
        build(row, frame);
        if (i == 3) hold(memcmp(frame + 4, fourth, sizeof fourth) == 0, "the figure's bytes", i);
        memset(answer, FILL, sizeof answer);
        hold(guarded(read_frame, frame, sizeof frame, 0, answer, sizeof answer) == row->number, row->name, i);
        if (row->number != 0) continue;
        expect(row, frame, expected);
        hold(memcmp(answer, expected, sizeof answer) == 0, row->name, i);
        parts(frame, expected);
    }
}
