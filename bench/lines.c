/* The leased lines: the check bytes of 24 rows beside libfec's, where that library is to be had (compiled with -DFEC), then the ways out and back, the clean rows
   and the frame made again beside a frame's reading. The least and the median of many rounds, the sorts in turn. */
#define _POSIX_C_SOURCE 200809L
#include "spindlewren.h"
#include "spindlewren_lines.h"

#include <stdio.h>
#include <stdlib.h>
#include <time.h>
#ifdef FEC
#include <fec.h>
#endif

uint16_t spindlewren_sum(const uint8_t *bytes, size_t len);

enum { ROUNDS = 400, SORTS = 7 };

static const char *what[SORTS] = {"libfec, check bytes of 24 rows", "check bytes of 24 rows", "reading", "out, with check bytes", "back", "clean rows", "frame made again"};
static uint8_t frame[SPINDLEWREN_FRAME], answer[SPINDLEWREN_ANSWER], rows[SPINDLEWREN_CODING_ROWS][SPINDLEWREN_ROW], output[SPINDLEWREN_OUTPUT];
static uint8_t information[SPINDLEWREN_5592], check[SPINDLEWREN_CHECK_5376], m[24], s[24], g[192], h[192], made[SPINDLEWREN_FRAME];
static size_t variant, r;
static void *rs;

static double now(void) {
    struct timespec t;
    clock_gettime(CLOCK_MONOTONIC, &t);
    return (double)t.tv_sec * 1e9 + (double)t.tv_nsec;
}

static int up(const void *a, const void *b) {
    double x = *(const double *)a, y = *(const double *)b;
    return (x > y) - (x < y);
}

/* One stream, nearly as long as the smaller variant carries, no FIC: FL 1,340. */
static void build(void) {
    size_t k, stl = 669, fl = 2 + 2 * stl;
    const uint8_t head[12] = {0xFF, 0x07, 0x3A, 0xB6, 0, 1, (uint8_t)(fl >> 8), (uint8_t)fl, 0, 0, (uint8_t)(stl >> 8), (uint8_t)stl};
    uint16_t sum;
    for (k = 0; k < sizeof frame; k++) frame[k] = (uint8_t)(k * 31);
    for (k = 0; k < sizeof rows; k++) rows[k / SPINDLEWREN_ROW][k % SPINDLEWREN_ROW] = (uint8_t)(k * 2654435761u >> 13);
    for (k = 0; k < 12; k++) frame[k] = head[k];
    sum = spindlewren_sum(frame + 4, 10);
    frame[14] = (uint8_t)(sum >> 8);
    frame[15] = (uint8_t)sum;
}

static unsigned run(int sort) {
    size_t k;
    unsigned n = 0;
    switch (sort) {
    case 0:
#ifdef FEC
        for (k = 0; k < SPINDLEWREN_CODING_ROWS; k++) encode_rs_char(rs, rows[k], rows[k] + SPINDLEWREN_ROW - r);
#endif
        return 0;
    case 1:
        for (k = 0; k < SPINDLEWREN_CODING_ROWS; k++) n |= spindlewren_check_bytes(rows[k], SPINDLEWREN_ROW - r, rows[k] + SPINDLEWREN_ROW - r, r);
        return n;
    case 2: return spindlewren_read(frame, sizeof frame, answer, sizeof answer);
    case 3: return spindlewren_line_out(frame, sizeof frame, variant, m, 24, s, 24, g, 192, h, 192, output, sizeof output);
    case 4: return spindlewren_line_back(output, sizeof output, variant, information, variant, m, 24, s, 24, g, 192, h, 192, check, 24 * r);
    case 5: return spindlewren_line_rows(output, sizeof output, variant, check, SPINDLEWREN_CODING_ROWS);
    default: return spindlewren_line_frame(information, variant, variant, 0, 0, made, sizeof made);
    }
}

int main(void) {
    static double times[SORTS][ROUNDS];
    int v, round, sort;
    build();
    for (v = 0; v < 2; v++) {
        variant = v == 0 ? SPINDLEWREN_5592 : SPINDLEWREN_5376;
        r = v == 0 ? 5 : 14;
#ifdef FEC
        rs = init_rs_char(8, 0x187, 120, 1, (int)r, 255 - SPINDLEWREN_ROW);
#endif
        for (round = 0; round < ROUNDS; round++)
            for (sort = 0; sort < SORTS; sort++) {
                double began = now();
                unsigned n = run(sort);
                times[sort][round] = now() - began;
                if (n != 0) {
                    printf("%s: refused with %u\n", what[sort], n);
                    return 1;
                }
            }
        printf("%zu information bytes: least and median, us\n", variant);
        for (sort = 0; sort < SORTS; sort++) {
            qsort(times[sort], ROUNDS, sizeof *times[sort], up);
            if (sort == 0 && rs == NULL) printf("libfec is left out: it is not here\n");
            else printf("%s: %.2f, %.2f\n", what[sort], times[sort][0] / 1e3, times[sort][ROUNDS / 2] / 1e3);
        }
    }
    return 0;
}
