/* count: names entries, a line each. count I N: calls the I-th of them, from 0 on, N times, at most 60, does nothing in between and prints what the last one returned, a sum or
   else 0, so that a tool that counts instructions tells, by two counts, what a call takes: valgrind on the machine at hand, the emulator for x86-64 where it goes instruction by
   instruction and logs each (docs/BENCHMARKS.md).
   With BEFORE defined, and the header and archives of the tree before the requests, it has the entries that were there then. */
#include "spindlewren.h"
#ifndef BEFORE
#include "spindlewren_boot.h"
#include "spindlewren_lines.h"
#endif

#include <stdio.h>
#include <stdlib.h>
#include <string.h>

uint16_t spindlewren_sum(const uint8_t *bytes, size_t len);
#ifdef BEFORE
uint8_t spindlewren_relay(const uint8_t *frame, size_t frame_len, uint8_t *output, size_t output_len);
/* a walk's bytes that are all zero began it */
#define spindlewren_begin(limit, walk, len) memset(walk, 0, len)
#endif

enum { FRAMES = 64, NOISE = 1 << 16 };

static uint8_t record[FRAMES * SPINDLEWREN_FRAME], noise[NOISE], walk[SPINDLEWREN_WALK], answer[SPINDLEWREN_ANSWER], other[SPINDLEWREN_FRAME];
static uint8_t array[SPINDLEWREN_FRAME];
#ifndef BEFORE
enum { STREAMS = 64, RECORDS = 1000, GROUPS = 30 };
static uint8_t information[5592], check[24 * 14], beside[192], again[4][192], clash[SPINDLEWREN_FRAME], packet[STREAMS * (11 + 6 * 8) + 14], made[SPINDLEWREN_FRAME];
static uint8_t signals[SPINDLEWREN_SIGNAL], gathered[SPINDLEWREN_MESSAGE], message[8 + 6 * GROUPS], pairs[16 + 8 * GROUPS], night[RECORDS * SPINDLEWREN_LOG_RECORD];
static uint8_t sheet[SPINDLEWREN_SHEET];
static size_t fed;
#endif

static void put(uint8_t *at, size_t width, uint32_t n) {
    for (; width-- > 0; n >>= 8) at[width] = (uint8_t)n;
}

/* A frame whose streams have option A at level 4 (TPL 35), one behind another: so many, of so many words of 64 bits. */
static void build(uint8_t *frame, unsigned fct, uint32_t streams, uint32_t stl) {
    size_t fl = streams + 1 + 2 * streams * stl, end = 4 + (fl + 1) * 4, i;
    memset(frame, 0x55, SPINDLEWREN_FRAME);
    put(frame, 4, fct % 2 == 0 ? 0xFF073AB6 : 0xFFF8C549);
    put(frame + 4, 4, (uint32_t)(fct << 24 | streams << 16 | fl));
    for (i = 0; i < streams; i++) put(frame + 8 + 4 * i, 4, (uint32_t)(i << 26 | i * (stl / 6 * 8) << 16 | 35u << 10 | stl));
    put(frame + 8 + 4 * streams, 2, 0);
    put(frame + 10 + 4 * streams, 2, spindlewren_sum(frame + 4, 6 + 4 * streams));
    for (i = 12 + 4 * streams; i < end; i++) frame[i] = (uint8_t)(31 * i + 7);
    put(frame + end, 2, spindlewren_sum(frame + 12 + 4 * streams, end - 12 - 4 * streams));
}

static volatile unsigned kept;

#ifndef BEFORE
/* A packet with the streams of `other`, and a management item without its optional parts. */
static void pack(void) {
    const uint8_t *entry = other + 8, *data = other + 12 + 4 * STREAMS;
    uint8_t *at = packet;
    size_t i;
    memcpy(at, "deti", 4);
    put(at + 4, 4, 8 * 6);
    put(at + 8, 4, (uint32_t)other[4] << 16 | 0xFF00);
    put(at + 12, 2, 0);
    at += 14;
    for (i = 0; i < STREAMS; i++, entry += 4, data += 48, at += 59) {
        memcpy(at, "est", 3);
        at[3] = (uint8_t)(i + 1);
        put(at + 4, 4, 24 + 8 * 48);
        memcpy(at + 8, entry, 2);
        at[10] = entry[2];
        memcpy(at + 11, data, 48);
    }
}

/* A night of frames with a lost mark and an idle item in each hundred. */
static void log_night(void) {
    size_t i;
    for (i = 0; i < RECORDS; i++) {
        uint8_t kind = i % 100 == 40 ? SPINDLEWREN_IS_LOST : i % 100 == 70 ? SPINDLEWREN_IS_IDLE : SPINDLEWREN_IS_FRAME;
        uint8_t code = kind == SPINDLEWREN_IS_LOST ? SPINDLEWREN_HEADER_SUM : kind == SPINDLEWREN_IS_IDLE ? SPINDLEWREN_NULL : (uint8_t)(i % 250);
        spindlewren_log_write(i * SPINDLEWREN_FRAME, kind, code, kind == SPINDLEWREN_IS_FRAME ? 0 : 0xFF, night + i * SPINDLEWREN_LOG_RECORD, SPINDLEWREN_LOG_RECORD);
    }
}

static void out(size_t variant) {
    kept = spindlewren_line_out(other, sizeof other, variant, beside, 24, beside, 24, beside, 192, beside, 192, array, sizeof array);
}

static void back(size_t variant, size_t checks) {
    kept = spindlewren_line_back(array, sizeof array, variant, information, variant, again[0], 24, again[1], 24, again[2], 192, again[3], 192, check, checks);
}
#endif

static void sum(void) { kept = spindlewren_sum(record, SPINDLEWREN_FRAME); }
static void read_3(void) { kept = spindlewren_read(record, SPINDLEWREN_FRAME, answer, sizeof answer); }
static void read_64(void) { kept = spindlewren_read(other, sizeof other, answer, sizeof answer); }
static void step(void) { kept = spindlewren_step(record, sizeof record, walk, sizeof walk); }
static void relay(void) { kept = spindlewren_relay(record, SPINDLEWREN_FRAME, array, sizeof array); }
#ifndef BEFORE
static void live(void) { kept = spindlewren_live(record, 188, 1, walk, sizeof walk); }
static void profile(void) { kept = spindlewren_profile(other, sizeof other); }
static void out_5(void) { out(5592); }
static void back_5(void) { back(5592, 24 * 5); }
static void rows_5(void) { kept = spindlewren_line_rows(array, sizeof array, 5592, check, 24); }
static void out_14(void) { out(5376); }
static void back_14(void) { back(5376, 24 * 14); }
static void rows_14(void) { kept = spindlewren_line_rows(array, sizeof array, 5376, check, 24); }
static void frame_5(void) { kept = spindlewren_line_frame(information, 5592, 5592, 1, 0, made, sizeof made); }
static void check_5(void) { kept = spindlewren_check_bytes(record, 235, check, 5); }
static void check_14(void) { kept = spindlewren_check_bytes(record, 226, check, 14); }
static void row_5(void) { kept = spindlewren_test_row(record, 240, 5, check, 1); }
static void row_14(void) { kept = spindlewren_test_row(record, 240, 14, check, 1); }
static void fic(void) { kept = spindlewren_fic(record, SPINDLEWREN_FRAME, answer, SPINDLEWREN_PART); }
static void stream(void) { kept = spindlewren_stream(other, sizeof other, 63, answer, SPINDLEWREN_PART); }
static void boot(void) { kept = spindlewren_boot_sum(record, SPINDLEWREN_FRAME); }
static void why(void) { kept = spindlewren_why(record, sizeof record, 3, 63 * SPINDLEWREN_FRAME, answer, SPINDLEWREN_WHY); }
static void looks(void) { kept = spindlewren_looks(record, sizeof record, 3, answer, SPINDLEWREN_LOOKS); }
static void passes(void) { kept = spindlewren_collision(other, sizeof other, answer, SPINDLEWREN_COLLISION); }
static void collides(void) { kept = spindlewren_collision(clash, sizeof clash, answer, SPINDLEWREN_COLLISION); }
static void edi(void) { kept = spindlewren_edi(packet, sizeof packet, 0, made, sizeof made); }
static void signal_step(void) {
    const uint8_t *pair = pairs + 2 * fed;
    kept = spindlewren_signal_step((uint8_t)(fed % 8), (uint16_t)(pair[0] << 8 | pair[1]), signals, sizeof signals, gathered, sizeof gathered);
    fed++;
}
static void signal_write(void) { kept = spindlewren_signal_write(1, message, sizeof message, pairs, sizeof pairs); }
static void log_write(void) { kept = spindlewren_log_write(6144, 0, 7, 0, night, SPINDLEWREN_LOG_RECORD); }
static void log_judged(void) { kept = spindlewren_log_judged(night, sizeof night, answer, SPINDLEWREN_JUDGED); }
static void log_entry(void) { kept = spindlewren_log_entry(night, sizeof night, 500, answer, SPINDLEWREN_LOG_ENTRY); }
static void add(void) { kept = spindlewren_sheet(night, sizeof night, sheet, sizeof sheet); }

/* What some calls need that others make, and a frame whose last stream begins where the one before it does. */
static void prepare(void) {
    size_t header = 6 + 4 * STREAMS;
    memcpy(clash, other, sizeof clash);
    put(clash + 4 + header - 6, 2, (STREAMS - 1) << 10 | (STREAMS - 2) * 8);
    put(clash + 4 + header, 2, spindlewren_sum(clash + 4, header));
    pack();
    log_night();
    out_5();
    back_5();
    signal_write();
}
#endif
static void hunt(void) {
    spindlewren_begin(3, walk, sizeof walk);
    kept = spindlewren_step(noise, sizeof noise, walk, sizeof walk);
}

static const struct {
    const char *what;
    void (*call)(void);
} entries[] = {
    {"sum of 6,144 bytes", sum},
    {"`spindlewren_read`, three streams", read_3},
    {"`spindlewren_read`, 64 streams", read_64},
    {"`spindlewren_step` in lock, three streams", step},
    {"`spindlewren_step` hunting over 65,536 random bytes", hunt},
    {"`spindlewren_relay`, three streams", relay},
#ifndef BEFORE
    {"`spindlewren_live`, 188 bytes, more wanted", live},
    {"`spindlewren_profile`, 64 streams in order", profile},
    {"`spindlewren_line_out`, 5,592", out_5},
    {"`spindlewren_line_back`, 5,592", back_5},
    {"`spindlewren_line_rows`, 5,592", rows_5},
    {"`spindlewren_line_out`, 5,376", out_14},
    {"`spindlewren_line_back`, 5,376", back_14},
    {"`spindlewren_line_rows`, 5,376", rows_14},
    {"`spindlewren_line_frame`, 5,592", frame_5},
    {"`spindlewren_check_bytes`, 5", check_5},
    {"`spindlewren_check_bytes`, 14", check_14},
    {"`spindlewren_test_row`, 5 check bytes", row_5},
    {"`spindlewren_test_row`, 14 check bytes", row_14},
    {"`spindlewren_fic`, three streams", fic},
    {"`spindlewren_stream`, the last of 64", stream},
    {"`spindlewren_boot_sum` of 6,144 bytes", boot},
    {"`spindlewren_why`, the last of 64 frames", why},
    {"`spindlewren_looks`, 64 frames", looks},
    {"`spindlewren_collision`, 64 streams that pass", passes},
    {"`spindlewren_collision`, the last two of 64 overlap", collides},
    {"`spindlewren_edi`, 64 streams", edi},
    {"`spindlewren_signal_step`, a frame within a message", signal_step},
    {"`spindlewren_signal_write`, 188 bytes", signal_write},
    {"`spindlewren_log_write`", log_write},
    {"`spindlewren_log_judged`, 1,000 records", log_judged},
    {"`spindlewren_log_entry`", log_entry},
    {"`spindlewren_sheet`, 1,000 records", add},
#endif
};
enum { ENTRIES = sizeof entries / sizeof entries[0] };

int main(int argc, char **argv) {
    unsigned i, n, which;
    uint32_t r = 1;
    if (argc != 3) {
        for (i = 0; i < ENTRIES; i++) puts(entries[i].what);
        return 0;
    }
    which = (unsigned)atoi(argv[1]);
    n = (unsigned)atoi(argv[2]);
    if (which >= ENTRIES) return 2;
    for (i = 0; i < FRAMES; i++) build(record + i * SPINDLEWREN_FRAME, i, 3, 252);
    for (i = 0; i < NOISE; i++) noise[i] = (uint8_t)((r = r * 1664525 + 1013904223) >> 24);
    build(other, 7, 64, 6);
#ifndef BEFORE
    prepare();
#endif
    spindlewren_begin(3, walk, sizeof walk);
    if (entries[which].call == step) step(); /* the first step hunts */
    for (i = 0; i < n; i++) entries[which].call();
    printf("%u\n", kept);
    return 0;
}
