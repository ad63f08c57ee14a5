/* The profile from C: frames at its edges, built from the scope's field widths; every wrong length; guards around the answer. */
#include <stdio.h>
#include <string.h>

#include "spindlewren.h"

enum { FRAME = SPINDLEWREN_FRAME, GUARD = 16, FILL = 0xA5, MOST = 64 };

struct stream {
    unsigned scid, sad, tpl, stl;
};

static int bad = 0;
static unsigned long calls = 0;
static uint8_t frame[FRAME + 1];

static void hold(int right, const char *what, unsigned long at) {
    if (!right) {
        printf("profiles: %s at %lu: FAILED\n", what, at);
        bad = 1;
    }
}

static void put(size_t at, size_t width, unsigned long n) {
    for (; width-- > 0; n >>= 8) frame[at + width] = (uint8_t)n;
}

/* Annex D, bit by bit. */
static unsigned sum(size_t from, size_t len) {
    unsigned crc = 0xFFFF;
    size_t i;
    int bit;
    for (i = 0; i < len; i++)
        for (bit = 7; bit >= 0; bit--) {
            unsigned top = (crc >> 15 ^ (unsigned)frame[from + i] >> bit) & 1;
            crc = (crc << 1 & 0xFFFF) ^ (top ? 0x1021 : 0);
        }
    return crc ^ 0xFFFF;
}

static void build(const struct stream *streams, size_t n) {
    unsigned long stls = 0, fl;
    size_t i;
    memset(frame, 0x55, sizeof frame);
    put(0, 4, 0xFF073AB6);
    for (i = 0; i < n; i++) {
        put(8 + 4 * i, 4, (unsigned long)streams[i].scid << 26 | (unsigned long)streams[i].sad << 16 | streams[i].tpl << 10 | streams[i].stl);
        stls += streams[i].stl;
    }
    fl = n + 1 + 2 * stls;
    put(4, 4, 7ul << 24 | (unsigned long)n << 16 | fl);
    put(8 + 4 * n, 2, 0);
    put(10 + 4 * n, 2, sum(4, 4 * n + 6));
}

/* Both entries, with guards on both sides of the answer, which is untouched on a refusal. */
static void tell(const char *what, size_t len, size_t lent, unsigned refusal, unsigned number, unsigned first, unsigned second) {
    uint8_t room[GUARD + 8 + GUARD], before[sizeof room];
    unsigned told;
    memset(room, FILL, sizeof room);
    memcpy(before, room, sizeof room);
    told = spindlewren_collision(len == 0 ? NULL : frame, len, lent == 0 ? NULL : room + GUARD, lent);
    if (lent == SPINDLEWREN_COLLISION && refusal == 0) {
        before[GUARD + SPINDLEWREN_PROFILE] = (uint8_t)number;
        before[GUARD + SPINDLEWREN_FIRST] = (uint8_t)first;
        before[GUARD + SPINDLEWREN_SECOND] = (uint8_t)second;
    }
    hold(told == (lent == SPINDLEWREN_COLLISION ? refusal : SPINDLEWREN_LENGTH), what, told);
    hold(memcmp(room, before, sizeof room) == 0, what, lent);
    told = spindlewren_profile(len == 0 ? NULL : frame, len);
    hold(told == (refusal != 0 ? refusal : number), what, told);
    calls += 2;
}

static void edge(const char *what, const struct stream *streams, size_t n, unsigned number, unsigned first, unsigned second) {
    size_t lent;
    build(streams, n);
    for (lent = 0; lent <= 8; lent++) tell(what, FRAME, lent, 0, number, first, second);
}

int main(void) {
    enum { A4 = 35, LEVEL_5 = 4, LEVEL_1 = 0, RESERVED = 16, SWITCH = 8 };
    struct stream one[1] = {{0, 860, A4, 3}}, two[2] = {{0, 100, A4, 3}, {1, 104, A4, 3}}, all[MOST];
    size_t i;
    edge("no streams", one, 0, 0, 0, 0);
    edge("last unit 863", one, 1, 0, 0, 0);
    one[0].sad = 861;
    edge("last unit 864", one, 1, SPINDLEWREN_BEYOND, 0, 0);
    one[0] = (struct stream){0, 848, LEVEL_5, 12};
    edge("level 5", one, 1, 0, 0, 0);
    one[0].tpl = LEVEL_1;
    edge("level 1", one, 1, SPINDLEWREN_BEYOND, 0, 0);
    one[0].sad = 829;
    edge("level 1, 35 units", one, 1, 0, 0, 0);
    one[0].tpl |= RESERVED;
    edge("the reserved bit", one, 1, 0, 0, 0);
    one[0].tpl |= SWITCH;
    edge("table switch 1", one, 1, SPINDLEWREN_NO_SIZE, 0, 0);
    one[0] = (struct stream){0, 0, 2, 120};
    edge("a dash", one, 1, SPINDLEWREN_NO_SIZE, 0, 0);
    one[0] = (struct stream){63, 1023, 63, 0};
    edge("STL 0", one, 1, 0, 0, 0);
    edge("touching", two, 2, 0, 0, 0);
    two[1].sad = 103;
    edge("one unit shared", two, 2, SPINDLEWREN_OVERLAP, 0, 1);
    two[1].stl = 0;
    edge("STL 0 within", two, 2, 0, 0, 0);
    two[1].scid = 0;
    edge("equal SCIDs", two, 2, SPINDLEWREN_EQUAL_SCIDS, 0, 1);
    for (i = 0; i < MOST; i++) all[i] = (struct stream){(unsigned)i, (unsigned)(4 * i), A4, 3};
    edge("64 streams", all, MOST, 0, 0, 0);
    all[63].sad = 4 * 61 + 3;
    edge("64 streams, the last over two", all, MOST, SPINDLEWREN_OVERLAP, 61, 63);
    all[2].stl = 4;
    edge("64 streams, one without a size", all, MOST, SPINDLEWREN_NO_SIZE, 2, 2);
    all[5].scid = 60;
    edge("64 streams, two of one SCID", all, MOST, SPINDLEWREN_EQUAL_SCIDS, 5, 60);
    for (i = 0; i < 8; i++) tell("no bytes", 0, i, SPINDLEWREN_LENGTH, 0, 0, 0);
    for (i = FRAME - 1; i <= FRAME + 1; i += 2) tell("another length", i, SPINDLEWREN_COLLISION, SPINDLEWREN_LENGTH, 0, 0, 0);
    frame[0] = 1;
    tell("status", FRAME, SPINDLEWREN_COLLISION, SPINDLEWREN_STATUS, 0, 0, 0);
    frame[1] = 0;
    tell("sync word", FRAME, SPINDLEWREN_COLLISION, SPINDLEWREN_SYNC, 0, 0, 0);
    if (!bad) printf("profiles: %lu calls, ok\n", calls);
    return bad;
}
