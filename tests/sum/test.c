/* Both compiled sums beside one worked out bit by bit: check values, then every length up to 1,600 bytes at eight places in memory. */
#include "spindlewren_boot.h"
#include <stdio.h>
#include <stdlib.h>
#include <string.h>

uint16_t spindlewren_sum(const uint8_t *bytes, size_t bytes_len);

static uint16_t bit_by_bit(const uint8_t *bytes, size_t len) {
    uint16_t c = 0xffff;
    size_t i;
    int k;
    for (i = 0; i < len; i++) {
        c = (uint16_t)(c ^ bytes[i] << 8);
        for (k = 0; k < 8; k++) c = (uint16_t)(c & 0x8000 ? c << 1 ^ 0x1021 : c << 1);
    }
    return (uint16_t)~c;
}

static long calls, bad;

static void same(const char *what, const uint8_t *bytes, size_t len, uint16_t want) {
    uint16_t small = spindlewren_boot_sum(bytes, len), fast = spindlewren_sum(bytes, len);
    calls += 2;
    if (small == want && fast == want) return;
    bad++;
    printf("sum: %s, %lu bytes: small %04x, fast %04x, wanted %04x\n", what, (unsigned long)len, small, fast, want);
}

int main(void) {
    enum { MOST = 1600, PLACES = 8, FRAME = 6144 };
    uint8_t *bytes = malloc(FRAME + PLACES);
    uint32_t x = 1;
    size_t i, len;
    if (!bytes) return 2;
    same("nothing, null", NULL, 0, 0);
    same("123456789", (const uint8_t *)"123456789", 9, 0xd64e);
    for (i = 0; i < FRAME + PLACES; i++) {
        x = x * 1664525 + 1013904223;
        bytes[i] = (uint8_t)(x >> 24);
    }
    /* each length in memory of its own, so that a read past its end is one past the memory's, which a checker of memory would tell */
    for (len = 0; len <= MOST; len++) {
        uint8_t *own = malloc(len ? len : 1);
        if (!own) return 2;
        memcpy(own, bytes, len);
        same("in memory of its own", own, len, bit_by_bit(own, len));
        free(own);
        for (i = 1; i < PLACES; i++) same("at a place", bytes + i, len, bit_by_bit(bytes + i, len));
    }
    for (len = FRAME - 600; len <= FRAME; len++) same("nearly a frame", bytes, len, bit_by_bit(bytes, len));
    free(bytes);
    printf("sum: %ld calls, %ld wrong\n", calls, bad);
    return bad != 0;
}
