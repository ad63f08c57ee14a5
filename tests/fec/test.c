/* Check bytes and clean rows against libfec: symbols of 8 bits, polynomial 187 hex, first root 120, step 1, 5 or 14 roots, pad 15. */
#include <fec.h>
#include <stdio.h>
#include <string.h>

#include "spindlewren_lines.h"

enum { ROW = SPINDLEWREN_ROW, ROWS = 20000 };

static uint64_t state = 1;

/* Splitmix64. */
static uint64_t number(void)
{
    uint64_t z = (state += 0x9E3779B97F4A7C15u);
    z = (z ^ z >> 30) * 0xBF58476D1CE4E5B9u;
    z = (z ^ z >> 27) * 0x94D049BB133111EBu;
    return z ^ z >> 31;
}

/* A row with its check bytes, and with up to as many changed as libfec can put right: both tell the same. */
static int row(void *rs, size_t check)
{
    uint8_t bytes[ROW], theirs[ROW], clean = 2;
    size_t width = ROW - check, changed = number() % (check / 2 + 1);
    for (size_t k = 0; k < width; k++) bytes[k] = (uint8_t)number();
    memcpy(theirs, bytes, ROW);
    encode_rs_char(rs, theirs, theirs + width);
    if (spindlewren_check_bytes(bytes, width, bytes + width, check) != 0 || memcmp(bytes, theirs, ROW) != 0) return 1;
    for (size_t k = 0; k < changed; k++) bytes[number() % ROW] ^= (uint8_t)number();
    memcpy(theirs, bytes, ROW);
    int found = decode_rs_char(rs, theirs, NULL, 0);
    return spindlewren_test_row(bytes, ROW, check, &clean, 1) != 0 || clean != (found == 0);
}

static int rows(size_t check)
{
    void *rs = init_rs_char(8, 0x187, 120, 1, (int)check, 255 - ROW);
    if (rs == NULL) return 1;
    for (int n = 0; n < ROWS; n++)
        if (row(rs, check)) {
            printf("fec: FAILED, row %d with %zu check bytes\n", n, check);
            return 1;
        }
    free_rs_char(rs);
    return 0;
}

int main(void)
{
    if (rows(5) || rows(14)) return 1;
    printf("fec: %d rows with 5 check bytes and as many with 14, the same as libfec's\n", ROWS);
    return 0;
}
