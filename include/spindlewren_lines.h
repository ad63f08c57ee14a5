/* Spindlewren: network frames over leased G.704 lines, and the check bytes of their rows. */
#ifndef SPINDLEWREN_LINES_H
#define SPINDLEWREN_LINES_H

#include <stddef.h>
#include <stdint.h>

#ifdef __cplusplus
extern "C" {
#endif

/* The variants, by their information bytes, and the bytes of the parts. */
enum {
    SPINDLEWREN_5592 = 5592,
    SPINDLEWREN_5376 = 5376,
    SPINDLEWREN_OUTPUT = 6144,
    SPINDLEWREN_MANAGEMENT = 24,     /* byte n at 256 n + 1 of the output, by superblock, then block */
    SPINDLEWREN_SUPERVISION = 24,    /* at 256 n + 2 */
    SPINDLEWREN_SYNCHRONISING = 192, /* at 32 n */
    SPINDLEWREN_SIGNALLING = 192,    /* at 32 n + 16 */
    SPINDLEWREN_CHECK_5592 = 120,    /* 24 rows of 5, row by row */
    SPINDLEWREN_CHECK_5376 = 336,    /* 24 rows of 14 */
    SPINDLEWREN_ROW = 240,
    SPINDLEWREN_CODING_ROWS = 24
};

/* Each returns 0, or a refusal's number, and then nothing is written: 12 for another variant, then 1 for a part of another length, then
   2 to 10 as spindlewren_read for a frame, then 23 for a frame with more bytes than the variant carries. The numbers have names in spindlewren.h. As there, no byte that is lent may change
   while a call lasts; docs/BOUNDARY.md has the rest. */

/* The output array of a network frame, the parts beside it, and the check bytes of its rows. */
uint8_t spindlewren_line_out(const uint8_t *frame, size_t frame_len, size_t variant,
                             const uint8_t *management, size_t management_len,
                             const uint8_t *supervision, size_t supervision_len,
                             const uint8_t *synchronising, size_t synchronising_len,
                             const uint8_t *signalling, size_t signalling_len,
                             uint8_t *output, size_t output_len);

/* The parts of an output array; information has as many bytes as the variant's number says, fill included. No byte is judged. */
uint8_t spindlewren_line_back(const uint8_t *output, size_t output_len, size_t variant,
                              uint8_t *information, size_t information_len,
                              uint8_t *management, size_t management_len,
                              uint8_t *supervision, size_t supervision_len,
                              uint8_t *synchronising, size_t synchronising_len,
                              uint8_t *signalling, size_t signalling_len,
                              uint8_t *check, size_t check_len);

/* Which of the 24 rows of an output array are clean: 1 or 0 in each of the 24 bytes lent. */
uint8_t spindlewren_line_rows(const uint8_t *output, size_t output_len, size_t variant, uint8_t *clean, size_t clean_len);

/* The network frame of information that came back: status byte of the level (0 to 3, else 12), the sync word 07 3A B6 for the
   choice 0 and F8 C5 49 for any other, the (FL + 3) x 4 bytes of the logical frame (23 where the variant does not carry as many),
   padding 55. Then reading's number of that frame, which is 5 to 9 where it is not 0; refused, nothing is written. */
uint8_t spindlewren_line_frame(const uint8_t *information, size_t information_len, size_t variant, uint8_t choice, uint8_t level,
                               uint8_t *frame, size_t frame_len);

/* The 5 check bytes of 235 information bytes, or the 14 of 226; 1 for any other two lengths. */
uint8_t spindlewren_check_bytes(const uint8_t *information, size_t information_len, uint8_t *check, size_t check_len);

/* Whether a row of 240 bytes, the last 5 or 14 of them check bytes, as `check` says, is clean: 1 or 0 in the one byte lent. 1 is returned for
   another length or another number of check bytes. */
uint8_t spindlewren_test_row(const uint8_t *row, size_t row_len, size_t check, uint8_t *clean, size_t clean_len);

#ifdef __cplusplus
}
#endif

#endif
