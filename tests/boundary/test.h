/* What the parts of the boundary's test share. */
#ifndef TEST_H
#define TEST_H

#include "spindlewren.h"

enum { GUARD = 64, MOST = 2 * SPINDLEWREN_ANSWER, FILL = 0xA5, LONGEST = 6200 };

/* The exports, as one sort of request: bytes, an index or a limit, and bytes for the answer. */
typedef unsigned request(const uint8_t *bytes, size_t len, size_t i, uint8_t *out, size_t out_len);
request read_frame, fic, stream, begin, step;

void hold(int right, const char *what, size_t at);

/* Makes the request with guards on both sides of the out bytes, which are untouched on a refusal. */
unsigned guarded(request *ask, const uint8_t *bytes, size_t len, size_t i, uint8_t *out, size_t out_len);

/* The parts of a frame whose answer is known: FIC and streams tile the main stream. */
void parts(const uint8_t *frame, const uint8_t *answer);

/* The scope's bench figures, as frames. */
void rows(void);

/* Reasons for places of the samples. */
void whys(const uint8_t *four, size_t four_len, const uint8_t *night, size_t night_len);

#endif
