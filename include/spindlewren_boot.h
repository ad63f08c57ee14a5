/* Spindlewren: the sum of ETS 300 799, annex D, for a boot loader: small code, no table, no other function needed. */
#ifndef SPINDLEWREN_BOOT_H
#define SPINDLEWREN_BOOT_H

#include <stddef.h>
#include <stdint.h>

#ifdef __cplusplus
extern "C" {
#endif

/* The sum of the bytes, as transmitted. The pointer may be null where the length is 0; no byte may change while the call lasts. */
uint16_t spindlewren_boot_sum(const uint8_t *bytes, size_t bytes_len);

#ifdef __cplusplus
}
#endif

#endif
