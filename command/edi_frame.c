/* edi-frame: the frame that one EDI packet's tag items call for, on standard output. */
#include "command.h"
#include "json.h"

#include <string.h>

/* Whether a packet begins as an AF packet or a PF fragment does: what a site has at hand, and no tag items. */
static int is_wrapped(struct record packet) {
    return packet.len >= 2 && (memcmp(packet.bytes, "AF", 2) == 0 || memcmp(packet.bytes, "PF", 2) == 0);
}

void edi_frame(const struct request *asked) {
    struct record packet = map(asked->file);
    uint8_t frame[SPINDLEWREN_FRAME];
    uint8_t refusal = spindlewren_edi(packet.bytes, packet.len, asked->sync != 0, frame, sizeof frame);
    if (refusal != SPINDLEWREN_ACCEPTED && is_wrapped(packet)) fail(asked->file, "begins as an AF packet or a PF fragment: the tag items alone are taken");
    if (refusal != SPINDLEWREN_ACCEPTED) refuse(asked->file, refusal);
    fwrite(frame, 1, sizeof frame, stdout);
    if (!asked->json) return;
    json_begin(stderr);
    json_number("frames", 1);
    json_number("bytes", sizeof frame);
    json_end();
}
