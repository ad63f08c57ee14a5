/* A walk over a file or a line, item by item. */
#define _DEFAULT_SOURCE
#include "command.h"

#include <stdio.h>
#include <sys/mman.h>

/* So many bytes behind the walk are given back at a time: whole pages, whatever their size. */
enum { BEHIND = 1 << 21 };

/* .. and after so many the progress is looked at, and whether what was told could be written. */
enum { OFTEN = 1 << 16 };

static void each_of_record(struct record record, uint8_t *walk, teller tell, void *to) {
    size_t place, behind = 0, heeded = 0;
    do {
        /* a walk that was begun is refused nothing */
        spindlewren_step(record.bytes, record.len, walk, SPINDLEWREN_WALK);
        place = (size_t)spindlewren_number(walk, SPINDLEWREN_ITEM, 8);
        tell(record.bytes + place, place, walk, to);
        if (place - heeded >= OFTEN) {
            heed(place);
            heeded = place;
        }
        if (place - behind >= BEHIND) {
            size_t len = (place - behind) / BEHIND * BEHIND;
            madvise((void *)(record.bytes + behind), len, MADV_DONTNEED);
            behind += len;
        }
    } while (walk[SPINDLEWREN_KIND] != SPINDLEWREN_IS_DONE);
}

void each_item(const struct request *asked, const char *heading, teller tell, void *to) {
    uint8_t walk[SPINDLEWREN_WALK];
    uint8_t refusal;
    struct record record = {NULL, 0};
    if (!is_line(asked->file)) record = map(asked->file);
    refusal = spindlewren_begin(asked->limit, walk, sizeof walk);
    if (refusal != SPINDLEWREN_ACCEPTED) refuse(asked->file, refusal);
    if (heading != NULL && !asked->json) puts(heading);
    progress_begin(record.len);
    if (is_line(asked->file)) {
        each_of_line(walk, tell, to);
    } else {
        each_of_record(record, walk, tell, to);
    }
    progress_end();
}
