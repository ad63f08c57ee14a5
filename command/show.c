/* show: every field of one frame by its name in the standard, the first that the walk hands out or the one at a place. */
#include "command.h"
#include "json.h"

static unsigned field(const uint8_t *answer, size_t at, size_t width) {
    return (unsigned)spindlewren_number(answer, at, width);
}

static const char *sync_word(const uint8_t *answer) {
    return answer[SPINDLEWREN_FSYNC1] ? "F8 C5 49" : "07 3A B6";
}

/* Of STL, the bit rate in tenths of a kbit/s, to the nearest: 64 bits in 24 ms for each. */
static unsigned tenths_of_rate(unsigned stl) {
    return (80 * stl + 1) / 3;
}

/* TPL in words: table 6 of the standard. */
static void protection(unsigned tpl, char *text, size_t size) {
    unsigned option = tpl / 4 % 8;
    if (tpl / 32 == 1 && option < 2) snprintf(text, size, "equal %c, level %u", option == 0 ? 'A' : 'B', tpl % 4 + 1);
    else if (tpl / 32 == 1) snprintf(text, size, "equal, option %u is reserved", option);
    else if (tpl / 8 % 2 == 1) snprintf(text, size, "unequal, reserved table");
    else if (tpl % 8 < 5) snprintf(text, size, "unequal, level %u", tpl % 8 + 1);
    else snprintf(text, size, "unequal, index %u is reserved", tpl % 8);
}

/* TSTA's sorts, by their numbers. */
static const char *const sorts[] = {"none", "a time", "a reserved number"};

static void timestamp(const uint8_t *answer) {
    unsigned sort = answer[SPINDLEWREN_SORT];
    if (sort == 0) printf("TSTA       none\n");
    else printf("TSTA       %06X, %s\n", field(answer, SPINDLEWREN_TIME, 3), sorts[sort]);
}

/* Where a part lies in the file. */
static void bytes(size_t place, const uint8_t *part) {
    unsigned start = field(part, SPINDLEWREN_START, 2), len = field(part, SPINDLEWREN_LEN, 2);
    if (len == 0) printf("no bytes\n");
    else printf("%u bytes from %llu on\n", len, (unsigned long long)place + start);
}

static void streams(const uint8_t *frame, size_t place, const uint8_t *answer) {
    unsigned i;
    if (answer[SPINDLEWREN_NST] == 0) return;
    printf("stream SCID  SAD TPL protection                    STL  kbit/s bytes\n");
    for (i = 0; i < answer[SPINDLEWREN_NST]; i++) {
        const uint8_t *entry = answer + spindlewren_entry(i);
        uint8_t part[SPINDLEWREN_PART];
        char words[40];
        unsigned tpl = entry[SPINDLEWREN_TPL], stl = field(entry, SPINDLEWREN_STL, 2), tenths = tenths_of_rate(stl);
        protection(tpl, words, sizeof words);
        spindlewren_stream(frame, SPINDLEWREN_FRAME, i, part, sizeof part);
        printf("%6u %4u %4u %3u %-29s %3u %5u.%u ", i, entry[SPINDLEWREN_SCID], field(entry, SPINDLEWREN_SAD, 2), tpl, words, stl, tenths / 10, tenths % 10);
        bytes(place, part);
    }
}

static void fields(const uint8_t *frame, size_t place, const uint8_t *answer) {
    uint8_t part[SPINDLEWREN_PART];
    unsigned sent = field(answer, SPINDLEWREN_SENT, 2), worked = field(answer, SPINDLEWREN_WORKED, 2);
    printf("place      %llu\n", (unsigned long long)place);
    printf("level      %u\n", answer[SPINDLEWREN_LEVEL]);
    printf("FSYNC      %s\n", sync_word(answer));
    printf("FCT        %u\n", answer[SPINDLEWREN_FCT]);
    printf("FICF       %u\n", answer[SPINDLEWREN_FICF]);
    printf("NST        %u\n", answer[SPINDLEWREN_NST]);
    printf("FP         %u\n", answer[SPINDLEWREN_FP]);
    printf("MID        %u\n", answer[SPINDLEWREN_MID]);
    printf("FL         %u\n", field(answer, SPINDLEWREN_FL, 2));
    printf("MNSC       %04X\n", field(answer, SPINDLEWREN_MNSC, 2));
    printf("Rfu        %04X\n", field(answer, SPINDLEWREN_RFU, 2));
    printf("Rfa        %02X\n", answer[SPINDLEWREN_RFA]);
    timestamp(answer);
    printf("main sum   %04X sent, %04X worked out%s\n", sent, worked, sent == worked ? "" : ": they differ");
    /* the frame is accepted, so its parts are */
    spindlewren_fic(frame, SPINDLEWREN_FRAME, part, sizeof part);
    printf("FIC        ");
    bytes(place, part);
    streams(frame, place, answer);
}

static void part_as_json(size_t place, const uint8_t *part) {
    json_number("place", (unsigned long long)place + field(part, SPINDLEWREN_START, 2));
    json_number("bytes", field(part, SPINDLEWREN_LEN, 2));
}

static void streams_as_json(const uint8_t *frame, size_t place, const uint8_t *answer) {
    unsigned i;
    json_open("sub_channels", '[');
    for (i = 0; i < answer[SPINDLEWREN_NST]; i++) {
        const uint8_t *entry = answer + spindlewren_entry(i);
        uint8_t part[SPINDLEWREN_PART];
        char words[40], rate[16];
        unsigned stl = field(entry, SPINDLEWREN_STL, 2), tenths = tenths_of_rate(stl);
        protection(entry[SPINDLEWREN_TPL], words, sizeof words);
        snprintf(rate, sizeof rate, "%u.%u", tenths / 10, tenths % 10);
        spindlewren_stream(frame, SPINDLEWREN_FRAME, i, part, sizeof part);
        json_open(NULL, '{');
        json_number("stream", i);
        json_number("SCID", entry[SPINDLEWREN_SCID]);
        json_number("SAD", field(entry, SPINDLEWREN_SAD, 2));
        json_number("TPL", entry[SPINDLEWREN_TPL]);
        json_text("protection", words);
        json_number("STL", stl);
        json_raw("kbit_per_s", rate);
        part_as_json(place, part);
        json_close('}');
    }
    json_close(']');
}

static void fields_as_json(const uint8_t *frame, size_t place, const uint8_t *answer) {
    uint8_t part[SPINDLEWREN_PART];
    unsigned sort = answer[SPINDLEWREN_SORT];
    json_begin(stdout);
    json_number("place", place);
    json_number("level", answer[SPINDLEWREN_LEVEL]);
    json_text("FSYNC", sync_word(answer));
    json_number("FCT", answer[SPINDLEWREN_FCT]);
    json_number("FICF", answer[SPINDLEWREN_FICF]);
    json_number("NST", answer[SPINDLEWREN_NST]);
    json_number("FP", answer[SPINDLEWREN_FP]);
    json_number("MID", answer[SPINDLEWREN_MID]);
    json_number("FL", field(answer, SPINDLEWREN_FL, 2));
    json_number("MNSC", field(answer, SPINDLEWREN_MNSC, 2));
    json_number("Rfu", field(answer, SPINDLEWREN_RFU, 2));
    json_number("Rfa", answer[SPINDLEWREN_RFA]);
    if (sort == 0) json_raw("TSTA", "null");
    else json_number("TSTA", field(answer, SPINDLEWREN_TIME, 3));
    json_text("TSTA_sort", sorts[sort]);
    json_number("main_sum_sent", field(answer, SPINDLEWREN_SENT, 2));
    json_number("main_sum_worked_out", field(answer, SPINDLEWREN_WORKED, 2));
    spindlewren_fic(frame, SPINDLEWREN_FRAME, part, sizeof part);
    json_open("FIC", '{');
    part_as_json(place, part);
    json_close('}');
    streams_as_json(frame, place, answer);
    json_end();
}

static void tell(const struct request *asked, const uint8_t *frame, size_t place, const uint8_t *answer) {
    if (asked->json) fields_as_json(frame, place, answer);
    else fields(frame, place, answer);
}

/* The first frame of a walk; nothing behind it is looked at. */
static void first(const uint8_t *item, uint64_t place, const uint8_t *walk, void *to) {
    uint8_t answer[SPINDLEWREN_ANSWER];
    if (walk[SPINDLEWREN_KIND] != SPINDLEWREN_IS_FRAME) return;
    /* a frame that the walk hands out is accepted */
    spindlewren_read(item, SPINDLEWREN_FRAME, answer, sizeof answer);
    tell(to, item, (size_t)place, answer);
    finish(DONE);
}

void show(const struct request *asked) {
    struct record record;
    uint8_t answer[SPINDLEWREN_ANSWER];
    uint8_t refusal;
    if (!asked->placed) {
        each_item(asked, NULL, first, (void *)asked);
        fail(asked->file, "no frame is handed out");
    }
    record = map(asked->file);
    if (record.len < SPINDLEWREN_FRAME || asked->place > record.len - SPINDLEWREN_FRAME) refuse_at(asked->file, asked->place, SPINDLEWREN_PLACE_OUTSIDE);
    refusal = spindlewren_read(record.bytes + asked->place, SPINDLEWREN_FRAME, answer, sizeof answer);
    if (refusal != SPINDLEWREN_ACCEPTED) refuse_at(asked->file, asked->place, refusal);
    tell(asked, record.bytes + asked->place, asked->place, answer);
}
