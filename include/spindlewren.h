/* Spindlewren: reading and following ETI frames, for a transmitter's controller. docs/BOUNDARY.md, installed as share/doc/spindlewren/BOUNDARY.md, has the
   layouts. libspindlewren.a, which make install installs and tools/library makes, has all that is declared here; single archives are for who links less. */
#ifndef SPINDLEWREN_H
#define SPINDLEWREN_H

#include <stddef.h>
#include <stdint.h>

#ifdef __cplusplus
extern "C" {
#endif

/* Bytes of a frame, and of what is lent for an answer. */
enum {
    SPINDLEWREN_FRAME = 6144,
    SPINDLEWREN_ANSWER = 406, /* spindlewren_read */
    SPINDLEWREN_PART = 4,     /* spindlewren_fic, spindlewren_stream */
    SPINDLEWREN_WALK = 23,    /* spindlewren_begin, spindlewren_step, spindlewren_live */
    SPINDLEWREN_LOOKS = 8,    /* spindlewren_looks */
    SPINDLEWREN_WHY = 10,     /* spindlewren_why */
    SPINDLEWREN_COLLISION = 3, /* spindlewren_collision */
    SPINDLEWREN_SIGNAL = 24,  /* spindlewren_signal_step */
    SPINDLEWREN_MESSAGE = 1538, /* the buffer in which a message gathers, at least */
    SPINDLEWREN_LOG_RECORD = 16, /* spindlewren_log_write */
    SPINDLEWREN_JUDGED = 9,      /* spindlewren_log_judged */
    SPINDLEWREN_LOG_ENTRY = 11,  /* spindlewren_log_entry */
    SPINDLEWREN_SHEET = 146      /* spindlewren_sheet */
};

/* What the answer of spindlewren_read has at which byte; one byte each where no number stands behind. */
enum {
    SPINDLEWREN_LEVEL = 0,
    SPINDLEWREN_FSYNC1 = 1, /* 0 for 07 3A B6, 1 for F8 C5 49 */
    SPINDLEWREN_FCT = 2,
    SPINDLEWREN_FICF = 3,
    SPINDLEWREN_NST = 4,
    SPINDLEWREN_FP = 5,
    SPINDLEWREN_MID = 6,
    SPINDLEWREN_FL = 7,     /* 2 */
    SPINDLEWREN_MNSC = 9,   /* 2 */
    SPINDLEWREN_RFU = 11,   /* 2 */
    SPINDLEWREN_RFA = 13,
    SPINDLEWREN_SORT = 14,  /* 0 no timestamp is given, 1 a time, 2 a reserved number */
    SPINDLEWREN_TIME = 15,  /* 3 */
    SPINDLEWREN_SENT = 18,  /* 2: the main-stream sum as sent */
    SPINDLEWREN_WORKED = 20, /* 2: the main-stream sum as worked out */
    SPINDLEWREN_TABLE = 22, /* 64 entries of */
    SPINDLEWREN_ENTRY = 6   /* bytes */
};

/* What an entry of the table has at which of its bytes. */
enum {
    SPINDLEWREN_SCID = 0,
    SPINDLEWREN_SAD = 1, /* 2 */
    SPINDLEWREN_TPL = 3,
    SPINDLEWREN_STL = 4  /* 2 */
};

/* What a part has: its place, counted from the frame's byte 0, and its length. */
enum {
    SPINDLEWREN_START = 0, /* 2 */
    SPINDLEWREN_LEN = 2    /* 2 */
};

/* What a walk has: its state and behind it the step's item. A walk is begun by spindlewren_begin: bytes all zero are a walk with limit 0, which is
   done where it is, at place 0. */
enum {
    SPINDLEWREN_PLACE = 0,   /* 8 */
    SPINDLEWREN_MISSES = 8,
    SPINDLEWREN_LOCK = 9,
    SPINDLEWREN_LIMIT = 10,  /* of misses, 1 to 8 */
    SPINDLEWREN_KIND = 11,
    SPINDLEWREN_NUMBER = 12, /* the refusal number of a lost mark, 4 of an idle item, else 0 */
    SPINDLEWREN_ITEM = 13,   /* 8: the item's place */
    SPINDLEWREN_ITEM_FCT = 21,  /* of a frame, else 0 */
    SPINDLEWREN_ITEM_LEVEL = 22 /* of a frame, as reading hands it on, else 0 */
};

/* What spindlewren_collision tells: the profile's number, and the places in the table of the streams that it is about. */
enum {
    SPINDLEWREN_PROFILE = 0, /* 0, or 30 to 33 */
    SPINDLEWREN_FIRST = 1,   /* 30 and 33: the first two streams, in table order; 31 and 32: the first stream, twice */
    SPINDLEWREN_SECOND = 2
};

/* What signalling has behind its state: the step's item. The state is begun as bytes all zero. */
enum {
    SPINDLEWREN_SIGNAL_KIND = 14,
    SPINDLEWREN_SIGNAL_NUMBER = 15, /* a message's type, a drop's refusal number */
    SPINDLEWREN_SIGNAL_LENGTH = 16  /* 8: a message's */
};

/* The kinds of item that signalling has. */
enum {
    SPINDLEWREN_IS_NOTHING = 0,
    SPINDLEWREN_IS_MESSAGE = 1, /* the first bytes of the buffer */
    SPINDLEWREN_IS_DROP = 2     /* of a group or of a message */
};

/* The kinds of item. */
enum {
    SPINDLEWREN_IS_FRAME = 0,
    SPINDLEWREN_IS_LOST = 1,
    SPINDLEWREN_IS_IDLE = 2, /* a null transmission in lock */
    SPINDLEWREN_IS_DONE = 3,
    SPINDLEWREN_IS_MORE = 4 /* spindlewren_live: more bytes are wanted; all before that place may be forgotten */
};

/* What the answer of spindlewren_why has. */
enum {
    SPINDLEWREN_REASON = 0,
    SPINDLEWREN_REFUSAL = 1, /* the refusal number of a place lost or refused, else 0 */
    SPINDLEWREN_BEFORE = 2   /* 8: the place of the item before a place stepped over, else 0 */
};

/* The reasons. */
enum {
    SPINDLEWREN_HANDED_OUT = 0,   /* as a frame or an idle item */
    SPINDLEWREN_LOST = 1,
    SPINDLEWREN_REFUSED = 2,      /* hunted over */
    SPINDLEWREN_NOT_STANDING = 3, /* it stood, but the place a period later does not, or has not all its bytes */
    SPINDLEWREN_SAME_SYNC = 4,    /* both stood, with the same sync word */
    SPINDLEWREN_STEPPED_OVER = 5  /* in lock, and never come to */
};

/* What spindlewren_log_judged tells: the log's number, and for 29 which record is the first bad one, from 0 on. */
enum {
    SPINDLEWREN_LOG_NUMBER = 0,
    SPINDLEWREN_LOG_BAD = 1 /* 8 */
};

/* What spindlewren_log_entry tells of a record: the item's place, kind, code (a frame's FCT, a lost mark's refusal number, 4 of an idle item) and level
   (FF unless a frame). */
enum {
    SPINDLEWREN_LOG_PLACE = 0, /* 8 */
    SPINDLEWREN_LOG_KIND = 8,
    SPINDLEWREN_LOG_CODE = 9,
    SPINDLEWREN_LOG_LEVEL = 10
};

/* What a sheet has: sixteen totals of 8 bytes each (0 to 3: frames at that level; 4 + n: lost marks of refusal n, so 6, 7 and 9 to 14; 15: idle items; the rest
   stay as they are), the frames missing by FCT, high * 1,000,000,000 + low, whether a frame was met, 0 or 1, and the last one's FCT. All zero is the sheet of nothing. */
enum {
    SPINDLEWREN_TOTALS = 0, /* 16 times 8 */
    SPINDLEWREN_HIGH = 128, /* 8 */
    SPINDLEWREN_LOW = 136,  /* 8 */
    SPINDLEWREN_MET = 144,
    SPINDLEWREN_LAST = 145,
    SPINDLEWREN_SHEET_ROWS = 16,
    SPINDLEWREN_LOST_ROW = 4,
    SPINDLEWREN_IDLE_ROW = 15
};

/* The refusal numbers. 11 belongs to writing alone. */
enum {
    SPINDLEWREN_ACCEPTED = 0,
    SPINDLEWREN_LENGTH = 1,         /* the frame or the answer has another length */
    SPINDLEWREN_SYNC = 2,           /* the sync word is neither of the two */
    SPINDLEWREN_STATUS = 3,         /* the status byte is none of the four */
    SPINDLEWREN_NULL = 4,           /* null transmission */
    SPINDLEWREN_NST_ABOVE = 5,      /* NST above 64 */
    SPINDLEWREN_HEADER_SUM = 6,     /* header sum wrong */
    SPINDLEWREN_FCT_ABOVE = 7,      /* FCT above 249 */
    SPINDLEWREN_STL_ABOVE = 8,      /* some STL above 684 */
    SPINDLEWREN_FL_DIFFERS = 9,     /* FL differs from the formula */
    SPINDLEWREN_FL_ABOVE = 10,      /* FL above 1,532 */
    SPINDLEWREN_TOO_WIDE = 12,      /* a value wider than its field: a lock byte, a `more` or a flag of signalling's state above 1, an STL of 1,024 or more; a sheet that cannot go on;
                                       leased lines: no such variant, a level above 3 */
    SPINDLEWREN_NO_SUCH_STREAM = 13, /* stream index not below NST */
    SPINDLEWREN_BAD_ITEM = 20,      /* a tag item runs past the packet, is no whole number of bytes, or is a stream of no whole number of words */
    SPINDLEWREN_MANAGEMENT_ITEM = 21, /* management item missing, repeated, or of another length than it calls for */
    SPINDLEWREN_STREAM_NUMBERS = 22, /* stream numbers not 1 to NST, each once */
    SPINDLEWREN_TOO_LONG = 23,      /* leased lines: the logical frame has more bytes than the variant carries */
    SPINDLEWREN_OUT_OF_PHASE = 24,  /* signalling: a frame out of phase, the group is dropped */
    SPINDLEWREN_OUT_OF_TURN = 25,   /* signalling: a continuation or end that is not due, or a start in an open message */
    SPINDLEWREN_CLOSING_SUM = 26,   /* signalling: the closing sum is wrong */
    SPINDLEWREN_LIMIT_OUTSIDE = 27, /* limit outside 1 to 8 */
    SPINDLEWREN_LOG_LENGTH = 28,    /* log not a multiple of sixteen bytes */
    SPINDLEWREN_NOT_ALLOWED = 29,   /* a kind, code or level that no record has, or a nonzero tail */
    SPINDLEWREN_EQUAL_SCIDS = 30,   /* two streams have one SCID */
    SPINDLEWREN_NO_SIZE = 31,       /* protection with no size */
    SPINDLEWREN_BEYOND = 32,        /* capacity units beyond 863 */
    SPINDLEWREN_OVERLAP = 33,       /* two sub-channels share a capacity unit */
    SPINDLEWREN_PLACE_OUTSIDE = 34, /* place outside 0 to the record's length less 6,144; of a log, no such record */
    SPINDLEWREN_ITEM_STATUS = 35,   /* the management item's status byte is none of the four */
    SPINDLEWREN_MESSAGE_LENGTH = 36, /* a message whose length groups cannot carry exactly */
    SPINDLEWREN_NOT_SIXTEEN = 37    /* not exactly sixteen bytes lent */
};

/* Each returns the refusal number, 0 for accepted; refused, not one byte is written. A pointer may be null where its length is 0. No byte that is lent may change
   while a call lasts: what a device or another thread writes to is copied first. */
uint8_t spindlewren_read(const uint8_t *frame, size_t frame_len, uint8_t *answer, size_t answer_len);
uint8_t spindlewren_fic(const uint8_t *frame, size_t frame_len, uint8_t *part, size_t part_len);
uint8_t spindlewren_stream(const uint8_t *frame, size_t frame_len, size_t i, uint8_t *part, size_t part_len);

/* A walk at the beginning of a record, which gives up its lock after `limit` misses: 27 for a limit outside 1 to 8, before anything else. */
uint8_t spindlewren_begin(size_t limit, uint8_t *walk, size_t walk_len);

/* One step of a walk over a record: the walk's bytes then hold the advanced state and its item. */
uint8_t spindlewren_step(const uint8_t *record, size_t record_len, uint8_t *walk, size_t walk_len);

/* One step of a walk over a live line. `window` is the line's bytes from the walk's place on, as many as are there; `more` is 1, and 0 once the line
   has ended. Places are counted from the line's beginning. The walk's bytes then hold the advanced state and what is told: the next item, done once
   the line has ended, or that more bytes are wanted. The next window begins at the advanced state's place; bytes are added to it only
   where more are wanted, and then fewer than 12,288 are kept. 1 for walk's bytes of another length, then 12 for a lock or a `more` above 1.
   In an archive of its own: tools/archive living. */
uint8_t spindlewren_live(const uint8_t *window, size_t window_len, uint8_t more, uint8_t *walk, size_t walk_len);

/* Why a place of a record was aired or not, in the walk from the record's beginning that gives up its lock after `limit` misses: exactly one reason.
   27 for the limit, then 1 for an answer of another length, then 34 for a place outside 0 to the record's length less 6,144.
   In an archive of its own: tools/archive reasons. */
uint8_t spindlewren_why(const uint8_t *record, size_t record_len, size_t limit, size_t place, uint8_t *answer, size_t answer_len);

/* The frame read and written again into `out`, of SPINDLEWREN_FRAME bytes, with the level that reading hands on: what a relay sends on.
   Reading's number, then 1 for an output of another length. In an archive of its own: tools/archive relays. */
uint8_t spindlewren_relay(const uint8_t *frame, size_t frame_len, uint8_t *out, size_t out_len);

/* How many times the walk over a record with that limit puts the acceptance test to a place, in SPINDLEWREN_LOOKS bytes, high byte first:
   at most twice (record_len - 6,143), and 0 below 6,144 bytes. 27 for a limit outside 1 to 8, then 1 for an answer of another length.
   In an archive of its own: tools/archive sizing. */
uint8_t spindlewren_looks(const uint8_t *record, size_t record_len, size_t limit, uint8_t *answer, size_t answer_len);

/* The final-stage profile: reading's number, then 30 to 33; 0: the frame passes. In an archive of its own: tools/archive profiles. */
uint8_t spindlewren_profile(const uint8_t *frame, size_t frame_len);

/* Which streams it is about, of an accepted frame: 1 for answer bytes of another length, then reading's number; otherwise 0, and the
   profile's number stands in the answer. In the same archive. */
uint8_t spindlewren_collision(const uint8_t *frame, size_t frame_len, uint8_t *collision, size_t collision_len);

/* Signalling, fed one frame's FP and MNSC: the signal's bytes then hold the state after it and its item. A message gathers in `bytes`, at least
   SPINDLEWREN_MESSAGE of them, the same and unchanged while one is open. 1 for a length, then 12 for state bytes of no state.
   In an archive of its own: tools/archive signals. */
uint8_t spindlewren_signal_step(uint8_t fp, uint16_t mnsc, uint8_t *signal, size_t signal_len, uint8_t *bytes, size_t bytes_len);

/* The byte pairs of a message, two bytes for each frame, the first for a frame whose FP is a multiple of 4: 36 for a message that has not
   8 + 6 n bytes, n from 0 to 255, then 1 for an output that has not 16 + 8 n. In the same archive. */
uint8_t spindlewren_signal_write(uint8_t type, const uint8_t *message, size_t message_len, uint8_t *out, size_t out_len);

/* A night's item into a log's record of SPINDLEWREN_LOG_RECORD bytes: 37 for another length, then 29 for a kind, code or level that is not allowed, as that of
   done is not. These three are in an archive of their own: tools/archive logs. */
uint8_t spindlewren_log_write(size_t place, uint8_t kind, uint8_t code, uint8_t level, uint8_t *record, size_t record_len);

/* A log judged, into SPINDLEWREN_JUDGED bytes: its number is 28, or 29 with the first bad record, or 0. 1 for an answer of another length. */
uint8_t spindlewren_log_judged(const uint8_t *log, size_t log_len, uint8_t *judged, size_t judged_len);

/* Record i of a log, from 0 on, into SPINDLEWREN_LOG_ENTRY bytes, at the same cost whatever the log's length: 1 for an answer of another length, then 28, then 34
   where there is no such record, then 29 where it is bad. */
uint8_t spindlewren_log_entry(const uint8_t *log, size_t log_len, size_t i, uint8_t *entry, size_t entry_len);

/* A log's entries added to a sheet of SPINDLEWREN_SHEET bytes, so that a week is seven calls, the first over zeros. 1 for a sheet of another length, then 28, then 29,
   then 12 where the sheet cannot go on: one of the sixteen totals, or high, is above 2^64 - 1 less the number of the log's records; low is 1,000,000,000 or more; met
   is above 1; met is 0 and the last FCT is not 0; or met is 1 and it is above 249. In an archive of its own: tools/archive sheets. */
uint8_t spindlewren_sheet(const uint8_t *log, size_t log_len, uint8_t *sheet, size_t sheet_len);

/* The frame that an EDI packet's tag items call for, into `out`, of SPINDLEWREN_FRAME bytes, with the sync word 07 3A B6 for choice 0 and F8 C5 49
   for every other: 20, 21, 22 or 35 for the items, then writing's numbers: 1 for an output of another length, 12 for an STL of 1,024 or more, 7, 8, 10.
   In an archive of its own: tools/archive packets. */
uint8_t spindlewren_edi(const uint8_t *packet, size_t packet_len, uint8_t choice, uint8_t *out, size_t out_len);

/* The number in `width` bytes from `at` on, high byte first. */
static inline uint64_t spindlewren_number(const uint8_t *bytes, size_t at, size_t width) {
    const uint8_t *b = bytes + at;
    uint64_t n = 0;
    size_t i;
    /* a place's eight bytes are written out: a compiler makes one load of them */
    if (width == 8)
        return (uint64_t)b[0] << 56 | (uint64_t)b[1] << 48 | (uint64_t)b[2] << 40 | (uint64_t)b[3] << 32 | (uint64_t)b[4] << 24 | (uint64_t)b[5] << 16 | (uint64_t)b[6] << 8 | b[7];
    for (i = 0; i < width; i++) n = n << 8 | b[i];
    return n;
}

/* Where entry i of the table begins in an answer. */
static inline size_t spindlewren_entry(size_t i) {
    return SPINDLEWREN_TABLE + SPINDLEWREN_ENTRY * i;
}

/* A refusal number in words. */
static inline const char *spindlewren_label(uint8_t number) {
    switch (number) {
    case SPINDLEWREN_ACCEPTED: return "accepted";
    case SPINDLEWREN_LENGTH: return "wrong length";
    case SPINDLEWREN_SYNC: return "sync word is neither of the two";
    case SPINDLEWREN_STATUS: return "status byte is none of the four";
    case SPINDLEWREN_NULL: return "null transmission";
    case SPINDLEWREN_NST_ABOVE: return "NST above 64";
    case SPINDLEWREN_HEADER_SUM: return "header sum wrong";
    case SPINDLEWREN_FCT_ABOVE: return "FCT above 249";
    case SPINDLEWREN_STL_ABOVE: return "some STL above 684";
    case SPINDLEWREN_FL_DIFFERS: return "FL differs from the formula";
    case SPINDLEWREN_FL_ABOVE: return "FL above 1,532";
    case SPINDLEWREN_TOO_WIDE: return "a value wider than its field";
    case SPINDLEWREN_NO_SUCH_STREAM: return "stream index not below NST";
    case SPINDLEWREN_BAD_ITEM: return "a tag item of a wrong length";
    case SPINDLEWREN_MANAGEMENT_ITEM: return "management item missing, repeated or of a wrong length";
    case SPINDLEWREN_STREAM_NUMBERS: return "stream numbers not 1 to NST, each once";
    case SPINDLEWREN_TOO_LONG: return "more bytes than the variant carries";
    case SPINDLEWREN_OUT_OF_PHASE: return "a frame is out of phase";
    case SPINDLEWREN_OUT_OF_TURN: return "a group is out of turn";
    case SPINDLEWREN_CLOSING_SUM: return "closing sum wrong";
    case SPINDLEWREN_LIMIT_OUTSIDE: return "limit outside 1 to 8";
    case SPINDLEWREN_LOG_LENGTH: return "log not a multiple of sixteen bytes";
    case SPINDLEWREN_NOT_ALLOWED: return "a kind, code or level that is not allowed, or a nonzero tail";
    case SPINDLEWREN_EQUAL_SCIDS: return "two streams have one SCID";
    case SPINDLEWREN_NO_SIZE: return "protection with no size";
    case SPINDLEWREN_BEYOND: return "capacity units beyond 863";
    case SPINDLEWREN_OVERLAP: return "two sub-channels share a capacity unit";
    case SPINDLEWREN_PLACE_OUTSIDE: return "place outside 0 to the record's length less 6,144";
    case SPINDLEWREN_ITEM_STATUS: return "status byte of the management item is none of the four";
    case SPINDLEWREN_MESSAGE_LENGTH: return "a message of a length that groups cannot carry";
    case SPINDLEWREN_NOT_SIXTEEN: return "not exactly sixteen bytes lent";
    default: return "no such number";
    }
}

#ifdef __cplusplus
}
#endif

#endif
