/* Packets from C: tag items at the edges of every rule, built from clause 5's widths, each frame held to one built from the scope's; every truncation;
   guards around packet and output. */
#include <stdio.h>
#include <stdlib.h>
#include <string.h>

#include "spindlewren.h"

enum { FRAME = SPINDLEWREN_FRAME, GUARD = 16, FILL = 0xA5, MOST = 64, ROOM = 20000 };

struct stream {
    unsigned number, scid, sad, tpl, stl;
};

/* What a management item holds; a flag of 0 leaves its part out. */
struct management {
    unsigned atst, ficf, rfud, fct, stat, mid, fp, mnsc, rfu, rfa;
    unsigned long tsta;
};

static int bad = 0;
static unsigned long calls = 0;
static uint8_t packet[ROOM];
static size_t end;
static const struct management plain = {1, 1, 1, 249, 0xFF, 1, 5, 0x1234, 0xABCD, 0x5A, 0xF9FFFF};

static void hold(int right, const char *what, unsigned long at) {
    if (!right) {
        printf("packets: %s at %lu: FAILED\n", what, at);
        bad = 1;
    }
}

static void put(uint8_t *to, size_t width, unsigned long n) {
    for (; width-- > 0; n >>= 8) to[width] = (uint8_t)n;
}

static void byte(unsigned n) { packet[end++] = (uint8_t)n; }

/* The bytes of a FIC and of a stream's data: different from stream to stream and from place to place. */
static unsigned data(unsigned number, size_t at) { return (unsigned)(31 * at + 7 * number + 3) & 255; }

/* An item's name and length; the value's bytes follow. */
static void head(const char *name, unsigned last, unsigned long bits) {
    memcpy(packet + end, name, 3);
    packet[end + 3] = (uint8_t)last;
    put(packet + end + 4, 4, bits);
    end += 8;
}

static size_t fic_len(const struct management *m) { return m->ficf == 0 ? 0 : m->mid == 3 ? 128 : 96; }

/* The management item, `more` bytes longer than it should be. */
static void deti(const struct management *m, int more) {
    size_t i, len = 6 + 8 * m->atst + fic_len(m) + 3 * m->rfud + (size_t)more, from = end + 8;
    head("det", 'i', 8 * len);
    put(packet + end, 4, (unsigned long)m->atst << 31 | (unsigned long)m->ficf << 30 | (unsigned long)m->rfud << 29 | 19ul << 24 | (unsigned long)m->fct << 16 |
                             m->stat << 8 | m->mid << 6 | m->fp << 3 | 7);
    put(packet + end + 4, 2, m->mnsc);
    end += 6;
    if (m->atst) {
        put(packet + end, 5, 0x0501020304ul);
        put(packet + end + 5, 3, m->tsta);
        end += 8;
    }
    for (i = 0; i < fic_len(m); i++) byte(data(0, i));
    if (m->rfud) {
        put(packet + end, 2, m->rfu);
        packet[end + 2] = (uint8_t)m->rfa;
        end += 3;
    }
    while (end < from + len) byte(0xEE);
    end = from + len;
}

static void est(const struct stream *s) {
    size_t i;
    head("est", s->number, 24 + 64ul * s->stl);
    put(packet + end, 2, s->scid << 10 | s->sad);
    packet[end + 2] = (uint8_t)(s->tpl << 2 | 3);
    end += 3;
    for (i = 0; i < 8 * (size_t)s->stl; i++) byte(data(s->number, i));
}

/* Annex D, bit by bit. */
static unsigned sum(const uint8_t *bytes, size_t len) {
    unsigned crc = 0xFFFF;
    size_t i;
    int bit;
    for (i = 0; i < len; i++)
        for (bit = 7; bit >= 0; bit--) {
            unsigned top = (crc >> 15 ^ (unsigned)bytes[i] >> bit) & 1;
            crc = (crc << 1 & 0xFFFF) ^ (top ? 0x1021 : 0);
        }
    return crc ^ 0xFFFF;
}

/* The frame of management m and the streams 1 to n, which stand in s by their numbers. */
static void frame(uint8_t *f, const struct management *m, const struct stream *s, size_t n, int fsync1) {
    size_t i, k, at = 8;
    unsigned long stls = 0;
    memset(f, 0x55, FRAME);
    put(f, 4, (unsigned long)m->stat << 24 | (fsync1 ? 0xF8C549 : 0x073AB6));
    for (i = 0; i < n; i++, at += 4) {
        put(f + at, 4, (unsigned long)s[i].scid << 26 | (unsigned long)s[i].sad << 16 | s[i].tpl << 10 | s[i].stl);
        stls += s[i].stl;
    }
    put(f + 4, 4, (unsigned long)m->fct << 24 | (unsigned long)m->ficf << 23 | (unsigned long)n << 16 | m->fp << 13 | m->mid << 11 | (n + 1 + fic_len(m) / 4 + 2 * stls));
    put(f + at, 2, m->mnsc);
    put(f + at + 2, 2, sum(f + 4, at - 2));
    at += 4;
    k = at;
    for (i = 0; i < fic_len(m); i++) f[at++] = (uint8_t)data(0, i);
    for (i = 0; i < n; i++) {
        size_t j;
        for (j = 0; j < 8 * (size_t)s[i].stl; j++) f[at++] = (uint8_t)data((unsigned)i + 1, j);
    }
    put(f + at, 2, sum(f + k, at - k));
    put(f + at + 2, 2, m->rfud ? m->rfu : 0xFFFF);
    f[at + 4] = (uint8_t)(m->rfud ? m->rfa : 0xFF);
    put(f + at + 5, 3, m->atst ? m->tsta : 0xFFFFFF);
}

/* The first len bytes of the packet, copied so that nothing lies behind them, into an output of `lent` bytes between guards. */
static void call(const char *what, size_t len, unsigned choice, size_t lent, unsigned refusal, const uint8_t *expected) {
    static uint8_t room[GUARD + FRAME + 1 + GUARD], before[sizeof room];
    uint8_t *copy = malloc(len == 0 ? 1 : len);
    unsigned told;
    if (copy == NULL) exit(1);
    memcpy(copy, packet, len);
    memset(room, FILL, sizeof room);
    memset(before, FILL, sizeof before);
    told = spindlewren_edi(len == 0 ? NULL : copy, len, (uint8_t)choice, lent == 0 ? NULL : room + GUARD, lent);
    if (refusal == 0) memcpy(before + GUARD, expected, FRAME);
    hold(told == refusal, what, told);
    hold(memcmp(room, before, sizeof room) == 0, what, len);
    hold(memcmp(copy, packet, len) == 0, what, len);
    free(copy);
    calls++;
}

static void refused(const char *what, unsigned refusal) { call(what, end, 0, FRAME, refusal, NULL); }

static void made(const char *what, const struct management *m, const struct stream *s, size_t n) {
    static const unsigned choices[] = {0, 1, 2, 255};
    uint8_t f[FRAME];
    size_t i;
    for (i = 0; i < sizeof choices / sizeof *choices; i++) {
        frame(f, m, s, n, choices[i] != 0);
        call(what, end, choices[i], FRAME, 0, f);
    }
}

/* Management alone: every flag and mode, every status byte, lengths one off, timestamps and FCT at their edges. */
static void managements(void) {
    struct management m = plain;
    unsigned i;
    for (i = 0; i < 32; i++) {
        m.atst = i & 1, m.ficf = i >> 1 & 1, m.rfud = i >> 2 & 1, m.mid = i >> 3;
        end = 0, deti(&m, 0), made("flags and mode", &m, NULL, 0);
        end = 0, deti(&m, 1), refused("a byte more", SPINDLEWREN_MANAGEMENT_ITEM);
        end = 0, deti(&m, -1), refused("a byte less", SPINDLEWREN_MANAGEMENT_ITEM);
    }
    for (i = 0, m = plain; i < 256; i++) {
        m.stat = i, end = 0, deti(&m, 0);
        if (i == 0xFF || i == 0xF0 || i == 0x0F || i == 0) made("status", &m, NULL, 0);
        else refused("status", SPINDLEWREN_ITEM_STATUS);
    }
    m = plain, m.fct = 250, end = 0, deti(&m, 0), refused("FCT 250", SPINDLEWREN_FCT_ABOVE);
    for (i = 0xFA0000; i >= 0xFA0000 && i <= 0xFFFFFF; i = i == 0xFA0000 ? 0xFFFFFE : i + 1) m = plain, m.tsta = i, end = 0, deti(&m, 0), made("TSTA", &m, NULL, 0);
    for (i = 0; i < 8; i++) {
        end = 0, memset(packet, 0, 8);
        call("no items", i, 0, FRAME, SPINDLEWREN_MANAGEMENT_ITEM, NULL);
        deti(&plain, 0), end += i, made("padding", &plain, NULL, 0);
    }
    end = 0, deti(&plain, 0), deti(&plain, 0), refused("management twice", SPINDLEWREN_MANAGEMENT_ITEM);
    end = 0, head("det", 'i', 40), put(packet + end, 5, 0), end += 5, refused("five bytes of management", SPINDLEWREN_MANAGEMENT_ITEM);
    end = 0, head("det", 'i', 0), refused("no bytes of management", SPINDLEWREN_MANAGEMENT_ITEM);
}

/* One stream item of any length in bits, with its bytes; and a stranger's. */
static void lengths(void) {
    unsigned long bits;
    struct stream s = {1, 0, 0, 0, 0};
    for (bits = 0; bits <= 200; bits++) {
        end = 0, deti(&plain, 0), head("inf", 'o', bits), end += (bits + 7) / 8;
        if (bits % 8 == 0) made("stranger", &plain, NULL, 0);
        else refused("stranger", SPINDLEWREN_BAD_ITEM);
        end = 0, deti(&plain, 0), head("est", 1, bits), memset(packet + end, 0, 32), end += (bits + 7) / 8;
        if (bits < 24 || (bits - 24) % 64 != 0) refused("stream", SPINDLEWREN_BAD_ITEM);
    }
    end = 0, deti(&plain, 0), est(&s), made("STL 0", &plain, (struct stream[]){{1, 0, 0, 0, 0}}, 1);
    end = 0, head("inf", 'o', 0xFFFFFFF8), end += 10, refused("far past the packet", SPINDLEWREN_BAD_ITEM);
}

/* Stream numbers, orders, strangers among them, and which refusal comes first. */
static void numbers(void) {
    static const struct stream s[3] = {{1, 63, 1023, 63, 2}, {2, 0, 0, 0, 1}, {3, 17, 500, 33, 0}};
    struct stream t = s[0];
    struct management m = plain;
    unsigned n;
    end = 0, est(&s[2]), head("est", 0, 16), end += 2, est(&s[0]), deti(&plain, 0), head("est", 65, 0), est(&s[1]), end += 7;
    made("three streams", &plain, s, 3);
    for (n = 0; n < 256; n++) {
        t.number = n, end = 0, deti(&plain, 0), est(&t);
        if (n == 1) made("one number", &plain, s, 1);
        else if (n >= 2 && n <= 64) refused("one number", SPINDLEWREN_STREAM_NUMBERS);
        else made("one number", &plain, s, 0);
    }
    end = 0, deti(&plain, 0), est(&s[0]), est(&s[1]), est(&s[0]), refused("a stream twice", SPINDLEWREN_STREAM_NUMBERS);
    end = 0, est(&s[1]), refused("21 before 22", SPINDLEWREN_MANAGEMENT_ITEM);
    m.stat = 1;
    end = 0, deti(&m, 0), est(&s[1]), refused("22 before 35", SPINDLEWREN_STREAM_NUMBERS);
    end = 0, deti(&m, 1), est(&s[0]), refused("21 before 35", SPINDLEWREN_MANAGEMENT_ITEM);
    end = 0, est(&s[1]), head("inf", 'o', 4), byte(0), refused("20 before 21", SPINDLEWREN_BAD_ITEM);
    m = plain, m.fct = 250, m.stat = 1, end = 0, deti(&m, 0), refused("35 before 7", SPINDLEWREN_ITEM_STATUS);
}

/* Output lengths, and the lengths of streams at writing's edges. */
static void sizes(void) {
    struct stream s[MOST];
    struct management m = plain;
    size_t lent, i;
    unsigned stl;
    for (lent = 0; lent <= FRAME + 1; lent += lent == 1 ? FRAME - 2 : lent == FRAME - 1 ? 2 : 1)
        end = 0, deti(&plain, 0), call("another output", end, 0, lent, SPINDLEWREN_LENGTH, NULL);
    s[0] = (struct stream){1, 1, 1, 1, 0};
    for (stl = 682; stl <= 1030; stl++) {
        s[0].stl = stl, end = 0, deti(&plain, 0), est(&s[0]);
        if (stl <= 684) made("STL", &plain, s, 1);
        else refused("STL", stl < 1024 ? SPINDLEWREN_STL_ABOVE : SPINDLEWREN_TOO_WIDE);
        call("1 before 12 and 8", end, 0, FRAME - 1, SPINDLEWREN_LENGTH, NULL);
    }
    m.fct = 250, end = 0, deti(&m, 0), est(&s[0]), refused("12 before 7", SPINDLEWREN_TOO_WIDE);
    s[0].stl = 685, end = 0, deti(&m, 0), est(&s[0]), refused("7 before 8", SPINDLEWREN_FCT_ABOVE);
    /* 64 streams and a FIC of 24 words: FL is 89 and twice the STLs */
    for (i = 0; i < MOST; i++) s[i] = (struct stream){(unsigned)i + 1, (unsigned)i, (unsigned)(13 * i), (unsigned)(63 - i), 11};
    for (stl = 26; stl <= 30; stl++) {
        s[63].stl = stl;
        for (i = MOST, end = 0; i > 0; i--) est(&s[i - 1]);
        deti(&plain, 0);
        if (stl <= 28) made("64 streams", &plain, s, MOST);
        else refused("64 streams", SPINDLEWREN_FL_ABOVE);
    }
}

/* A packet cut off at every byte: what is left is items, up to seven bytes, or an item that runs past it. */
static void truncations(void) {
    static const struct stream s[4] = {{1, 1, 10, 2, 3}, {2, 2, 20, 4, 0}, {3, 3, 30, 8, 1}, {4, 4, 40, 16, 2}};
    uint8_t f[FRAME];
    size_t i, n, last;
    for (last = 0; last <= 4; last++) {
        /* management behind `last` streams */
        for (i = 0, end = 0; i <= 4; i++) {
            if (i == last) deti(&plain, 0);
            if (i < 4) est(&s[i]);
        }
        for (i = 0; i <= end; i++) {
            /* the streams whole so far, and whether management is */
            size_t done = 0;
            int managed = 0;
            for (n = 0; done < end;) {
                size_t next = done + 8 + (size_t)spindlewren_number(packet, done + 4, 4) / 8;
                if (next > i) break;
                managed |= packet[done] == 'd';
                n += packet[done] == 'e';
                done = next;
            }
            if (i - done >= 8) call("cut off", i, 0, FRAME, SPINDLEWREN_BAD_ITEM, NULL);
            else if (!managed) call("cut off", i, 0, FRAME, SPINDLEWREN_MANAGEMENT_ITEM, NULL);
            else frame(f, &plain, s, n, 0), call("cut off", i, 0, FRAME, 0, f);
        }
    }
}

int main(void) {
    managements();
    lengths();
    numbers();
    sizes();
    truncations();
    if (!bad) printf("packets: %lu calls, ok\n", calls);
    return bad;
}
