/* JSON, written member by member. No text of the command's own has a character that would need an escape, and file names are not written. */
#include "json.h"
#include "command.h"

#include <stdlib.h>
#include <string.h>

enum { ROOM = 1 << 12, DIGITS = 20 };

static FILE *out;
static char text[ROOM];
static size_t used;
static int comma; /* whether one is due before the next value */

static void write_out(void) {
    fwrite(text, 1, used, out);
    used = 0;
}

static void put(const char *bytes, size_t len) {
    if (used + len > sizeof text) write_out();
    memcpy(text + used, bytes, len);
    used += len;
}

static void value(const char *name) {
    if (comma) put(",", 1);
    comma = 1;
    if (name == NULL) return;
    put("\"", 1);
    put(name, strlen(name));
    put("\":", 2);
}

void json_begin(FILE *to) {
    /* on standard error stand the counts of bytes: told once these are written */
    if (to == stderr) written();
    out = to;
    comma = 0;
    put("{", 1);
}

void json_end(void) {
    put("}\n", 2);
    write_out();
    /* of standard output it shows when the command ends */
    if (out == stderr && ferror(stderr)) exit(COULD_NOT);
}

void json_number(const char *name, unsigned long long n) {
    char number[DIGITS];
    char *end = number + sizeof number, *at = number_before(end, n);
    value(name);
    put(at, (size_t)(end - at));
}

void json_text(const char *name, const char *words) {
    value(name);
    put("\"", 1);
    put(words, strlen(words));
    put("\"", 1);
}

void json_raw(const char *name, const char *words) {
    value(name);
    put(words, strlen(words));
}

void json_open(const char *name, char bracket) {
    value(name);
    put(&bracket, 1);
    comma = 0;
}

void json_close(char bracket) {
    put(&bracket, 1);
    comma = 1;
}

void json_refusal(uint8_t refusal) {
    json_number("refusal", refusal);
    json_text("words", spindlewren_label(refusal));
}
