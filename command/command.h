/* What the verbs of the command share. */
#ifndef COMMAND_H
#define COMMAND_H

#include "spindlewren.h"

/* Exit statuses; the last is that of --strict. */
enum { DONE = 0, COULD_NOT = 1, WRONG_USE = 2, NOT_ALL = 3 };

/* What a verb is asked: a file or several; and, where the verb takes them, a way (out, back), a place, a part's name, the limit of misses of a walk, which sync
   word, 0 or 1, a frame gets, the variant of a leased line; and whether a page, filled periods, a status for what was lost or does not pass, or JSON are wanted. */
struct request {
    const char *file;
    char **files;
    size_t count;
    const char *way;
    int placed;
    size_t place;
    const char *part;
    size_t limit, sync, variant;
    size_t html, fill, strict, json;
    unsigned given; /* what the options given are taken by */
};

/* What a verb takes beside a file and --json. */
enum {
    TAKES_LIMIT = 1,
    TAKES_PLACE = 2,
    MAY_TAKE_PLACE = 4,
    TAKES_PART = 8,
    TAKES_MANY = 16,
    TAKES_SYNC = 32,
    TAKES_HTML = 64,
    TAKES_FILL = 128,
    TAKES_WAY = 256, /* and a variant */
    TAKES_STRICT = 512
};

struct verb {
    const char *name;
    void (*run)(const struct request *asked);
    unsigned takes;
    const char *words, *help;
};

#define VERB(name, run, takes, words, help) void run(const struct request *asked);
#include "verbs.h"
#undef VERB

/* The words behind a verb, put into the request. Ends the command with WRONG_USE where they are not the verb's. */
void understand(const struct verb *verb, int argc, char **argv, struct request *asked);

/* The options of a verb, or of none all, for help. */
void tell_options(const struct verb *only);

/* ---- files and walks */

/* A recorded file, or, where it is called -, standard input: a line whose bytes come in pieces, of which few are kept. */
struct record {
    const uint8_t *bytes;
    size_t len;
};

/* The whole file, mapped, so that its size does not matter; all of standard input in memory. Ends the command where that cannot be. */
struct record map(const char *file);

/* Whether a file is standard input; and what a file is called in messages. */
int is_line(const char *file);
const char *called(const char *file);

/* A walk over the file or the line from its beginning: the heading, if there is one and no JSON is wanted, once nothing is refused, and then each item is told, done
   the last, as the walk's bytes have it, with the item's bytes in the record and its place. An item of a line is told as soon as it is there. */
typedef void (*teller)(const uint8_t *item, uint64_t place, const uint8_t *walk, void *to);
void each_item(const struct request *asked, const char *heading, teller tell, void *to);

/* .. of a line. */
void each_of_line(uint8_t *walk, teller tell, void *to);

/* Between two items, so many bytes done: ends the command if what was told could not be written, and tells of the progress where that is due. */
void heed(uint64_t done);

/* ---- progress: a line on standard error, if that is a terminal and standard output is none, once the work has lasted a second */

/* Work begins on so many bytes; 0 where that is not known. */
void progress_begin(uint64_t bytes);
int progress_due(void);
void progress_show(uint64_t done);
/* The line is taken away; .. from within a signal's handler. */
void progress_end(void);
void progress_wipe(void);

/* ---- words, numbers and ends */

/* A number in digits alone; 0 where the word is none. One that is too large for its type is the largest: it is outside every range here. */
int digits(const char *word, size_t *number);

/* The digits of a number, put before `end`: where they begin. */
char *number_before(char *end, uint64_t n);

/* Whether standard output shall have colours: it is a terminal that has them, and NO_COLOR is not set. */
int coloured(void);

/* Whether all that was told so far is written; .. and the end of the command, with COULD_NOT, where it is not. */
int all_written(void);
void written(void);

/* Ends the command with a status once all is written, or with COULD_NOT. */
void finish(int status);

/* Ends the command with COULD_NOT: the file and the reason on standard error. */
void fail(const char *file, const char *reason);

/* .. where the reason is a refusal number. */
void refuse(const char *file, uint8_t refusal);
void refuse_at(const char *file, size_t place, uint8_t refusal);

/* Ends the command with WRONG_USE: what is wrong, as printf has it, on standard error, and whose help tells more, the verb's or, of none, that of all. */
void wrong_use(const struct verb *verb, const char *what, ...);

/* ---- sheets of logs, for the table and the page */

/* The rows of a sheet that count something, in the order in which they are told, and what each counts. */
enum { SHEET_ROWS = 13 };
extern const unsigned sheet_rows[SHEET_ROWS];
void name_row(unsigned row, char *text, size_t size);

/* A log mapped and added to a sheet. Ends the command at a bad one, with the record and what is wrong in it. */
struct record add_log(const char *file, uint8_t *sheet);

/* A total of a sheet; all its items; its frames missing, as digits. */
unsigned long long total(const uint8_t *sheet, unsigned row);
unsigned long long all_items(const uint8_t *sheet);
enum { MISSING_DIGITS = 32 };
void missing_frames(const uint8_t *sheet, char *text);

/* n of all in hundredths of a per cent, to the nearest; 0 of none. */
unsigned share(unsigned long long n, unsigned long long all);

/* The page of the logs: `sheet` is that of all of them. */
void page(const struct request *asked, const uint8_t *sheet);

#endif
