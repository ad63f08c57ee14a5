/* The words behind a verb: its options anywhere, a file or several, and a way, a place or a part where the verb takes one. */
#include "command.h"

#include <stddef.h>
#include <stdio.h>
#include <string.h>

struct option {
    const char *name;
    const char *number; /* what the number that follows it is called; NULL where none does */
    unsigned takes;     /* what a verb that has it takes; 0: every verb has it */
    size_t at;          /* where its number stands in the request */
    const char *help;
};

static const struct option options[] = {
    {"--limit", "M", TAKES_LIMIT, offsetof(struct request, limit), "so many lost marks in a row end the lock, 1 to 8; 3 unless given"},
    {"--strict", NULL, TAKES_STRICT, offsetof(struct request, strict), "exit status 3 if anything was lost (list) or did not pass (profile), or no frame is handed out"},
    {"--fill", NULL, TAKES_FILL, offsetof(struct request, fill), "zero bytes for lost and idle periods"},
    {"--sync", "N", TAKES_SYNC, offsetof(struct request, sync), "the frame's sync word: 0 for 07 3A B6, which is taken unless given, or 1 for F8 C5 49"},
    {"--variant", "V", TAKES_WAY, offsetof(struct request, variant), "the information bytes of the line's multiframe: 5592, which is taken unless given, or 5376"},
    {"--html", NULL, TAKES_HTML, offsetof(struct request, html), "a page to look at"},
    {"--json", NULL, 0, offsetof(struct request, json), "one JSON object a line; of verbs that write bytes, on standard error, what they wrote"},
};
enum { OPTIONS = sizeof options / sizeof options[0] };

static int has(const struct verb *verb, const struct option *option) {
    return (verb->takes & option->takes) == option->takes;
}

void tell_options(const struct verb *only) {
    size_t i;
    for (i = 0; i < OPTIONS; i++) {
        char shown[16];
        if (only != NULL && !has(only, &options[i])) continue;
        snprintf(shown, sizeof shown, "%s %s", options[i].name, options[i].number == NULL ? "" : options[i].number);
        printf("  %-12s %s\n", shown, options[i].help);
    }
}

static const struct option *option_called(const char *word, size_t len) {
    size_t i;
    for (i = 0; i < OPTIONS; i++)
        if (strlen(options[i].name) == len && memcmp(options[i].name, word, len) == 0) return &options[i];
    return NULL;
}

/* --name, --name number or --name=number: how many words it took. */
static int option(const struct verb *verb, char **words, int left, struct request *asked) {
    size_t len = strcspn(words[0], "=");
    const struct option *found = option_called(words[0], len);
    const char *number = words[0][len] == '=' ? words[0] + len + 1 : left > 1 ? words[1] : "";
    size_t *to;
    if (found == NULL || (found->number == NULL && words[0][len] == '='))
        wrong_use(verb, "not known: %s%s", words[0], words[0][1] == '-' ? "" : "; a file of that name stands after --");
    if (!has(verb, found)) wrong_use(verb, "%s has no %s", verb->name, found->name);
    to = (size_t *)(void *)((char *)asked + found->at);
    asked->given |= found->takes;
    if (found->number != NULL && !digits(number, to)) wrong_use(verb, "a number is needed after %s", found->name);
    if (found->number == NULL) *to = 1;
    return found->number != NULL && words[0][len] != '=' ? 2 : 1;
}

static int is_option(const char *word) {
    return word[0] == '-' && (word[1] == '-' || (word[1] >= 'a' && word[1] <= 'z') || (word[1] >= 'A' && word[1] <= 'Z'));
}

static void plain(const struct verb *verb, char *word, struct request *asked) {
    size_t stream;
    if (verb->takes & TAKES_WAY && asked->way == NULL) {
        if (strcmp(word, "out") != 0 && strcmp(word, "back") != 0) wrong_use(verb, "neither out nor back: %s", word);
        asked->way = word;
    } else if (asked->count == 0 || verb->takes & TAKES_MANY) {
        /* the names are moved together, over words that are done with */
        asked->files[asked->count++] = word;
    } else if (verb->takes & (TAKES_PLACE | MAY_TAKE_PLACE) && !asked->placed) {
        if (!digits(word, &asked->place)) wrong_use(verb, "a place is a number: %s", word);
        asked->placed = 1;
    } else if (verb->takes & TAKES_PART && asked->part == NULL) {
        if (strcmp(word, "fic") != 0 && !digits(word, &stream)) wrong_use(verb, "neither a stream's number nor fic: %s", word);
        asked->part = word;
    } else {
        wrong_use(verb, "one word too many: %s", word);
    }
}

/* Whether the verb goes by a walk, as it is asked. */
static int walks(const struct request *asked, const struct verb *verb) {
    if (asked->way != NULL) return strcmp(asked->way, "out") == 0;
    return !asked->placed || !(verb->takes & MAY_TAKE_PLACE);
}

void understand(const struct verb *verb, int argc, char **argv, struct request *asked) {
    int i = 0;
    asked->files = argv;
    while (i < argc && strcmp(argv[i], "--") != 0) {
        if (is_option(argv[i])) i += option(verb, argv + i, argc - i, asked);
        else plain(verb, argv[i++], asked);
    }
    for (i++; i < argc; i++) plain(verb, argv[i], asked);
    if (verb->takes & TAKES_WAY && asked->count == 0) wrong_use(verb, "%s needs out or back, and a file", verb->name);
    if (verb->takes & TAKES_PLACE && !asked->placed) wrong_use(verb, "%s needs a file and a place", verb->name);
    if (verb->takes & TAKES_PART && asked->part == NULL) wrong_use(verb, "%s needs a file and a stream's number, or fic", verb->name);
    if (asked->count == 0) wrong_use(verb, "%s needs a file", verb->name);
    if (asked->given & TAKES_LIMIT && !walks(asked, verb)) wrong_use(verb, "--limit is a walk's, and none begins here");
    if (asked->sync > 1) wrong_use(verb, "--sync is 0 or 1");
    if (asked->variant != 5592 && asked->variant != 5376) wrong_use(verb, "--variant is 5592 or 5376");
    if (asked->html && asked->json) wrong_use(verb, "a page is not JSON: --html and --json");
    asked->file = asked->files[0];
}
