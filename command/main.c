/* spindlewren VERB ..: what the proved archive says of a recorded file, in words. All judging is behind include/spindlewren.h and include/spindlewren_lines.h. */
#define _POSIX_C_SOURCE 200809L
#include "command.h"

#include <signal.h>
#include <stdio.h>
#include <string.h>
#include <unistd.h>

#define VERB(name, run, takes, words, help) {name, run, takes, words, help},
static const struct verb verbs[] = {
#include "verbs.h"
};
#undef VERB
enum { VERBS = sizeof verbs / sizeof verbs[0], BUFFER = 1 << 16 };

static const struct verb *verb_called(const char *name) {
    size_t i;
    for (i = 0; i < VERBS; i++)
        if (strcmp(name, verbs[i].name) == 0) return &verbs[i];
    return NULL;
}

/* Of one verb, or of all. */
static void help(const struct verb *only) {
    size_t i;
    printf("usage: spindlewren VERB [OPTION ..] FILE ..\n");
    for (i = 0; i < VERBS; i++)
        if (only == NULL || only == &verbs[i]) printf("  spindlewren %s %s\n      %s\n", verbs[i].name, verbs[i].words, verbs[i].help);
    printf("FILE may be - for standard input%s.\n", only == NULL || (only->takes & TAKES_LIMIT && !(only->takes & TAKES_PLACE)) ? ": a walk goes by it as it comes, of any length" : "");
    if (only == NULL || only->takes & (TAKES_PLACE | MAY_TAKE_PLACE)) printf("PLACE is a byte's number in the file, from 0 on.\n");
    tell_options(only);
    printf("  --help, --version\n"
           "Exit status: 0 done, 1 could not (the reason is on standard error), 2 wrong use%s.\n", only == NULL || only->takes & TAKES_STRICT ? ", 3 lost or not passing (--strict)" : "");
}

/* Whether a word stands before any --. */
static int given(int argc, char **argv, const char *word) {
    int i;
    for (i = 1; i < argc && strcmp(argv[i], "--") != 0; i++)
        if (strcmp(argv[i], word) == 0) return 1;
    return 0;
}

int main(int argc, char **argv) {
    static char buffer[BUFFER];
    struct request asked = {.limit = 3, .variant = 5592};
    const struct verb *verb = argc < 2 ? NULL : verb_called(argv[1]);
    /* a closed pipe is met where it is written to, so that a progress line can be taken away first */
    signal(SIGPIPE, SIG_IGN);
    if (!isatty(STDOUT_FILENO)) setvbuf(stdout, buffer, _IOFBF, sizeof buffer);
    /* no one else writes: locked once, and not at each line */
    flockfile(stdout);
    if (given(argc, argv, "--help") || given(argc, argv, "-h")) {
        help(verb);
    } else if (given(argc, argv, "--version")) {
        puts("spindlewren " VERSION);
    } else if (argc < 2) {
        wrong_use(NULL, "no verb");
    } else if (verb == NULL) {
        wrong_use(NULL, argv[1][0] == '-' ? "the verb comes first, not %s" : "no such verb: %s", argv[1]);
    } else {
        understand(verb, argc - 2, argv + 2, &asked);
        verb->run(&asked);
    }
    finish(DONE);
    return DONE;
}
