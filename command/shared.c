/* Numbers, colours, refusals and how the command ends, for every verb. */
#define _POSIX_C_SOURCE 200809L
#include "command.h"

#include <errno.h>
#include <poll.h>
#include <signal.h>
#include <stdarg.h>
#include <stdio.h>
#include <stdlib.h>
#include <string.h>
#include <unistd.h>

static void say(const char *file, const char *reason) {
    fprintf(stderr, "spindlewren: %s: %s\n", called(file), reason);
}

/* Why standard output could not be written; 0 where that is not known. */
static int why_lost;

int all_written(void) {
    if (ferror(stdout)) return 0;
    if (fflush(stdout) == 0) return 1;
    why_lost = errno;
    return 0;
}

/* Whether standard output is a pipe that no one reads any more. */
static int closed_pipe(void) {
    struct pollfd output = {STDOUT_FILENO, 0, 0};
    return poll(&output, 1, 0) == 1 && (output.revents & POLLERR) != 0;
}

void fail(const char *file, const char *reason) {
    int lost;
    progress_end();
    lost = !all_written();
    say(file, reason);
    /* that what was told before is lost is told too; that a pipe is closed is no news */
    if (lost && !closed_pipe()) say("standard output", why_lost == 0 ? "not all could be written" : strerror(why_lost));
    exit(COULD_NOT);
}

void refuse(const char *file, uint8_t refusal) {
    char reason[96];
    snprintf(reason, sizeof reason, "%s (refusal %u)", spindlewren_label(refusal), refusal);
    fail(file, reason);
}

void refuse_at(const char *file, size_t place, uint8_t refusal) {
    char reason[128];
    snprintf(reason, sizeof reason, "at %llu: %s (refusal %u)", (unsigned long long)place, spindlewren_label(refusal), refusal);
    fail(file, reason);
}

void wrong_use(const struct verb *verb, const char *what, ...) {
    va_list words;
    fprintf(stderr, "spindlewren: ");
    va_start(words, what);
    vfprintf(stderr, what, words);
    va_end(words);
    if (verb == NULL) fprintf(stderr, "\nspindlewren --help tells the verbs and their words\n");
    else fprintf(stderr, "\nspindlewren %s --help tells its words\n", verb->name);
    exit(WRONG_USE);
}

/* What was told could not be written. Whoever closed the pipe wants no more: the command ends as by the signal, without a word. */
static void unwritten(void) {
    int reason = errno;
    progress_end();
    if (reason == EPIPE) {
        signal(SIGPIPE, SIG_DFL);
        raise(SIGPIPE);
    }
    say("standard output", strerror(reason));
    exit(COULD_NOT);
}

void written(void) {
    if (!all_written()) unwritten();
}

void heed(uint64_t done) {
    if (ferror(stdout)) unwritten();
    if (progress_due()) progress_show(done);
}

void finish(int status) {
    written();
    /* some systems tell only here that bytes are lost; where there was no output from the beginning, none was to be written */
    if (fclose(stdout) != 0 && errno != EBADF) unwritten();
    progress_end();
    exit(status);
}

int digits(const char *word, size_t *number) {
    size_t n = 0;
    if (*word == '\0') return 0;
    for (; *word != '\0'; word++) {
        size_t digit;
        if (*word < '0' || *word > '9') return 0;
        digit = (size_t)(*word - '0');
        n = n > (SIZE_MAX - digit) / 10 ? SIZE_MAX : n * 10 + digit;
    }
    *number = n;
    return 1;
}

char *number_before(char *end, uint64_t n) {
    /* four digits to a long division, which is what takes time */
    static const char twos[] = "00010203040506070809101112131415161718192021222324252627282930313233343536373839404142434445464748495051525354555657585960616263646566676869"
                               "707172737475767778798081828384858687888990919293949596979899";
    unsigned rest;
    for (; n >= 10000; n /= 10000) {
        rest = (unsigned)(n % 10000);
        memcpy(end - 4, twos + 2 * (rest / 100), 2);
        memcpy(end - 2, twos + 2 * (rest % 100), 2);
        end -= 4;
    }
    for (rest = (unsigned)n; rest >= 100; rest /= 100) memcpy(end -= 2, twos + 2 * (rest % 100), 2);
    if (rest >= 10) return memcpy(end - 2, twos + 2 * rest, 2);
    *--end = (char)('0' + rest);
    return end;
}

int coloured(void) {
    const char *none = getenv("NO_COLOR"), *terminal = getenv("TERM");
    return isatty(STDOUT_FILENO) && (none == NULL || *none == '\0') && terminal != NULL && strcmp(terminal, "dumb") != 0;
}
