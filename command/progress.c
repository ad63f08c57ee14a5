/* The progress line. A second's alarm says when it is due, so that work that is not watched pays nothing. */
#define _POSIX_C_SOURCE 200809L
#include "command.h"

#include <signal.h>
#include <stdio.h>
#include <string.h>
#include <time.h>
#include <unistd.h>

#define ERASE "\r                                                            \r"

static volatile sig_atomic_t due, shown;
static uint64_t whole;
static struct timespec began;

static void ring(int signal_number) {
    (void)signal_number;
    due = 1;
}

void progress_wipe(void) {
    if (shown && write(STDERR_FILENO, ERASE, sizeof ERASE - 1) < 0) shown = 0;
}

/* The user's own end of the command leaves no line behind either. */
static void leave(int signal_number) {
    progress_wipe();
    signal(signal_number, SIG_DFL);
    raise(signal_number);
}

static void catch(int signal_number, void (*by)(int)) {
    struct sigaction action;
    if (sigaction(signal_number, NULL, &action) != 0 || action.sa_handler == SIG_IGN) return;
    memset(&action, 0, sizeof action);
    action.sa_handler = by;
    action.sa_flags = SA_RESTART;
    sigaction(signal_number, &action, NULL);
}

void progress_begin(uint64_t bytes) {
    if (!isatty(STDERR_FILENO) || isatty(STDOUT_FILENO)) return;
    whole = bytes;
    clock_gettime(CLOCK_MONOTONIC, &began);
    catch(SIGALRM, ring);
    catch(SIGINT, leave);
    catch(SIGTERM, leave);
    alarm(1);
}

int progress_due(void) {
    return due;
}

void progress_show(uint64_t done) {
    struct timespec now;
    double seconds, speed;
    due = 0;
    alarm(1);
    clock_gettime(CLOCK_MONOTONIC, &now);
    seconds = (double)(now.tv_sec - began.tv_sec) + (double)(now.tv_nsec - began.tv_nsec) / 1e9;
    speed = (double)done / seconds;
    shown = 1;
    if (whole == 0) {
        fprintf(stderr, ERASE "%.1f MB, %.1f MB/s", (double)done / 1e6, speed / 1e6);
    } else {
        double left = speed > 0 ? (double)(whole - done) / speed : 0;
        fprintf(stderr, ERASE "%.0f %%, %.1f MB/s, %.0f s left", 100 * (double)done / (double)whole, speed / 1e6, left);
    }
}

void progress_end(void) {
    alarm(0);
    due = 0;
    if (shown) fputs(ERASE, stderr);
    shown = 0;
}
