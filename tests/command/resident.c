/* resident COMMAND WORD ..: runs it, and tells on standard error how many kibibytes of it were ever resident. A small program, since what runs it counts too. */
#define _DEFAULT_SOURCE
#include <stdio.h>
#include <sys/resource.h>
#include <sys/types.h>
#include <sys/wait.h>
#include <unistd.h>

int main(int argc, char **argv) {
    struct rusage used;
    int status;
    pid_t child = argc < 2 ? -1 : fork();
    if (child == 0) {
        execv(argv[1], argv + 1);
        _exit(127);
    }
    if (child < 0 || wait4(child, &status, 0, &used) != child) return 1;
    fprintf(stderr, "%ld\n", used.ru_maxrss);
    return status != 0;
}
