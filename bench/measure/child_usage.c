// Runs a command and writes to a file what it took: seconds by the clock, of processor, peak KB, waits, status.
//
//     child_usage FILE COMMAND [WORD ..]
//
// A process begins with the peak of the one that started it, so a command that Python starts seems to need Python's 14 MB.
// This program is small, and the command that it starts is seen by itself.
#include <stdio.h>
#include <stdlib.h>
#include <sys/resource.h>
#include <sys/wait.h>
#include <time.h>
#include <unistd.h>

static double seconds_of(struct timeval t) { return t.tv_sec + t.tv_usec / 1e6; }

static double now(void) {
    struct timespec t;
    clock_gettime(CLOCK_MONOTONIC, &t);
    return t.tv_sec + t.tv_nsec / 1e9;
}

int main(int count, char **words) {
    if (count < 3) return 2;
    double began = now();
    pid_t child = fork();
    if (child < 0) return 2;
    if (child == 0) {
        execvp(words[2], words + 2);
        _exit(127);
    }
    int status;
    struct rusage usage;
    if (wait4(child, &status, 0, &usage) != child) return 2;
    FILE *out = fopen(words[1], "w");
    if (!out) return 2;
    fprintf(out, "%.6f %.6f %ld %ld %d\n", now() - began, seconds_of(usage.ru_utime) + seconds_of(usage.ru_stime), usage.ru_maxrss,
            usage.ru_nvcsw, WIFEXITED(status) ? WEXITSTATUS(status) : 128 + WTERMSIG(status));
    return fclose(out) ? 2 : 0;
}
