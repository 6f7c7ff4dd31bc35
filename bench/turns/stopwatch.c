/* Runs a program, and tells on standard error how many nanoseconds it took and how many kilobytes of memory it had at
   its peak. It is a small program of its own, since a child's peak counts that of the program that it comes from. */

#define _GNU_SOURCE
#include <spawn.h>
#include <stdio.h>
#include <sys/resource.h>
#include <sys/wait.h>
#include <time.h>
#include <unistd.h>

static long long nanoseconds(void) {
    struct timespec now;
    clock_gettime(CLOCK_MONOTONIC, &now);
    return now.tv_sec * 1000000000LL + now.tv_nsec;
}

int main(int count, char **words) {
    if (count < 2) {
        fprintf(stderr, "usage: stopwatch PROGRAM WORDS..\n");
        return 2;
    }
    pid_t child;
    int status;
    struct rusage usage;
    long long start = nanoseconds();
    if (posix_spawn(&child, words[1], NULL, NULL, words + 1, environ) != 0) {
        fprintf(stderr, "%s can't be started\n", words[1]);
        return 1;
    }
    if (wait4(child, &status, 0, &usage) != child) {
        perror("wait4");
        return 1;
    }
    fprintf(stderr, "%lld %ld\n", nanoseconds() - start, usage.ru_maxrss);
    return WIFEXITED(status) ? WEXITSTATUS(status) : 1;
}
