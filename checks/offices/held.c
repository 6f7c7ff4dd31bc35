/* Slows the program that it is loaded into: each sync takes SYNCS_TAKE milliseconds, and before the file HELD is given
   another name a byte has to come through the pipe HELD_BY. */
#define _GNU_SOURCE
#include <dlfcn.h>
#include <fcntl.h>
#include <stdio.h>
#include <stdlib.h>
#include <string.h>
#include <unistd.h>

#define NEXT(name) ((__typeof__(&name))dlsym(RTLD_NEXT, #name))

int rename(const char *old, const char *new) {
    char byte;
    const char *held = getenv("HELD");
    if (held && strcmp(old, held) == 0) {
        int pipe = open(getenv("HELD_BY"), O_RDONLY);
        if (pipe < 0 || read(pipe, &byte, 1) != 1) abort();
        close(pipe);
    }
    return NEXT(rename)(old, new);
}

static void take_long(void) {
    const char *milliseconds = getenv("SYNCS_TAKE");
    if (milliseconds) usleep(1000 * atoi(milliseconds));
}

int fsync(int file) { take_long(); return NEXT(fsync)(file); }
int fdatasync(int file) { take_long(); return NEXT(fdatasync)(file); }
