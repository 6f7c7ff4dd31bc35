// Counts the calls by which a program and those that it starts touch what lies under a folder, and at one of them ends all
// of them, or has it fail for want of room. CUT_UNDER is the folder, CUT_COUNT a file that gets a byte for each call,
// CUT_AT the number of the call, from 1; with CUT_FAILS it fails, and else the process group is killed before it is made.
#define _GNU_SOURCE
#include <dlfcn.h>
#include <errno.h>
#include <fcntl.h>
#include <signal.h>
#include <stdarg.h>
#include <stdbool.h>
#include <stdio.h>
#include <stdlib.h>
#include <string.h>
#include <sys/file.h>
#include <sys/stat.h>
#include <sys/syscall.h>
#include <unistd.h>

static bool is_under(const char *path) {
    const char *folder = getenv("CUT_UNDER");
    return folder && path && strncmp(path, folder, strlen(folder)) == 0;
}

static bool is_open_under(int file) {
    char link[64], path[4096];
    snprintf(link, sizeof link, "/proc/self/fd/%d", file);
    ssize_t length = readlink(link, path, sizeof path - 1);
    if (length < 0) return false;
    path[length] = 0;
    return is_under(path);
}

// Whether this call is to fail. It doesn't come back from the one at which all ends.
static bool fails(void) {
    const char *count = getenv("CUT_COUNT"), *at = getenv("CUT_AT");
    if (!count || !at) return false;
    int file = syscall(SYS_openat, AT_FDCWD, count, O_WRONLY | O_CREAT | O_APPEND, 0600);
    syscall(SYS_write, file, ".", 1);
    struct stat found;
    fstat(file, &found);
    syscall(SYS_close, file);
    if (found.st_size != atol(at)) return false;
    if (!getenv("CUT_FAILS")) kill(0, SIGKILL);
    errno = ENOSPC;
    return true;
}

#define NEXT(name) ((__typeof__(&name))dlsym(RTLD_NEXT, #name))
#define CUT(touches) if ((touches) && fails()) return -1

#define OPENS(name)                                                                                                  \
    int name(const char *path, int flags, ...) {                                                                     \
        va_list more;                                                                                                \
        va_start(more, flags);                                                                                       \
        mode_t mode = flags & O_CREAT ? va_arg(more, mode_t) : 0;                                                    \
        va_end(more);                                                                                                \
        CUT(is_under(path));                                                                                         \
        return NEXT(name)(path, flags, mode);                                                                        \
    }
OPENS(open)
OPENS(open64)
#define OPENS_AT(name)                                                                                               \
    int name(int at, const char *path, int flags, ...) {                                                             \
        va_list more;                                                                                                \
        va_start(more, flags);                                                                                       \
        mode_t mode = flags & O_CREAT ? va_arg(more, mode_t) : 0;                                                    \
        va_end(more);                                                                                                \
        CUT(is_under(path));                                                                                         \
        return NEXT(name)(at, path, flags, mode);                                                                    \
    }
OPENS_AT(openat)
OPENS_AT(openat64)

ssize_t write(int file, const void *bytes, size_t count) { CUT(is_open_under(file)); return NEXT(write)(file, bytes, count); }
ssize_t pwrite64(int file, const void *bytes, size_t count, off64_t at) { CUT(is_open_under(file)); return NEXT(pwrite64)(file, bytes, count, at); }
int ftruncate64(int file, off64_t length) { CUT(is_open_under(file)); return NEXT(ftruncate64)(file, length); }
int fsync(int file) { CUT(is_open_under(file)); return NEXT(fsync)(file); }
int flock(int file, int how) { CUT(is_open_under(file)); return NEXT(flock)(file, how); }
int rename(const char *old, const char *new) { CUT(is_under(new)); return NEXT(rename)(old, new); }
int renameat2(int at, const char *old, int to, const char *new, unsigned how) { CUT(is_under(new)); return NEXT(renameat2)(at, old, to, new, how); }
