/* Fails calls of the program that it is loaded into. FAIL_KIND says which: write, sync, grow, rename, remove, read, print
   or memory; FAIL_AT is the number of the first that fails, counted from 1, FAIL_COUNT how many fail from it on, and
   FAIL_ERROR the number of the error. Counted are the calls on what lies under the folder FAIL_UNDER; of those that print,
   each on standard output; and of requests for memory those behind the first opening under that folder. With the kind
   `change` no call fails: before that reading of a file under the folder, its byte at CHANGE_AT becomes another one, or
   the file ends there if CHANGE_CUTS is set. What is at FAIL_PUTS gets the name of the file of the call that fails. A line
   on file descriptor 9 names the file of a call that fails, or `memory`, or `standard output`. */
#define _GNU_SOURCE
#include <dlfcn.h>
#include <errno.h>
#include <fcntl.h>
#include <stdarg.h>
#include <stdatomic.h>
#include <stdbool.h>
#include <stdio.h>
#include <stdlib.h>
#include <string.h>
#include <sys/stat.h>
#include <sys/syscall.h>
#include <unistd.h>

static atomic_long calls;
static atomic_bool is_begun;

static long number(const char *name, long without) {
    const char *word = getenv(name);
    return word ? atol(word) : without;
}

static bool is_under(const char *path) {
    const char *folder = getenv("FAIL_UNDER");
    return folder && path && strncmp(path, folder, strlen(folder)) == 0;
}

/* Whether this call is one that fails, of that kind. */
static bool fails(const char *kind, const char *path) {
    const char *wanted = getenv("FAIL_KIND");
    if (!wanted || strcmp(wanted, kind) != 0) return false;
    long at = number("FAIL_AT", 0), made = atomic_fetch_add(&calls, 1) + 1;
    if (made < at || made >= at + number("FAIL_COUNT", 1)) return false;
    if (syscall(SYS_write, 9, path, strlen(path)) < 0 || syscall(SYS_write, 9, "\n", 1) < 0) abort();
    const char *other = getenv("FAIL_PUTS");
    if (other && (syscall(SYS_unlink, path) != 0 || syscall(SYS_rename, other, path) != 0)) abort();
    errno = number("FAIL_ERROR", EIO);
    return true;
}

/* The same of a call on an open file. */
static bool fails_on(const char *kind, int file) {
    char link[64], path[4096];
    snprintf(link, sizeof link, "/proc/self/fd/%d", file);
    ssize_t length = readlink(link, path, sizeof path - 1);
    if (length < 0) return false;
    path[length] = 0;
    return is_under(path) && fails(kind, path);
}

/* Changes the file, where this is the reading before which that is wanted. */
static void change(int file) {
    if (!fails_on("change", file)) return;
    char link[64], byte;
    snprintf(link, sizeof link, "/proc/self/fd/%d", file);
    int again = syscall(SYS_openat, AT_FDCWD, link, O_RDWR);
    off_t at = number("CHANGE_AT", 0);
    if (getenv("CHANGE_CUTS")) {
        if (syscall(SYS_ftruncate, again, at) != 0) abort();
    } else {
        if (syscall(SYS_pread64, again, &byte, 1, at) != 1) abort();
        byte ^= 1;
        if (syscall(SYS_pwrite64, again, &byte, 1, at) != 1) abort();
    }
    syscall(SYS_close, again);
}

#define NEXT(name) ((__typeof__(&name))dlsym(RTLD_NEXT, #name))
#define FAIL(kind, file) if (fails_on(kind, file)) return -1

#define OPENS(name)                                                                                                  \
    int name(const char *path, int flags, ...) {                                                                     \
        va_list more;                                                                                                \
        va_start(more, flags);                                                                                       \
        mode_t mode = flags & O_CREAT ? va_arg(more, mode_t) : 0;                                                    \
        va_end(more);                                                                                                \
        if (is_under(path)) is_begun = true;                                                                         \
        return NEXT(name)(path, flags, mode);                                                                        \
    }
OPENS(open)
OPENS(open64)
#define OPENS_AT(name)                                                                                               \
    int name(int at, const char *path, int flags, ...) {                                                             \
        va_list more;                                                                                                \
        va_start(more, flags);                                                                                       \
        mode_t mode = flags & O_CREAT ? va_arg(more, mode_t) : 0;                                                    \
        va_end(more);                                                                                                \
        if (is_under(path)) is_begun = true;                                                                         \
        return NEXT(name)(at, path, flags, mode);                                                                    \
    }
OPENS_AT(openat)
OPENS_AT(openat64)

ssize_t write(int file, const void *bytes, size_t count) {
    if (file == 1 && fails("print", "standard output")) return -1;
    FAIL("write", file);
    return NEXT(write)(file, bytes, count);
}

#define WRITES_AT(name, offset)                                                                                      \
    ssize_t name(int file, const void *bytes, size_t count, offset at) {                                             \
        FAIL("write", file);                                                                          \
        return NEXT(name)(file, bytes, count, at);                                                                   \
    }
WRITES_AT(pwrite, off_t)
WRITES_AT(pwrite64, off64_t)

ssize_t read(int file, void *bytes, size_t count) {
    FAIL("read", file);
    return NEXT(read)(file, bytes, count);
}

#define READS_AT(name, offset)                                                                                       \
    ssize_t name(int file, void *bytes, size_t count, offset at) {                                                   \
        change(file);                                                                                                \
        FAIL("read", file);                                                                           \
        return NEXT(name)(file, bytes, count, at);                                                                   \
    }
READS_AT(pread, off_t)
READS_AT(pread64, off64_t)

int fsync(int file) { FAIL("sync", file); return NEXT(fsync)(file); }
int fdatasync(int file) { FAIL("sync", file); return NEXT(fdatasync)(file); }
int ftruncate(int file, off_t length) { FAIL("grow", file); return NEXT(ftruncate)(file, length); }
int ftruncate64(int file, off64_t length) { FAIL("grow", file); return NEXT(ftruncate64)(file, length); }
int rename(const char *old, const char *new) { if (is_under(new) && fails("rename", new)) return -1; return NEXT(rename)(old, new); }
int unlink(const char *path) { if (is_under(path) && fails("remove", path)) return -1; return NEXT(unlink)(path); }

void *__libc_malloc(size_t);
void *__libc_realloc(void *, size_t);
void *malloc(size_t size) { return is_begun && fails("memory", "memory") ? NULL : __libc_malloc(size); }
void *realloc(void *block, size_t size) { return is_begun && fails("memory", "memory") ? NULL : __libc_realloc(block, size); }
