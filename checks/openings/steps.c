/* Notes the calls of a program on the file STEPS_FILE and on the folder STEPS_FOLDER, which are paths as the program
   has them. Each call is a line of the file STEPS_TOLD, with the number of the open file before it, or -1. Calls are
   counted from 0. Those whose numbers stand in STEPS_AT, with commas between them, fail with the error STEPS_ERROR. A
   read or a write moves at most STEPS_MOST bytes. Looks at a path aren't noted, nor is the closing of a file. */
#define _GNU_SOURCE
#include <dlfcn.h>
#include <errno.h>
#include <fcntl.h>
#include <stdarg.h>
#include <stdbool.h>
#include <stdio.h>
#include <stdlib.h>
#include <string.h>
#include <sys/file.h>
#include <sys/stat.h>
#include <sys/syscall.h>
#include <unistd.h>

#define NEXT(name) ((__typeof__(&name))dlsym(RTLD_NEXT, #name))
#define MOST_FILES 1024

enum what { OTHER, FILE_ITSELF, FOLDER };

static const char *const names[] = {"", "file", "folder"};
static enum what opened[MOST_FILES];
static long calls;

static long number(const char *name, long without) {
    const char *word = getenv(name);
    return word ? atol(word) : without;
}

static enum what what_is(const char *path) {
    const char *file = getenv("STEPS_FILE"), *folder = getenv("STEPS_FOLDER");
    if (file && strcmp(path, file) == 0) return FILE_ITSELF;
    return folder && strcmp(path, folder) == 0 ? FOLDER : OTHER;
}

static enum what what_has(int file) {
    return file >= 0 && file < MOST_FILES ? opened[file] : OTHER;
}

/* Whether the call of this number fails. */
static bool is_named(long call) {
    for (const char *at = getenv("STEPS_AT"); at && *at; at = strchr(at, ',') ? strchr(at, ',') + 1 : "")
        if (atol(at) == call) return true;
    return false;
}

/* Notes a call, and tells whether it is one that fails. */
static bool fails(int file, const char *text) {
    char line[256];
    int length = snprintf(line, sizeof line, "%d %s\n", file, text);
    int told = syscall(SYS_openat, AT_FDCWD, getenv("STEPS_TOLD"), O_WRONLY | O_CREAT | O_APPEND | O_CLOEXEC, 0644);
    if (told < 0 || syscall(SYS_write, told, line, length) != length) abort();
    syscall(SYS_close, told);
    errno = number("STEPS_ERROR", EIO);
    return is_named(calls++);
}

#define FAIL(file, ...)                                                                                               \
    if (what_has(file) != OTHER) {                                                                                    \
        char text[200];                                                                                               \
        snprintf(text, sizeof text, __VA_ARGS__);                                                                     \
        if (fails(file, text)) return -1;                                                                             \
    }

static const char *way(int flags) {
    if (flags & (O_TRUNC | O_APPEND | O_EXCL)) return "in another way";
    if (flags & O_CREAT) return (flags & O_ACCMODE) == O_RDWR ? "to make" : "to make, not to read and write";
    return (flags & O_ACCMODE) == O_RDWR ? "to write" : (flags & O_ACCMODE) == O_RDONLY ? "to read" : "to write alone";
}

static int noted(int file, enum what what) {
    if (file >= 0 && file < MOST_FILES) opened[file] = what;
    return file;
}

#define OPENS(name, parameters, arguments)                                                                            \
    int name(parameters const char *path, int flags, ...) {                                                           \
        va_list more;                                                                                                 \
        va_start(more, flags);                                                                                        \
        mode_t mode = flags & O_CREAT ? va_arg(more, mode_t) : 0;                                                     \
        va_end(more);                                                                                                 \
        enum what what = what_is(path);                                                                               \
        char text[64];                                                                                                \
        snprintf(text, sizeof text, "open %s %s", names[what], way(flags));                                           \
        if (what != OTHER && fails(-1, text)) return -1;                                                              \
        return noted(NEXT(name)(arguments path, flags, mode), what);                                                  \
    }
#define NONE
#define AT int at,
#define GIVEN at,
OPENS(open, NONE, NONE)
OPENS(open64, NONE, NONE)
OPENS(openat, AT, GIVEN)
OPENS(openat64, AT, GIVEN)

int close(int file) { noted(file, OTHER); return NEXT(close)(file); }

int fcntl(int file, int command, ...) {
    va_list more;
    va_start(more, command);
    long word = va_arg(more, long);
    va_end(more);
    if (command != F_DUPFD && command != F_DUPFD_CLOEXEC) return NEXT(fcntl)(file, command, word);
    FAIL(file, "move %s", names[what_has(file)]);
    return noted(NEXT(fcntl)(file, command, word), what_has(file));
}

int flock(int file, int how) {
    const char *kind = (how & ~LOCK_NB) == LOCK_EX ? "alone" : (how & ~LOCK_NB) == LOCK_SH ? "shared" : "otherwise";
    FAIL(file, "lock %s %s%s", names[what_has(file)], kind, how & LOCK_NB ? "" : ", and wait");
    return NEXT(flock)(file, how);
}

int statx(int at, const char *path, int flags, unsigned mask, struct statx *found) {
    if (path[0] == 0) FAIL(at, "look at %s", names[what_has(at)]);
    return NEXT(statx)(at, path, flags, mask, found);
}

off_t lseek(int file, off_t offset, int from) {
    if (from == SEEK_END && offset == 0) FAIL(file, "end of %s", names[what_has(file)]);
    return NEXT(lseek)(file, offset, from);
}

static size_t part(int file, size_t count) {
    size_t most = number("STEPS_MOST", 0);
    return what_has(file) != OTHER && most && count > most ? most : count;
}

#define MOVES(name, bytes_type, offset, verb)                                                                         \
    ssize_t name(int file, bytes_type bytes, size_t count, offset at) {                                               \
        FAIL(file, verb " %zu at %lld", count, (long long)at);                                                        \
        return NEXT(name)(file, bytes, part(file, count), at);                                                        \
    }
MOVES(pread, void *, off_t, "read")
MOVES(pread64, void *, off64_t, "read")
MOVES(pwrite, const void *, off_t, "write")
MOVES(pwrite64, const void *, off64_t, "write")

/* These have no place of their own, so no device makes them. */
ssize_t read(int file, void *bytes, size_t count) {
    FAIL(file, "read %zu", count);
    return NEXT(read)(file, bytes, count);
}
ssize_t write(int file, const void *bytes, size_t count) {
    FAIL(file, "write %zu", count);
    return NEXT(write)(file, bytes, count);
}

int ftruncate(int file, off_t length) {
    FAIL(file, "length %lld", (long long)length);
    return NEXT(ftruncate)(file, length);
}
int ftruncate64(int file, off64_t length) {
    FAIL(file, "length %lld", (long long)length);
    return NEXT(ftruncate64)(file, length);
}
int fsync(int file) { FAIL(file, "sync %s", names[what_has(file)]); return NEXT(fsync)(file); }
int fdatasync(int file) { FAIL(file, "sync data"); return NEXT(fdatasync)(file); }

int unlink(const char *path) {
    enum what what = what_is(path);
    if (what != OTHER && fails(-1, "remove")) return -1;
    return NEXT(unlink)(path);
}
