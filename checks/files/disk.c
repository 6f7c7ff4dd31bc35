/* Lets the program that it is loaded into take the file DISK for a disk with the number DISK_NUMBER, as 7:200, and find the
   system's tables, /proc/self/mountinfo, /proc/swaps and those below /sys/dev/block, under the folder DISK_TABLES. */
#define _GNU_SOURCE
#include <dlfcn.h>
#include <fcntl.h>
#include <stdarg.h>
#include <stdbool.h>
#include <stdio.h>
#include <stdlib.h>
#include <string.h>
#include <sys/stat.h>
#include <unistd.h>

#define NEXT(name) ((__typeof__(&name))dlsym(RTLD_NEXT, #name))

/* Where the program is to look for what it looks for at a path. */
static const char *place_of(const char *path, char *place, size_t size) {
    const char *tables = getenv("DISK_TABLES");
    bool is_table = strcmp(path, "/proc/self/mountinfo") == 0 || strcmp(path, "/proc/swaps") == 0
        || strncmp(path, "/sys/dev/block/", 15) == 0;
    if (!tables || !is_table) return path;
    snprintf(place, size, "%s%s", tables, path);
    return place;
}

static bool is_disk(int at, const char *path) {
    char link[64], found[4096];
    if (path[0] == 0) {
        snprintf(link, sizeof link, "/proc/self/fd/%d", at);
        ssize_t length = readlink(link, found, sizeof found - 1);
        if (length < 0) return false;
        found[length] = 0;
        path = found;
    }
    const char *disk = getenv("DISK");
    return disk && strcmp(path, disk) == 0;
}

int statx(int at, const char *path, int flags, unsigned mask, struct statx *found) {
    char place[4096];
    int answer = NEXT(statx)(at, place_of(path, place, sizeof place), flags, mask, found);
    if (answer == 0 && is_disk(at, path)) {
        const char *number = getenv("DISK_NUMBER");
        found->stx_mode = (found->stx_mode & 07777) | S_IFBLK;
        found->stx_size = 0;
        found->stx_rdev_major = atoi(number);
        found->stx_rdev_minor = atoi(strchr(number, ':') + 1);
    }
    return answer;
}

#define OPENS(name, parameters, arguments)                                                                           \
    int name(parameters const char *path, int flags, ...) {                                                          \
        char place[4096];                                                                                            \
        va_list more;                                                                                                \
        va_start(more, flags);                                                                                       \
        mode_t mode = flags & O_CREAT ? va_arg(more, mode_t) : 0;                                                    \
        va_end(more);                                                                                                \
        return NEXT(name)(arguments place_of(path, place, sizeof place), flags, mode);                               \
    }
#define NONE
#define AT int at,
#define GIVEN at,
OPENS(open, NONE, NONE)
OPENS(open64, NONE, NONE)
OPENS(openat, AT, GIVEN)
OPENS(openat64, AT, GIVEN)
