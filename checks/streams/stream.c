/* Interrupts, shortens and fails the calls that the program that it is loaded into makes on one file descriptor: its
   readings if that is 0, and its writings if that is another one. STREAM is the descriptor. STREAM_PAUSES calls are
   interrupted before each one that isn't. The call with the number STREAM_FAILS alone fails, with the error
   STREAM_ERROR: calls are counted from 1, and those count that are interrupted. A call moves STREAM_MOST bytes at most,
   and without that as many as it is asked to. The file STREAM_RECORD gets numbers of 8 bytes in the machine's order:
   how many calls were made, how many of them went through, and how many bytes each of these moved, as far as the file
   has room. With SLEPT no call of `nanosleep` sleeps: the file SLEPT gets the sum of the nanoseconds instead. */
#define _GNU_SOURCE
#include <errno.h>
#include <fcntl.h>
#include <stdint.h>
#include <stdlib.h>
#include <sys/mman.h>
#include <sys/stat.h>
#include <sys/syscall.h>
#include <time.h>
#include <unistd.h>

static int stream = -1;
static long pauses, left, fails_at, error, most;
static uint64_t nothing[2], *record = nothing, *slept;
static uint64_t places = 2;

static long number(const char *name, long without) {
    const char *word = getenv(name);
    return word ? atol(word) : without;
}

/* The numbers of the file that this variable names, and in `count` how many they are. */
static uint64_t *numbers(const char *name, uint64_t *count) {
    const char *path = getenv(name);
    if (!path) return NULL;
    struct stat found;
    int file = open(path, O_RDWR);
    if (file < 0 || fstat(file, &found) != 0) abort();
    void *bytes = mmap(NULL, found.st_size, PROT_READ | PROT_WRITE, MAP_SHARED, file, 0);
    if (bytes == MAP_FAILED) abort();
    close(file);
    *count = found.st_size / 8;
    return bytes;
}

/* The variables are read once, since a program may be interrupted millions of times. */
__attribute__((constructor)) static void begin(void) {
    uint64_t sums;
    stream = number("STREAM", -1);
    left = pauses = number("STREAM_PAUSES", 0);
    fails_at = number("STREAM_FAILS", 0);
    error = number("STREAM_ERROR", EIO);
    most = number("STREAM_MOST", -1);
    uint64_t *found = numbers("STREAM_RECORD", &places);
    if (found) record = found;
    slept = numbers("SLEPT", &sums);
}

/* Whether this call is one that doesn't go through. */
static int is_held_up(void) {
    record[0]++;
    if (record[0] == (uint64_t)fails_at) {
        errno = error;
        return 1;
    }
    if (left == 0) {
        left = pauses;
        return 0;
    }
    left--;
    errno = EINTR;
    return 1;
}

static size_t shortened(size_t count) {
    return most >= 0 && (size_t)most < count ? (size_t)most : count;
}

static ssize_t moved(ssize_t count) {
    uint64_t place = 2 + record[1]++;
    if (place < places) record[place] = count;
    return count;
}

ssize_t read(int file, void *bytes, size_t count) {
    if (file != stream || file != 0) return syscall(SYS_read, file, bytes, count);
    if (is_held_up()) return -1;
    return moved(syscall(SYS_read, file, bytes, shortened(count)));
}

ssize_t write(int file, const void *bytes, size_t count) {
    if (file != stream || file == 0) return syscall(SYS_write, file, bytes, count);
    if (is_held_up()) return -1;
    /* what takes no byte isn't asked of the system */
    return moved(shortened(count) == 0 ? 0 : syscall(SYS_write, file, bytes, shortened(count)));
}

int nanosleep(const struct timespec *time, struct timespec *rest) {
    if (!slept) return syscall(SYS_nanosleep, time, rest);
    *slept += 1000000000 * (uint64_t)time->tv_sec + time->tv_nsec;
    return 0;
}
