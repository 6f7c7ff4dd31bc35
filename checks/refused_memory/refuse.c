/* Refuses one request of the program that it is loaded into: of those for memory the one whose number stands in
   REFUSED_REQUEST, and of those for a thread the one in REFUSED_THREAD, counted from 1. Where that request is made, a line
   on file descriptor 9 says so. What the C library asks for while it makes a thread isn't counted. If what is read from
   standard input begins with a line `refuse K`, the program doesn't see that line: up to the next reading the request for
   memory number K is refused, counted from there; of a line `refuse thread K` the one for a thread. */
#define _GNU_SOURCE
#include <dlfcn.h>
#include <errno.h>
#include <pthread.h>
#include <stdatomic.h>
#include <stdlib.h>
#include <string.h>
#include <unistd.h>

static atomic_long requests, threads, left, threads_left;
static _Thread_local int makes_a_thread;

static int is_refused(atomic_long *count, const char *name, atomic_long *until) {
    const char *number = getenv(name);
    int is_last = *until > 0 && atomic_fetch_sub(until, 1) == 1;
    if (atomic_fetch_add(count, 1) + 1 != (number ? atol(number) : 0) && !is_last) return 0;
    if (write(9, "refused\n", 8) < 0 && is_last) abort();
    return 1;
}

static int is_memory_refused(void) {
    if (makes_a_thread || !is_refused(&requests, "REFUSED_REQUEST", &left)) return 0;
    errno = ENOMEM;
    return 1;
}

ssize_t read(int file, void *bytes, size_t count) {
    ssize_t (*next)(int, void *, size_t) = (ssize_t (*)(int, void *, size_t))dlsym(RTLD_NEXT, "read");
    ssize_t given = next(file, bytes, count);
    if (file != 0) return given;
    left = threads_left = 0;
    if (given < 8 || memcmp(bytes, "refuse ", 7) != 0) return given;
    char *end = memchr(bytes, '\n', given), *begin = bytes;
    if (!end || end + 1 == begin + given) abort();
    if (strncmp(begin + 7, "thread ", 7) == 0) threads_left = atol(begin + 14);
    else left = atol(begin + 7);
    memmove(begin, end + 1, begin + given - (end + 1));
    return begin + given - (end + 1);
}

void *__libc_malloc(size_t);
void *__libc_realloc(void *, size_t);

void *malloc(size_t size) { return is_memory_refused() ? NULL : __libc_malloc(size); }

void *realloc(void *block, size_t size) { return is_memory_refused() ? NULL : __libc_realloc(block, size); }

typedef int pthread_create_type(pthread_t *, const pthread_attr_t *, void *(*)(void *), void *);

int pthread_create(pthread_t *to, const pthread_attr_t *how, void *(*start)(void *), void *with) {
    pthread_create_type *create = (pthread_create_type *)dlsym(RTLD_NEXT, "pthread_create");
    if (is_refused(&threads, "REFUSED_THREAD", &threads_left)) return EAGAIN;
    makes_a_thread = 1;
    int answer = create(to, how, start, with);
    makes_a_thread = 0;
    return answer;
}
