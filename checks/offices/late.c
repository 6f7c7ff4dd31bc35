/* Lets each thread of the program that it is loaded into begin six seconds late, as on a machine that is busy. */
#define _GNU_SOURCE
#include <dlfcn.h>
#include <pthread.h>
#include <stdlib.h>
#include <time.h>

enum { SECONDS = 6 };

struct thread {
    void *(*start)(void *);
    void *with;
};

static void *start_late(void *made) {
    struct thread thread = *(struct thread *)made;
    struct timespec left = {SECONDS, 0};
    free(made);
    while (nanosleep(&left, &left)) {
    }
    return thread.start(thread.with);
}

typedef int pthread_create_type(pthread_t *, const pthread_attr_t *, void *(*)(void *), void *);

int pthread_create(pthread_t *to, const pthread_attr_t *how, void *(*start)(void *), void *with) {
    pthread_create_type *create = (pthread_create_type *)dlsym(RTLD_NEXT, "pthread_create");
    struct thread *made = malloc(sizeof *made);
    if (made == NULL) abort();
    *made = (struct thread){start, with};
    return create(to, how, start_late, made);
}
