/* The clients of an office's counters, in one process: each keeps so many postings under way until its share is answered.
   Prints how many were answered, in how many batches, the nanoseconds from the first request to the last answer, and of the
   nanoseconds from a posting to its answer the median, the 99th percentile and the most. Every answer has to be `posted N R` with R the
   next reference. The first batch has to be that of number 0.
   Words: how many postings in all, how many a client has under way, and the folder of each counter. */

#include <errno.h>
#include <fcntl.h>
#include <poll.h>
#include <stdio.h>
#include <stdlib.h>
#include <string.h>
#include <time.h>
#include <unistd.h>

#define MOST 64

typedef struct {
    int input, output;
    long wanted, said, answered;
    /* what the pipe didn't take yet, and a line that was read in part */
    char rest[1 << 16], line[64];
    size_t rest_length, line_length;
    long long *started, *taken;
} Client;

static Client clients[MOST];
static unsigned long long batches;

static void fail(const char *words) {
    perror(words);
    exit(1);
}

static long long now(void) {
    struct timespec time;
    clock_gettime(CLOCK_MONOTONIC, &time);
    return time.tv_sec * 1000000000LL + time.tv_nsec;
}

static int end_of(const char *folder, const char *name, int flags) {
    char path[4096];
    snprintf(path, sizeof path, "%s/%s", folder, name);
    int end = open(path, flags | O_NONBLOCK);
    if (end < 0)
        fail(path);
    return end;
}

static void say(Client *client, long under_way) {
    while (client->said < client->wanted && client->said - client->answered < under_way
           && client->rest_length < sizeof client->rest - 64) {
        long reference = client->said++;
        client->rest_length += sprintf(client->rest + client->rest_length, "deposit %ld %ld %ld\n", 1 + reference % 1024,
                                       1 + reference % 97, reference);
        client->started[reference] = now();
    }
    if (client->rest_length == 0)
        return;
    ssize_t count = write(client->input, client->rest, client->rest_length);
    if (count < 0) {
        if (errno == EAGAIN)
            return;
        fail("write");
    }
    client->rest_length -= count;
    memmove(client->rest, client->rest + count, client->rest_length);
}

static void take(Client *client, long long at) {
    unsigned long long number;
    long reference;
    client->line[client->line_length] = 0;
    if (sscanf(client->line, "posted %llu %ld", &number, &reference) != 2 || reference != client->answered) {
        fprintf(stderr, "the answer to %ld is: %s\n", client->answered, client->line);
        exit(1);
    }
    if (batches <= number)
        batches = number + 1;
    client->taken[reference] = at - client->started[reference];
    client->answered++;
    client->line_length = 0;
}

static void hear(Client *client) {
    char piece[1 << 16];
    ssize_t count = read(client->output, piece, sizeof piece);
    if (count < 0 && errno == EAGAIN)
        return;
    if (count <= 0)
        fail("read");
    long long at = now();
    for (ssize_t place = 0; place < count; place++) {
        if (piece[place] == '\n')
            take(client, at);
        else if (client->line_length < sizeof client->line - 1)
            client->line[client->line_length++] = piece[place];
    }
}

static int compare(const void *one, const void *other) {
    long long a = *(const long long *)one, b = *(const long long *)other;
    return (a > b) - (a < b);
}

int main(int count, char **words) {
    if (count < 4 || count - 3 > MOST) {
        fprintf(stderr, "usage: clients POSTINGS UNDER_WAY FOLDER ..\n");
        return 2;
    }
    int many = count - 3;
    long postings = strtol(words[1], NULL, 10) / many * many, under_way = strtol(words[2], NULL, 10), answered = 0;
    long long *started = calloc(postings, sizeof *started), *taken = calloc(postings, sizeof *taken);
    struct pollfd ends[MOST];
    if (!started || !taken)
        fail("memory");
    for (int at = 0; at < many; at++) {
        Client *client = &clients[at];
        client->output = end_of(words[3 + at], "out", O_RDONLY);
        client->input = end_of(words[3 + at], "in", O_WRONLY);
        client->wanted = postings / many;
        client->started = started + at * client->wanted;
        client->taken = taken + at * client->wanted;
    }
    long long begun = now();
    for (int at = 0; at < many; at++)
        say(&clients[at], under_way);
    while (answered < postings) {
        for (int at = 0; at < many; at++) {
            /* of a client that is done nothing is awaited; of one whose pipe is full a place in it too */
            Client *client = &clients[at];
            ends[at] = (struct pollfd){client->answered < client->wanted ? client->output : -1, POLLIN, 0};
            if (client->rest_length > 0)
                say(client, under_way);
        }
        if (poll(ends, many, 1000) < 0 && errno != EINTR)
            fail("poll");
        answered = 0;
        for (int at = 0; at < many; at++) {
            if (ends[at].revents != 0) {
                hear(&clients[at]);
                say(&clients[at], under_way);
            }
            answered += clients[at].answered;
        }
    }
    long long taken_in_all = now() - begun;
    qsort(taken, postings, sizeof *taken, compare);
    printf("%ld %llu %lld %lld %lld %lld\n", postings, batches, taken_in_all, taken[postings / 2],
           taken[postings * 99 / 100], taken[postings - 1]);
    return 0;
}
