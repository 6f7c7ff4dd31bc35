/* Reads a file once from its beginning, to its end or as many bytes of it as are told, in blocks of at most 1 MiB, and
   prints how many bytes it read. */

#include <fcntl.h>
#include <stdio.h>
#include <stdlib.h>
#include <unistd.h>

#define BLOCK (1 << 20)

static char block[BLOCK];

int main(int count, char **words) {
    if (count < 2 || count > 3) {
        fprintf(stderr, "usage: read_once FILE [BYTES]\n");
        return 2;
    }
    long long wanted = count == 3 ? strtoll(words[2], NULL, 10) : -1;
    int file = open(words[1], O_RDONLY);
    long long total = 0;
    ssize_t got;
    do {
        size_t piece = wanted < 0 || wanted - total > BLOCK ? BLOCK : (size_t)(wanted - total);
        got = read(file, block, piece);
        total += got > 0 ? got : 0;
    } while (got > 0);
    if (got < 0) {
        perror(words[1]);
        return 1;
    }
    printf("%lld bytes\n", total);
    return 0;
}
