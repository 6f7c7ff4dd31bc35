/* The floor for durable batches: so many times one sector, made durable, and the next sector, made durable, on a file
   that has its length already. */

#include <fcntl.h>
#include <stdio.h>
#include <stdlib.h>
#include <string.h>
#include <unistd.h>

#define SECTOR 512

static int write_durably(int file, const char *sector, off_t at) {
    return pwrite(file, sector, SECTOR, at * SECTOR) == SECTOR && fdatasync(file) == 0;
}

int main(int count, char **words) {
    char body[SECTOR], gate[SECTOR];
    if (count != 3) {
        fprintf(stderr, "usage: floor FILE BATCHES\n");
        return 2;
    }
    memset(body, 1, SECTOR);
    memset(gate, 2, SECTOR);
    long batches = strtol(words[2], NULL, 10);
    int file = open(words[1], O_RDWR);
    if (file < 0) {
        perror(words[1]);
        return 1;
    }
    for (long slot = 0; slot < batches; slot++) {
        if (!write_durably(file, body, 1 + 2 * slot) || !write_durably(file, gate, 2 + 2 * slot)) {
            perror(words[1]);
            return 1;
        }
    }
    return 0;
}
