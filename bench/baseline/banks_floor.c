/* The floor for turns on two banks: the console's writes and syncs of so many turns that each post a batch, in its order,
   with a line on standard output for each, on a file that was formatted. Where a bank is full the other one is made live
   first: its gate is closed where it is open, then its head, its snapshot and its slots' gates are written, then its gate
   is opened. */

#include <fcntl.h>
#include <stdio.h>
#include <stdlib.h>
#include <string.h>
#include <unistd.h>

#define SECTOR 512

/* The sectors of a snapshot, sixteen of balances and one of marks; and of a bank before its slots: its gate, its head, and
   its snapshot. */
#define SNAPSHOT 17
#define FRONT (2 + SNAPSHOT)

static int file;
static const char closed[SECTOR];
static char gate[SECTOR], head[SECTOR], snapshot[SECTOR], body[SECTOR];

static void require(int holds, const char *told) {
    if (!holds) {
        perror(told);
        exit(1);
    }
}

static void write_sector(const char *sector, off_t at) {
    require(pwrite(file, sector, SECTOR, at * SECTOR) == SECTOR, "pwrite");
}

static void sync_file(void) {
    require(fdatasync(file) == 0, "fdatasync");
}

static void write_durably(const char *sector, off_t at) {
    write_sector(sector, at);
    sync_file();
}

/* Makes the bank live that begins in this sector. */
static void checkpoint(off_t front, long slots) {
    char found[SECTOR];
    require(pread(file, found, SECTOR, front * SECTOR) == SECTOR, "pread");
    if (found[0] == gate[0]) {
        write_durably(closed, front);
    }
    write_sector(head, front + 1);
    for (long part = 0; part < SNAPSHOT; part++) {
        write_sector(snapshot, front + 2 + part);
    }
    for (long slot = 0; slot < slots; slot++) {
        write_sector(closed, front + FRONT + 2 * slot + 1);
    }
    sync_file();
    write_durably(gate, front);
}

int main(int count, char **words) {
    if (count != 4) {
        fprintf(stderr, "usage: banks_floor FILE SLOTS TURNS\n");
        return 2;
    }
    gate[0] = '\xa5';
    memset(head, 1, SECTOR);
    memset(snapshot, 2, SECTOR);
    memset(body, 3, SECTOR);
    long slots = strtol(words[2], NULL, 10), turns = strtol(words[3], NULL, 10);
    file = open(words[1], O_RDWR);
    require(file >= 0, words[1]);
    for (long turn = 0; turn < turns; turn++) {
        off_t front = 1 + turn / slots % 2 * (FRONT + 2 * slots), slot = turn % slots;
        if (turn > 0 && slot == 0) {
            checkpoint(front, slots);
        }
        write_durably(body, front + FRONT + 2 * slot);
        write_durably(gate, front + FRONT + 2 * slot + 1);
        require(write(1, "turn \n", 6) == 6, "write");
    }
    return 0;
}
