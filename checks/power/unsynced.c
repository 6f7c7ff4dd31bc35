/* To be preloaded. A control: some of the program's syncs answer 0 and do nothing. All of them; or where UNSYNCED is K/M
   those whose number, counted from 0, leaves K when it is divided by M; where it is a path, those of files whose path begins
   so; and where it is `none`, none.

   Where KILLED is a number, the program is killed before its call of that number, counted from 1, among those by which it
   syncs and names files. */
#include <signal.h>
#include <stdatomic.h>
#include <stdio.h>
#include <stdlib.h>
#include <string.h>
#include <sys/syscall.h>
#include <unistd.h>

static void come_to_a_call(void) {
    static atomic_ulong count;
    const char *killed = getenv("KILLED");
    unsigned long number = 1 + atomic_fetch_add(&count, 1);
    if (killed != NULL && number == strtoul(killed, NULL, 10)) kill(getpid(), SIGKILL);
}

static int begins_with(int file, const char *path) {
    char link[64], found[4096] = "";
    snprintf(link, sizeof link, "/proc/self/fd/%d", file);
    return readlink(link, found, sizeof found - 1) > 0 && strncmp(found, path, strlen(path)) == 0;
}

static int is_skipped(int file) {
    static atomic_ulong count;
    unsigned long number = atomic_fetch_add(&count, 1);
    const char *which = getenv("UNSYNCED");
    char *end;
    if (which != NULL && strcmp(which, "none") == 0) return 0;
    if (which != NULL && *which == '/') return begins_with(file, which);
    if (which == NULL || *which < '0' || *which > '9') return 1;
    unsigned long rest = strtoul(which, &end, 10);
    return *end == '/' && number % strtoul(end + 1, NULL, 10) == rest;
}

static int sync_by(long call, int file) {
    come_to_a_call();
    return is_skipped(file) ? 0 : (int)syscall(call, file);
}

int fsync(int file) { return sync_by(SYS_fsync, file); }

int fdatasync(int file) { return sync_by(SYS_fdatasync, file); }

int rename(const char *from, const char *to) {
    come_to_a_call();
    return (int)syscall(SYS_rename, from, to);
}
