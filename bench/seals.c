// The device's calls of seals, as a record makes them: two writes, each with a sync. `seals MODE FILES SEALS` in the folder of the files: MODE `grows` makes each
// file longer by each write and syncs by fsync; `ahead` writes over zeros that were written ahead, and syncs by fdatasync, as `sited` does. FILES do so at once, as
// the nodes of a group on one machine. It prints the microseconds of a seal.
#define _GNU_SOURCE
#include <fcntl.h>
#include <stdio.h>
#include <stdlib.h>
#include <string.h>
#include <sys/wait.h>
#include <time.h>
#include <unistd.h>

enum { ROOM = 262144, BATCH = 150 };

static double now(void) {
    struct timespec t;
    clock_gettime(CLOCK_MONOTONIC, &t);
    return t.tv_sec + t.tv_nsec / 1e9;
}

static void check(int is) {
    if (!is) { perror("seals"); _exit(1); }
}

static void write_and_sync(int fd, const char *bytes, size_t size, off_t at, int ahead) {
    check(pwrite(fd, bytes, size, at) == (ssize_t)size);
    check((ahead ? fdatasync(fd) : fsync(fd)) == 0);
}

static void seal(int number, int ahead, long seals) {
    static char zeros[ROOM], batch[BATCH];
    char name[32];
    off_t at = 0, end = 0;
    memset(batch, 7, BATCH);
    snprintf(name, sizeof name, "seals.%d", number);
    unlink(name);
    int fd = open(name, O_RDWR | O_CREAT, 0600);
    check(fd >= 0);
    for (long k = 0; k < seals; k++, at += BATCH) {
        if (ahead && at + ROOM / 2 >= end) {
            write_and_sync(fd, zeros, at + ROOM - end, end, 1);
            end = at + ROOM;
        }
        write_and_sync(fd, batch, BATCH, at, ahead);
        write_and_sync(fd, batch, 1, at, ahead);
    }
    unlink(name);
    _exit(0);
}

int main(int count, char **words) {
    if (count != 4) return 2;
    int ahead = strcmp(words[1], "ahead") == 0, status, failed = 0;
    long files = atol(words[2]), seals = atol(words[3]);
    double began = now();
    for (int k = 0; k < files; k++)
        if (fork() == 0) seal(k, ahead, seals);
    while (wait(&status) > 0) failed |= status;
    printf("%.0f\n", (now() - began) / seals * 1e6);
    return failed != 0;
}
