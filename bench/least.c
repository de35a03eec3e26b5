// The device work of so many forces and nothing else: of each a part of a log of 16 MB, pages at places among 2,900, a sync, a gate
// and a sync. It tells how fast a file of this format can be written here at best, and how long its syncs take.
//
// usage: least FORCES LOG_BYTES PAGES, in a folder on the disk that is to be timed
#define _GNU_SOURCE
#include <fcntl.h>
#include <stdio.h>
#include <stdlib.h>
#include <string.h>
#include <time.h>
#include <unistd.h>

enum { PAGE = 4096, LOG = 16 << 20, PAGES = 65536, USED = 2900, PIECE = 1 << 20 };

static char bytes[8 * PIECE];

static void put(int file, long count, long at) {
    if (pwrite(file, bytes, count, at) != count) {
        perror("least");
        exit(1);
    }
}

static double now(void) {
    struct timespec t;
    clock_gettime(CLOCK_MONOTONIC, &t);
    return t.tv_sec + t.tv_nsec * 1e-9;
}

static double synced(int file) {
    double start = now();
    fdatasync(file);
    return now() - start;
}

int main(int count, char **words) {
    if (count != 4 || atol(words[2]) < PAGE || atol(words[2]) > (long)sizeof bytes) {
        fprintf(stderr, "usage: least FORCES LOG_BYTES PAGES\n");
        return 2;
    }
    long forces = atol(words[1]), part = atol(words[2]), pages = atol(words[3]);
    int file = open("least.bin", O_RDWR | O_CREAT, 0644);
    for (long at = 0; at < PAGE + LOG + (long)PAGE * PAGES; at += PIECE) put(file, PIECE, at);
    fsync(file);
    memset(bytes, 7, sizeof bytes);
    double start = now(), syncs = 0;
    long at = PAGE;
    for (long force = 0; force < forces; force++) {
        if (at + part > PAGE + LOG) at = PAGE;
        put(file, part, at);
        for (long page = 0; page < pages; page++) put(file, PAGE, PAGE + LOG + (long)PAGE * (rand() % USED));
        syncs += synced(file);
        put(file, PAGE, at + part - PAGE);
        syncs += synced(file);
        at += part;
    }
    double all = now() - start;
    printf("%.3f s, %.3f of them syncs, for %.0f MB\n", all, syncs, forces * (part + (pages + 1.0) * PAGE) / 1e6);
    close(file);
    unlink("least.bin");
    return 0;
}
