/* What the tests share: a call's answer beside the one that is wanted, and keys that a number names. */
#ifndef TESTING_H
#define TESTING_H
#include "nardsill.h"
#include <errno.h>
#include <stdio.h>
#include <stdlib.h>
#include <string.h>
#include <unistd.h>

#define IS(want, call) is((long)(want), (long)(call), #call, __FILE__, __LINE__)
#define HOLDS(what) IS(1, !!(what))
/* A part of a test that waits for ever is ended. None takes a second, on a machine that does nothing else. */
#define IN_A_MINUTE(part) (alarm(60), (void)(part))

static inline void is(long want, long got, const char *call, const char *file, int line) {
    if (want == got) return;
    fprintf(stderr, "%s:%d: %ld, not %ld: %s (fault %d %s, %s)\n", file, line, got, want, call, nardsill_last_fault()->status,
            nardsill_errname(nardsill_last_fault()->status), strerror(nardsill_last_fault()->error));
    exit(1);
}

static inline nardsill_row row_of(unsigned block, unsigned offset) { return (nardsill_row){block, (uint16_t)offset}; }

/* A key of 16 bytes, of which numbers in order have none in order. */
static inline void key_of(unsigned i, unsigned char *key) {
    memset(key, 0, 16);
    for (int k = 0; k < 4; k++) key[k] = (unsigned char)(i * 2654435761u >> (8 * k));
}

static inline int insert(nardsill *index, const char *key, unsigned block, unsigned offset) {
    return nardsill_insert(index, key, strlen(key), row_of(block, offset), 0);
}

/* A new index, of these limits, open. */
static inline nardsill *made(const char *path, const nardsill_limits *limits) {
    nardsill *index;
    remove(path);
    IS(0, nardsill_create(path, limits));
    IS(0, nardsill_open(path, 64, &index));
    return index;
}

static inline unsigned counted(nardsill *index) {
    nardsill_scan *scan;
    nardsill_entry few[100];
    size_t n;
    unsigned all = 0;
    int status;
    IS(0, nardsill_scan_open(index, 0, 0, 0, 0, &scan));
    do {
        status = nardsill_scan_read(scan, few, 100, &n);
        all += (unsigned)n;
    } while (!status);
    IS(NARDSILL_DONE, status);
    IS(NARDSILL_DONE, nardsill_scan_read(scan, few, 100, &n));
    nardsill_scan_close(scan);
    return all;
}
#endif
