/* The work of bench/run on this index through its library for C.
 *
 * usage: through_c COUNT COMMIT_EVERY FRAMES ascending|shuffled insert|all
 *
 * It does what bench/src/work.rt.txt does, and prints the same lines, but for the check without parents, which the library
 * doesn't offer. A scan is read an entry a call. */
#include "nardsill.h"
#include <stdint.h>
#include <stdio.h>
#include <stdlib.h>
#include <string.h>
#include <time.h>
#include <unistd.h>

enum { KEY = 16 };

static const char *const path = "through_c.idx";

struct work {
    uint32_t count, commit_every, frames;
    int ascending, only_inserts;
};

static uint64_t now(void) {
    struct timespec t;
    clock_gettime(CLOCK_MONOTONIC, &t);
    return (uint64_t)t.tv_sec * 1000000000u + (uint64_t)t.tv_nsec;
}

static void need(int status, const char *what) {
    if (status) {
        fprintf(stderr, "through_c: %s: %s\n", what, nardsill_strerror(status));
        exit(1);
    }
}

static void tell(const char *name, uint64_t count, uint64_t start) {
    printf("%s %llu %llu\n", name, (unsigned long long)count, (unsigned long long)(now() - start));
    fflush(stdout);
}

static void put_little(unsigned char *out, uint64_t number) {
    for (int k = 0; k < 8; k++) out[k] = (unsigned char)(number >> (8 * k));
}

/* Sixteen bytes that tell which entry this is, as bench/peers.c makes them. */
static void key_of(uint32_t i, int ascending, unsigned char *out) {
    memset(out, 0, KEY);
    if (ascending) {
        for (int k = 0; k < 4; k++) out[12 + k] = (unsigned char)(i >> (24 - 8 * k));
        return;
    }
    uint64_t first = i * 0x9e3779b97f4a7c15ull;
    first ^= first >> 29;
    put_little(out, first);
    put_little(out + 8, first * 6364136223846793005ull + 1442695040888963407ull);
}

static void insert_all(nardsill *index, struct work w) {
    unsigned char key[KEY];
    for (uint32_t i = 0; i < w.count; i++) {
        key_of(i, w.ascending, key);
        need(nardsill_insert(index, key, KEY, (nardsill_row){i, 1}, 0), "insert");
        if (i % w.commit_every == w.commit_every - 1) need(nardsill_commit(index, 0), "commit");
    }
    need(nardsill_commit(index, 0), "commit");
}

static uint64_t scan_all(nardsill *index) {
    nardsill_scan *scan;
    nardsill_entry entry;
    uint64_t seen = 0;
    int status;
    need(nardsill_scan_open(index, 0, 0, 0, 0, &scan), "scan");
    while (!(status = nardsill_scan_next(scan, &entry))) seen++;
    need(status == NARDSILL_DONE ? 0 : status, "scan");
    nardsill_scan_close(scan);
    return seen;
}

/* Looks each entry up by its key, in the order of bench/peers.c. */
static void look_up_all(nardsill *index, struct work w) {
    unsigned char key[KEY];
    nardsill_row row;
    for (uint32_t i = 0; i < w.count; i++) {
        uint32_t one = (uint32_t)((i * 2654435761ull) % w.count);
        key_of(one, w.ascending, key);
        need(nardsill_get(index, key, KEY, &row), "lookup");
        need(row.block == one ? 0 : NARDSILL_MISUSE, "lookup");
    }
}

static void delete_half(nardsill *index, uint32_t count) {
    nardsill_row *rows = malloc(sizeof *rows * (count / 2 + 1));
    need(rows ? 0 : NARDSILL_NO_MEMORY, "rows");
    size_t named = 0;
    for (uint32_t i = 1; i < count; i += 2) rows[named++] = (nardsill_row){i, 1};
    need(nardsill_delete_rows(index, rows, named, 0), "delete");
    need(nardsill_commit(index, 0), "commit");
    free(rows);
}

static void run(nardsill *index, struct work w) {
    uint64_t start = now();
    insert_all(index, w);
    tell("insert", w.count, start);
    if (w.only_inserts) return;
    start = now();
    tell("scan", scan_all(index), start);
    start = now();
    tell("scan-again", scan_all(index), start);
    need(nardsill_checkpoint(index, 0), "checkpoint");
    start = now();
    tell("scan-written", scan_all(index), start);
    start = now();
    look_up_all(index, w);
    tell("lookup", w.count, start);
    start = now();
    delete_half(index, w.count);
    tell("delete", w.count / 2, start);
}

static void run_check(struct work w) {
    nardsill_report report = NARDSILL_REPORT;
    uint64_t start = now();
    need(nardsill_check(path, w.frames, &report), "check");
    need(report.damage ? NARDSILL_PAGE_DAMAGED : 0, "check");
    tell("check-parents", report.entries, start);
}

int main(int argc, char **argv) {
    if (argc != 6) {
        fputs("usage: through_c COUNT COMMIT_EVERY FRAMES ascending|shuffled insert|all\n", stderr);
        return 1;
    }
    struct work w = {(uint32_t)strtoul(argv[1], 0, 10), (uint32_t)strtoul(argv[2], 0, 10),
                     (uint32_t)strtoul(argv[3], 0, 10), !strcmp(argv[4], "ascending"), !strcmp(argv[5], "insert")};
    if (!w.commit_every) w.commit_every = 1;
    nardsill *index;
    nardsill_limits limits = NARDSILL_LIMITS;
    limits.pages = 65536;
    limits.log_bytes = 16777216;
    unlink(path);
    need(nardsill_create(path, &limits), "create");
    need(nardsill_open(path, w.frames, &index), "open");
    run(index, w);
    need(nardsill_close(index), "close");
    if (!w.only_inserts) run_check(w);
    unlink(path);
    return 0;
}
