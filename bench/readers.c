/* Lookups of threads on one handle of the library for C: alone, and beside one thread that inserts and commits again and again.
 *
 * usage: readers FOLDER READERS SECONDS
 *
 * The index has 100,000 entries on some 2,900 pages, and 1,024 frames. It prints, for each of the two, the lookups and the commits
 * a second, and the longest that one lookup took. */
#include "nardsill.h"
#include <pthread.h>
#include <stdatomic.h>
#include <stdint.h>
#include <stdio.h>
#include <stdlib.h>
#include <string.h>
#include <time.h>
#include <unistd.h>

enum { ENTRIES = 100000, KEY = 16, MOST = 64 };

static nardsill *index_of_all;
static atomic_int is_over;

struct thread {
    pthread_t id;
    unsigned who;
    uint64_t calls, longest;
};

static uint64_t now(void) {
    struct timespec t;
    clock_gettime(CLOCK_MONOTONIC, &t);
    return (uint64_t)t.tv_sec * 1000000000u + (uint64_t)t.tv_nsec;
}

static void need(int status, const char *what) {
    if (!status) return;
    fprintf(stderr, "readers: %s: %s\n", what, nardsill_strerror(status));
    exit(1);
}

static void key_of(uint32_t i, unsigned char *out) {
    memset(out, 0, KEY);
    uint64_t first = i * 0x9e3779b97f4a7c15ull;
    first ^= first >> 29;
    memcpy(out, &first, 8);
    memcpy(out + 8, &i, 4);
}

static void *reads(void *at) {
    struct thread *me = at;
    unsigned char key[KEY];
    nardsill_row row;
    uint32_t i = me->who * 7919;
    while (!is_over) {
        i = i * 1664525u + 1013904223u;
        key_of(i % ENTRIES, key);
        uint64_t begun = now();
        need(nardsill_get(index_of_all, key, KEY, &row), "get");
        uint64_t took = now() - begun;
        if (took > me->longest) me->longest = took;
        me->calls++;
    }
    return 0;
}

static void *commits(void *at) {
    static uint32_t next = ENTRIES;
    struct thread *me = at;
    unsigned char key[KEY];
    while (!is_over) {
        key_of(next, key);
        need(nardsill_insert(index_of_all, key, KEY, (nardsill_row){next++, 2}, 0), "insert");
        need(nardsill_commit(index_of_all, 0), "commit");
        me->calls++;
    }
    return 0;
}

static void run(unsigned readers, double seconds, int has_committer) {
    struct thread threads[MOST + 1];
    uint64_t lookups = 0, longest = 0, begun = now();
    is_over = 0;
    for (unsigned i = 0; i < readers + (unsigned)has_committer; i++) {
        threads[i] = (struct thread){.who = i};
        if (pthread_create(&threads[i].id, 0, i < readers ? reads : commits, threads + i)) exit(1);
    }
    usleep((useconds_t)(seconds * 1e6));
    is_over = 1;
    for (unsigned i = 0; i < readers + (unsigned)has_committer; i++) pthread_join(threads[i].id, 0);
    double took = (double)(now() - begun) / 1e9;
    for (unsigned i = 0; i < readers; i++) {
        lookups += threads[i].calls;
        if (threads[i].longest > longest) longest = threads[i].longest;
    }
    printf("%s: %.0f lookups a second, %.0f commits a second, %.2f milliseconds at most\n", has_committer ? "beside a committer" : "alone",
           (double)lookups / took, has_committer ? (double)threads[readers].calls / took : 0.0, (double)longest / 1e6);
    fflush(stdout);
}

int main(int count, char **words) {
    static const nardsill_limits limits = {sizeof limits, 50, 65536, 1 << 24, 0};
    unsigned char key[KEY];
    if (count != 4 || chdir(words[1])) return 2;
    unsigned readers = (unsigned)atoi(words[2]);
    double seconds = atof(words[3]);
    if (!readers || readers > MOST) return 2;
    unlink("readers.idx");
    need(nardsill_create("readers.idx", &limits), "create");
    need(nardsill_open("readers.idx", 1024, &index_of_all), "open");
    for (uint32_t i = 0; i < ENTRIES; i++) {
        key_of(i, key);
        need(nardsill_insert(index_of_all, key, KEY, (nardsill_row){i, 1}, 0), "insert");
    }
    need(nardsill_checkpoint(index_of_all, 0), "checkpoint");
    for (int i = 0; i < 2; i++) {
        run(readers, seconds, 0);
        run(readers, seconds, 1);
    }
    need(nardsill_close(index_of_all), "close");
    return 0;
}
