/* Each two of the calls run at once in two threads over one handle: for the thread sanitizer, and for what is answered. */
#define _GNU_SOURCE
#include "testing.h"
#include <pthread.h>
#include <unistd.h>

#define PATH "pairs.idx"
#define ROUNDS 60

/* What two threads work on: the handle, a scan of each, and entries of their own. */
struct work {
    nardsill *index;
    nardsill_scan *scan;
    unsigned who, round;
};

static int is_one_of(int status, int a, int b, int c) { return !status || status == a || status == b || status == c; }

static void inserts(struct work *work) {
    char key[20];
    sprintf(key, "%u-%u", work->who, work->round++);
    int status = insert(work->index, key, work->round, 1 + work->who);
    HOLDS(is_one_of(status, NARDSILL_EXISTS, NARDSILL_BLOCKED, 0));
}

static void inserts_many(struct work *work) {
    nardsill_entry two[2] = {{{work->who + 1, 9}, 1, {'x'}}, {{work->round++ + 1, 9}, 1, {'y'}}};
    size_t done;
    HOLDS(is_one_of(nardsill_insert_many(work->index, two, 2, &done), NARDSILL_EXISTS, NARDSILL_BLOCKED, NARDSILL_KEY_EXISTS));
}

/* The fault that a thread reads is of its own call. */
static void is_refused(struct work *work) {
    char key[8];
    sprintf(key, "here%u", work->who);
    IS(NARDSILL_KEY_EXISTS, insert(work->index, key, 4000, 1));
    IS(work->who + 1, nardsill_last_fault()->row.block);
    HOLDS(nardsill_last_fault()->row.offset == 7 && nardsill_last_fault()->status == NARDSILL_KEY_EXISTS);
}

static void gets(struct work *work) {
    nardsill_row row;
    char key[8];
    sprintf(key, "here%u", work->who);
    IS(0, nardsill_get(work->index, key, 5, &row));
    IS(work->who + 1, row.block);
}

static void reads(struct work *work) {
    nardsill_entry few[7];
    size_t count;
    int status = nardsill_scan_read(work->scan, few, 7, &count);
    for (size_t i = 1; i < count; i++) HOLDS(memcmp(few[i - 1].key, few[i].key, 64) <= 0);
    HOLDS(is_one_of(status, NARDSILL_DONE, NARDSILL_NO_FRAME, NARDSILL_NO_SESSION));
}

static void restarts(struct work *work) { IS(0, nardsill_scan_restart(work->scan, 0, 0, 0, 0)); }

static void opens(struct work *work) {
    nardsill_scan *scan;
    nardsill_entry entry;
    IS(0, nardsill_scan_open_prefix(work->index, "here", 4, &scan));
    IS(0, nardsill_scan_next(scan, &entry));
    nardsill_scan_close(scan);
}

static void deletes(struct work *work) {
    nardsill_row row = {work->round, (uint16_t)(1 + work->who)};
    nardsill_stats stats = NARDSILL_STATS;
    int status = nardsill_delete_rows(work->index, &row, 1, &stats);
    HOLDS(is_one_of(status, NARDSILL_BLOCKED, 0, 0));
    if (status) HOLDS(nardsill_last_fault()->page > 0);
    else HOLDS(stats.removed <= 1);
}

static void vacuums(struct work *work) {
    nardsill_stats stats = NARDSILL_STATS;
    int status = nardsill_vacuum(work->index, &stats);
    HOLDS(is_one_of(status, NARDSILL_BLOCKED, 0, 0) && (status || stats.entries >= 2));
}

static void commits(struct work *work) {
    uint64_t actions = 0;
    IS(0, nardsill_commit(work->index, &actions));
    HOLDS(actions >= 2);
}

static void checkpoints(struct work *work) {
    uint64_t actions = 0;
    IS(0, nardsill_checkpoint(work->index, &actions));
    HOLDS(actions >= 2);
}

static void informs(struct work *work) {
    nardsill_details details = NARDSILL_DETAILS;
    IS(0, nardsill_info(work->index, &details));
    HOLDS(details.unique == 1 && details.pages == 1024 && details.scans >= 2 && !details.stopped);
}

/* Vacuums wait for scans, or don't. */
static void sets_patience(struct work *work) { IS(0, nardsill_set_patience(work->index, work->round++ % 2)); }

static void (*const calls[])(struct work *) = {inserts,  inserts_many, is_refused, gets,        reads,   restarts,     opens,
                                               deletes, vacuums,      commits,    checkpoints, informs, sets_patience};
enum { CALLS = sizeof calls / sizeof *calls };

struct pair {
    struct work work;
    void (*does)(struct work *);
    pthread_barrier_t *start;
};

static void *run(void *at) {
    struct pair *pair = at;
    pthread_barrier_wait(pair->start);
    for (int i = 0; i < ROUNDS; i++) pair->does(&pair->work);
    return 0;
}

/* One thread makes the first call, and another the second, at once. The scans are one, or one of each. */
static void at_once(nardsill *index, int first, int second, int is_shared) {
    pthread_barrier_t start;
    pthread_t threads[2];
    nardsill_scan *scans[2];
    pthread_barrier_init(&start, 0, 2);
    for (int i = 0; i < 2; i++) IS(0, nardsill_scan_open(index, 0, 0, 0, 0, scans + i));
    struct pair pairs[2] = {{{index, scans[0], 0, 0}, calls[first], &start}, {{index, scans[!is_shared], 1, 0}, calls[second], &start}};
    for (int i = 0; i < 2; i++) IS(0, pthread_create(threads + i, 0, run, pairs + i));
    for (int i = 0; i < 2; i++) pthread_join(threads[i], 0);
    for (int i = 0; i < 2; i++) nardsill_scan_close(scans[i]);
    pthread_barrier_destroy(&start);
}

int main(void) {
    nardsill_limits limits = {sizeof limits, 8, 1024, 1048576, 1};
    nardsill *index = made(PATH, &limits);
    IS(0, insert(index, "here0", 1, 7));
    IS(0, insert(index, "here1", 2, 7));
    for (int first = 0; first < CALLS; first++)
        for (int second = 0; second <= first; second++)
            for (int is_shared = 0; is_shared < 2; is_shared++) at_once(index, first, second, is_shared);
    nardsill_details details = NARDSILL_DETAILS;
    IS(0, nardsill_info(index, &details));
    IS(0, details.scans);
    IS(0, nardsill_close(index));
    nardsill_report report = NARDSILL_REPORT;
    IS(0, nardsill_check(PATH, 0, &report));
    IS(0, report.damage);
    unlink(PATH);
    puts("pairs: all is as it must be");
    return 0;
}
