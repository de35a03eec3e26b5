/* Vacuums beside other calls: what they delete and what they leave, whom they keep waiting, and how long they wait for scans. */
#define _GNU_SOURCE
#include "testing.h"
#include <malloc.h>
#include <pthread.h>
#include <stdatomic.h>
#include <sys/types.h>
#include <sys/wait.h>
#include <time.h>
#include <unistd.h>

#define PATH "vacuum.idx"

/* The thread sanitizer knows no process with threads that is forked. */
#ifdef __SANITIZE_THREAD__
enum { IS_WATCHED = 1 };
#else
enum { IS_WATCHED = 0 };
#endif

enum { MANY = 100000, FEW = 25000, INSERTERS = 2, SCANNERS = 2, DEAD = 1, LIVE = 2, INSERTED = 3 };

/* A patience that is never over here. In nanoseconds its lowest 32 bits tell less than a millisecond. */
enum { LONG = 21475 };

static const nardsill_limits limits = {sizeof limits, 50, 32768, 1 << 22, 0}, few_pages = {sizeof limits, 50, 64, 65536, 0};
static const nardsill_limits small_log = {sizeof limits, 50, 4096, 65536, 0};

/* Waits with an end that run now. How long a sync takes, in microseconds. With which number syncs and writes fail. */
static atomic_uint waiting;
static atomic_uint slowness;
static atomic_int failing;
/* Writes that are left before they fail; below 0 if none does. */
static atomic_int left = -1;

/* Whether a bell that is rung is kept from ringing, and which one is. */
static atomic_int is_holding;
static pthread_cond_t *_Atomic held;

int __real_fdatasync(int fd);
ssize_t __real_pwrite(int fd, const void *from, size_t count, off_t at);
int __real_pthread_cond_signal(pthread_cond_t *bell);
int __real_pthread_cond_timedwait(pthread_cond_t *bell, pthread_mutex_t *lock, const struct timespec *until);

static int refuse(int error) {
    errno = error;
    return -1;
}

int __wrap_fdatasync(int fd) {
    if (slowness) usleep(slowness);
    return failing ? refuse(failing) : __real_fdatasync(fd);
}

ssize_t __wrap_pwrite(int fd, const void *from, size_t count, off_t at) {
    if (left > 0) left--;
    return left ? __real_pwrite(fd, from, count, at) : refuse(ENOSPC);
}

int __wrap_pthread_cond_timedwait(pthread_cond_t *bell, pthread_mutex_t *lock, const struct timespec *until) {
    waiting++;
    int status = __real_pthread_cond_timedwait(bell, lock, until);
    waiting--;
    return status;
}

int __wrap_pthread_cond_signal(pthread_cond_t *bell) {
    if (!is_holding) return __real_pthread_cond_signal(bell);
    held = bell;
    return 0;
}

static uint64_t microseconds(void) {
    struct timespec now;
    clock_gettime(CLOCK_MONOTONIC, &now);
    return (uint64_t)now.tv_sec * 1000000u + (uint64_t)now.tv_nsec / 1000;
}

/* A tenth of a millisecond: none of the tests waits for 100,000 of them. */
static void wait_until(atomic_uint *count, unsigned wanted) {
    for (unsigned ticks = 0; *count != wanted; usleep(100)) HOLDS(++ticks < 100000);
}

static nardsill_row rows[MANY];

static void name_rows(unsigned offset) {
    for (unsigned i = 0; i < MANY; i++) rows[i] = row_of(i, offset);
}

/* Keys in order, of which each tells its number. */
static void ordered_key(unsigned number, unsigned char *key) { sprintf((char *)key, "%012u", number); }

static void fill(nardsill *index, unsigned count, unsigned offset) {
    unsigned char key[16];
    for (unsigned i = 0; i < count; i++) {
        ordered_key(i, key);
        IS(0, nardsill_insert(index, key, 12, row_of(i, offset), 0));
    }
}

/* A bulk delete in a thread of its own. */
struct deleting {
    pthread_t thread;
    nardsill *index;
    const nardsill_row *rows;
    size_t count;
    int status;
    nardsill_fault fault;
    nardsill_stats stats;
    uint64_t took;
    atomic_uint is_over;
};

static void *deletes(void *at) {
    struct deleting *me = at;
    uint64_t begun = microseconds();
    me->status = nardsill_delete_rows(me->index, me->rows, me->count, &me->stats);
    me->took = microseconds() - begun;
    me->fault = *nardsill_last_fault();
    me->is_over = 1;
    return 0;
}

static void start(struct deleting *one, nardsill *index, const nardsill_row *of, size_t count) {
    *one = (struct deleting){.index = index, .rows = of, .count = count, .stats = NARDSILL_STATS};
    IS(0, pthread_create(&one->thread, 0, deletes, one));
}

/* Until the bulk delete waits, or is over. */
static void wait_or_end(struct deleting *one) {
    for (unsigned ticks = 0; waiting != 1 && !one->is_over; usleep(100)) HOLDS(++ticks < 100000);
}

static void ends(struct deleting *one, int status, unsigned removed) {
    pthread_join(one->thread, 0);
    IS(status, one->status);
    IS(removed, one->stats.removed);
}

/* Two deletes and one vacuum more: whatever was before, none of them is refused, and the index is sound behind its closing. */
static void is_sound(nardsill *index, uint64_t entries) {
    nardsill_report report = NARDSILL_REPORT;
    nardsill_stats stats = NARDSILL_STATS;
    IS(0, nardsill_delete_rows(index, 0, 0, &stats));
    IS(0, stats.removed);
    IS(0, nardsill_vacuum(index, &stats));
    IS(entries, stats.entries);
    IS(0, nardsill_close(index));
    IS(0, nardsill_check(PATH, 0, &report));
    IS(0, report.damage);
    IS(entries, report.entries);
}

/* An index of one leaf, with a scan that stands on it. */
static nardsill *stood_on(nardsill_scan **scan) {
    nardsill *index = made(PATH, &few_pages);
    nardsill_entry entry;
    fill(index, 10, 1);
    IS(0, nardsill_scan_open(index, 0, 0, 0, 0, scan));
    IS(0, nardsill_scan_next(*scan, &entry));
    return index;
}

/* Without patience it is refused at once, and ended. */
static void refused_at_once(void) {
    nardsill_scan *scan;
    nardsill_row row;
    nardsill *index = stood_on(&scan);
    name_rows(1);
    IS(NARDSILL_BLOCKED, nardsill_delete_rows(index, rows + 3, 2, 0));
    HOLDS(nardsill_last_fault()->page > 0);
    IS(NARDSILL_BLOCKED, nardsill_delete_rows(index, rows + 4, 2, 0));
    IS(0, nardsill_get(index, "000000000003", 12, &row));
    nardsill_scan_close(scan);
    IS(0, nardsill_delete_rows(index, rows + 5, 2, 0));
    is_sound(index, 8);
}

static void closes(nardsill_scan **scan) {
    nardsill_scan_close(*scan);
    *scan = 0;
}

static void restarts(nardsill_scan **scan) { IS(0, nardsill_scan_restart(*scan, 0, 0, 0, 0)); }

static void reads_on(nardsill_scan **scan) {
    nardsill_entry few[40];
    size_t count;
    IS(NARDSILL_DONE, nardsill_scan_read(*scan, few, 40, &count));
}

/* A child whose calls of the parent's handle are refused, at once. */
static void fork_one(nardsill *index) {
    int status;
    if (IS_WATCHED) return;
    pid_t child = fork();
    if (!child) {
        alarm(20);
        _exit(nardsill_vacuum(index, 0) != NARDSILL_FORKED || nardsill_set_patience(index, 1) != NARDSILL_FORKED || nardsill_close(index) != NARDSILL_FORKED);
    }
    waitpid(child, &status, 0);
    IS(0, status);
}

/* It waits for a scan that stands on its leaf, and other calls go on; once the scan has moved it goes on itself. */
static void waits_for(void (*moves)(nardsill_scan **)) {
    nardsill_scan *scan, *other;
    nardsill_row row;
    nardsill_details details = NARDSILL_DETAILS;
    struct deleting one;
    nardsill *index = stood_on(&scan);
    IS(0, nardsill_set_patience(index, LONG));
    start(&one, index, rows + 5, 2);
    wait_until(&waiting, 1);
    fork_one(index);
    IS(0, insert(index, "other", 77, 7));
    IS(0, nardsill_get(index, "other", 5, &row));
    IS(0, nardsill_commit(index, 0));
    IS(0, nardsill_info(index, &details));
    IS(1, details.scans);
    /* Another scan comes and goes, and it waits on. */
    IS(0, nardsill_scan_open(index, 0, 0, 0, 0, &other));
    nardsill_scan_close(other);
    wait_until(&waiting, 1);
    IS(0, one.is_over);
    pthread_cancel(one.thread);
    usleep(1000);
    IS(0, one.is_over);
    moves(&scan);
    ends(&one, 0, 2);
    IS(NARDSILL_NOT_FOUND, nardsill_get(index, "000000000005", 12, &row));
    nardsill_scan_close(scan);
    is_sound(index, 9);
}

/* Its patience ends, also if scans move all the time; and it is ended then. */
static void patience_ends(void) {
    nardsill_scan *scan, *other;
    struct deleting one;
    nardsill *index = stood_on(&scan);
    IS(0, nardsill_set_patience(index, 100));
    start(&one, index, rows, 1);
    for (int moves = 0; !one.is_over; usleep(1000)) {
        HOLDS(++moves < 5000);
        IS(0, nardsill_scan_open(index, 0, 0, 0, 0, &other));
        nardsill_scan_close(other);
    }
    ends(&one, NARDSILL_BLOCKED, 0);
    HOLDS(one.fault.status == NARDSILL_BLOCKED && one.fault.page && one.took >= 100000);
    /* It ends at once if its patience is made shorter. */
    IS(0, nardsill_set_patience(index, 4294967295u));
    start(&one, index, rows, 1);
    wait_until(&waiting, 1);
    IS(0, nardsill_set_patience(index, 0));
    ends(&one, NARDSILL_BLOCKED, 0);
    nardsill_scan_close(scan);
    IS(NARDSILL_MISUSE, nardsill_set_patience(0, 1));
    is_sound(index, 10);
}

enum { PATIENCE = 1000 };

/* Two scans keep a bulk delete waiting one after the other, for more than its patience together. Whether each did so for less. */
static int scans_keep_it(void) {
    nardsill_scan *scans[2];
    nardsill_entry entry;
    struct deleting one;
    int is_short = 1;
    nardsill *index = made(PATH, &few_pages);
    fill(index, 200, 1);
    IS(0, nardsill_scan_open(index, "000000000000", 12, 0, 0, scans));
    IS(0, nardsill_scan_open(index, "000000000150", 12, 0, 0, scans + 1));
    for (int i = 0; i < 2; i++) IS(0, nardsill_scan_next(scans[i], &entry));
    IS(0, nardsill_set_patience(index, PATIENCE));
    uint64_t begun = microseconds();
    start(&one, index, rows, 200);
    for (int i = 0; i < 2; i++) {
        wait_or_end(&one);
        usleep(600 * PATIENCE);
        uint64_t before = microseconds();
        nardsill_scan_close(scans[i]);
        uint64_t now = microseconds();
        is_short = is_short && now - begun < 1000 * PATIENCE;
        begun = before;
    }
    pthread_join(one.thread, 0);
    if (is_short || !one.status) {
        IS(0, one.status);
        IS(200, one.stats.removed);
        is_sound(index, 0);
    } else {
        IS(NARDSILL_BLOCKED, one.status);
        IS(0, nardsill_close(index));
    }
    return is_short;
}

/* Its patience is for each scan anew. Where other work on the machine lets a scan keep it for too long, that says nothing. */
static void patience_begins_anew(void) {
    int is_short = 0;
    for (int run = 0; run < 10 && !is_short; run++) is_short = scans_keep_it();
    HOLDS(is_short);
}

/* A thread that scans again and again: where the leaf is free for a moment the vacuum has it before the next call of a scan. */
static void goes_before_scans(void) {
    nardsill_scan *scan;
    nardsill_entry entry;
    nardsill_row row;
    struct deleting one;
    for (int round = 0; round < 50; round++) {
        nardsill *index = stood_on(&scan);
        IS(0, nardsill_set_patience(index, LONG));
        start(&one, index, rows + 5, 1);
        wait_until(&waiting, 1);
        restarts(&scan);
        IS(0, nardsill_scan_next(scan, &entry));
        IS(NARDSILL_NOT_FOUND, nardsill_get(index, "000000000005", 12, &row));
        nardsill_scan_close(scan);
        ends(&one, 0, 1);
        IS(0, nardsill_close(index));
    }
}

/* If 62 scans are open beside a vacuum no other one is opened; if 63 are it is made whole, and waits as well. */
static void many_scans(void) {
    nardsill_scan *scans[63];
    nardsill_entry entry;
    nardsill_stats stats = NARDSILL_STATS;
    nardsill_row row;
    struct deleting one;
    nardsill *index = stood_on(scans);
    for (int i = 1; i < 62; i++) IS(0, nardsill_scan_open(index, 0, 0, 0, 0, scans + i));
    IS(0, nardsill_set_patience(index, LONG));
    start(&one, index, rows, 1);
    wait_until(&waiting, 1);
    IS(NARDSILL_NO_SESSION, nardsill_scan_open(index, 0, 0, 0, 0, scans + 62));
    IS(NARDSILL_NO_SESSION, nardsill_get(index, "000000000001", 12, &row));
    restarts(scans);
    ends(&one, 0, 1);
    IS(0, nardsill_scan_open(index, 0, 0, 0, 0, scans + 62));
    IS(0, nardsill_vacuum(index, &stats));
    IS(9, stats.entries);
    IS(0, nardsill_delete_rows(index, rows + 1, 1, &stats));
    IS(1, stats.removed);
    for (int i = 0; i < 2; i++) {
        IS(0, nardsill_scan_next(scans[0], &entry));
        start(&one, index, rows + 2 + i, 1);
        wait_until(&waiting, 1);
        if (i) closes(scans);
        else restarts(scans);
        ends(&one, 0, 1);
    }
    for (int i = 1; i < 63; i++) nardsill_scan_close(scans[i]);
    is_sound(index, 6);
}

/* Threads that vacuum at once: each deletes the rows that it has named, and no other; none is refused. */
struct vacuuming {
    pthread_t thread;
    nardsill *index;
    unsigned from, count;
};

static void *vacuums(void *at) {
    struct vacuuming *me = at;
    nardsill_stats stats = NARDSILL_STATS;
    for (unsigned i = 0; i < me->count; i += 2000) {
        IS(0, nardsill_delete_rows(me->index, rows + me->from + i, 2000, &stats));
        IS(2000, stats.removed);
        if (i % 3) continue;
        IS(0, nardsill_vacuum(me->index, &stats));
        /* A row that can't be: none is deleted. */
        nardsill_row some[3] = {rows[MANY / 2], rows[MANY / 2 + 1], {1, 0}};
        IS(NARDSILL_BAD_ROW, nardsill_delete_rows(me->index, some, 3, &stats));
    }
    return 0;
}

static void at_once(void) {
    nardsill *index = made(PATH, &limits);
    struct vacuuming all[4];
    fill(index, MANY, 1);
    for (unsigned i = 0; i < 4; i++) {
        all[i] = (struct vacuuming){.index = index, .from = i * 10000, .count = 10000};
        IS(0, pthread_create(&all[i].thread, 0, vacuums, all + i));
    }
    for (int i = 0; i < 4; i++) pthread_join(all[i].thread, 0);
    is_sound(index, MANY - 40000);
}

/* The second one waits while the first does. */
static void in_turn(void) {
    nardsill_scan *scan;
    struct deleting one, two;
    nardsill *index = stood_on(&scan);
    IS(0, nardsill_set_patience(index, LONG));
    start(&one, index, rows, 1);
    wait_until(&waiting, 1);
    start(&two, index, rows + 1, 1);
    usleep(20000);
    HOLDS(!one.is_over && !two.is_over);
    nardsill_scan_close(scan);
    ends(&one, 0, 1);
    ends(&two, 0, 1);
    is_sound(index, 8);
}

/* The bytes that are taken of the heap. */
static size_t taken(void) {
    struct mallinfo2 now = mallinfo2();
    return now.uordblks + now.hblkhd;
}

/* The rows of a bulk delete are freed as it ends. (A sanitizer has a heap of its own, of which nothing is told here.) */
static void frees_its_rows(void) {
    nardsill *index = made(PATH, &limits);
    name_rows(1);
    fill(index, 100, 1);
    IS(0, nardsill_delete_rows(index, rows, 1, 0));
    size_t before = taken();
    IS(0, nardsill_delete_rows(index, rows, MANY, 0));
    HOLDS(taken() < before + MANY);
    is_sound(index, 0);
}

static void is_over(int status) { HOLDS(status == NARDSILL_STOPPED || status == NARDSILL_IO); }

/* A write fails in a vacuum: it tells why, and is ended. */
static void write_fails(nardsill *index) {
    IS(ENOSPC, errno);
    IS(ENOSPC, nardsill_last_fault()->error);
    left = -1;
    is_over(nardsill_delete_rows(index, rows, 2500, 0));
    is_over(nardsill_vacuum(index, 0));
    is_over(nardsill_close(index));
    IS(0, nardsill_open(PATH, 64, &index));
    IS(0, nardsill_delete_rows(index, rows, 2500, 0));
    is_sound(index, 2500);
}

/* The first write, the twentieth, and so on, up to one that none makes. Each other entry is there behind the next opening. */
static void writes_fail(void) {
    int status = NARDSILL_IO;
    for (int writes = 1; status; writes += 19) {
        nardsill *index = made(PATH, &small_log);
        fill(index, 5000, 1);
        IS(0, nardsill_checkpoint(index, 0));
        left = writes;
        status = nardsill_delete_rows(index, rows, 2500, 0);
        if (status) {
            IS(NARDSILL_IO, status);
            write_fails(index);
        } else {
            left = -1;
            HOLDS(writes > 60);
            is_sound(index, 2500);
        }
    }
}

/* One that waits for a scan is told that the index has stopped. */
static void stops_meanwhile(void) {
    nardsill_scan *scan;
    struct deleting one;
    nardsill *index = stood_on(&scan);
    IS(0, nardsill_set_patience(index, LONG));
    start(&one, index, rows, 1);
    wait_until(&waiting, 1);
    failing = EIO;
    IS(NARDSILL_IO, nardsill_commit(index, 0));
    IS(EIO, errno);
    failing = 0;
    ends(&one, NARDSILL_STOPPED, 0);
    nardsill_scan_close(scan);
    IS(NARDSILL_STOPPED, nardsill_close(index));
}

/* A thread that makes commits again and again, whose syncs take long, doesn't keep a vacuum out. */
struct committing {
    nardsill *index;
    atomic_uint is_over, threads, commits;
};

static void *commits(void *at) {
    struct committing *me = at;
    unsigned offset = 9 + me->threads++;
    for (unsigned i = 0; !me->is_over; i++) {
        unsigned char key[16];
        key_of(i, key);
        IS(0, nardsill_insert(me->index, key, 16, row_of(i, offset), 0));
        IS(0, nardsill_commit(me->index, 0));
        me->commits++;
    }
    return 0;
}

/* How many commits so many threads make, while a bulk delete of 800 leaves runs. */
static unsigned commits_beside(unsigned threads) {
    nardsill *index = made(PATH, &limits);
    struct committing committing = {.index = index};
    struct deleting one;
    pthread_t ids[4];
    fill(index, 20000, 1);
    slowness = 2000;
    for (unsigned i = 0; i < threads; i++) IS(0, pthread_create(ids + i, 0, commits, &committing));
    while (committing.commits < 3) usleep(100);
    unsigned before = committing.commits;
    start(&one, index, rows, 2000);
    ends(&one, 0, 2000);
    unsigned made = committing.commits - before;
    committing.is_over = 1;
    for (unsigned i = 0; i < threads; i++) pthread_join(ids[i], 0);
    slowness = 0;
    IS(0, nardsill_close(index));
    return made;
}

/* 800 leaves are 25 parts: between two of them each thread makes a call or two. Other work on the machine may keep one of them from that
   for a while: one of some runs is so. */
static void beside_commits(unsigned threads) {
    unsigned made = 0;
    for (int run = 0; run < 10 && (made < 2 || made >= 100 * threads); run++) made = commits_beside(threads);
    printf("vacuum: beside %u threads that commit: %u commits\n", threads, made);
    HOLDS(made >= 2 && made < 100 * threads);
}

static void *lets_ring(void *none) {
    usleep(50000);
    is_holding = 0;
    __real_pthread_cond_signal(held);
    return none;
}

/* A vacuum has let a call in, and comes late to the lock: other calls may go before it for a while, and stand aside then. Whether a call
   was let in: other work on the machine may keep it from the lock until the vacuum is over. */
static int is_let_in(void) {
    nardsill *index = made(PATH, &small_log);
    nardsill_details details = NARDSILL_DETAILS;
    struct deleting one;
    pthread_t thread;
    fill(index, 20000, 1);
    slowness = 2000;
    is_holding = 1;
    held = 0;
    start(&one, index, rows, 20000);
    while (!held && !one.is_over) IS(0, nardsill_info(index, &details));
    slowness = 0;
    int is_in = !!held;
    if (is_in) {
        usleep(5000);
        IS(0, pthread_create(&thread, 0, lets_ring, 0));
        IS(0, nardsill_info(index, &details));
        IS(0, is_holding);
        pthread_join(thread, 0);
    }
    is_holding = 0;
    ends(&one, 0, 20000);
    is_sound(index, 0);
    return is_in;
}

static void stands_aside(void) {
    int is_in = 0;
    for (int run = 0; run < 10 && !is_in; run++) is_in = is_let_in();
    HOLDS(is_in);
}

/* Threads that commit at once, round after round, before and while a vacuum runs. Each is let in: also who waited for others, and was
   told, or waited in vain. */
enum { COMMITTERS = 6 };

struct round {
    nardsill *index;
    pthread_barrier_t barrier;
    _Atomic uint64_t longest;
    atomic_uint threads;
};

static void commit_timed(struct round *round) {
    uint64_t begun = microseconds(), longest = round->longest;
    IS(0, nardsill_commit(round->index, 0));
    uint64_t took = microseconds() - begun;
    while (took > longest && !atomic_compare_exchange_weak(&round->longest, &longest, took)) continue;
}

static void *commits_in_rounds(void *at) {
    struct round *round = at;
    unsigned who = round->threads++;
    int is_last = 0;
    for (unsigned i = 0; i < 40; i++) {
        is_last = pthread_barrier_wait(&round->barrier);
        unsigned char key[16];
        key_of(i * COMMITTERS + who, key);
        IS(0, nardsill_insert(round->index, key, 16, row_of(i, 9 + who), 0));
        commit_timed(round);
        if (i % 5 < 4) continue;
        /* While the others wait for it here, one waits for them in vain. */
        pthread_barrier_wait(&round->barrier);
        if (is_last) commit_timed(round);
    }
    return 0;
}

/* Whether the longest commit took less than half as long as the vacuum. */
static int commits_are_short(void) {
    struct deleting one;
    pthread_t threads[COMMITTERS];
    struct round round = {.index = made(PATH, &limits)};
    fill(round.index, MANY, 1);
    IS(0, nardsill_checkpoint(round.index, 0));
    pthread_barrier_init(&round.barrier, 0, COMMITTERS);
    slowness = 2000;
    for (int i = 0; i < COMMITTERS; i++) IS(0, pthread_create(threads + i, 0, commits_in_rounds, &round));
    while (!round.longest) usleep(100);
    start(&one, round.index, rows, MANY);
    for (int i = 0; i < COMMITTERS; i++) pthread_join(threads[i], 0);
    slowness = 0;
    ends(&one, 0, MANY);
    pthread_barrier_destroy(&round.barrier);
    IS(0, nardsill_close(round.index));
    return round.longest * 2 < one.took;
}

static void lets_commits_in(void) {
    int are_short = 0;
    for (int run = 0; run < 5 && !are_short; run++) are_short = commits_are_short();
    HOLDS(are_short);
}

/* How long another thread's call waits, at most, while a bulk delete runs. */
struct informed {
    nardsill *index;
    atomic_uint is_over;
    uint64_t longest;
};

static void *informs(void *at) {
    struct informed *me = at;
    nardsill_details details = NARDSILL_DETAILS;
    while (!me->is_over) {
        uint64_t begun = microseconds();
        IS(0, nardsill_info(me->index, &details));
        uint64_t took = microseconds() - begun;
        if (took > me->longest) me->longest = took;
        usleep(20);
    }
    return 0;
}

/* Answers the longest wait, and tells how long the bulk delete took. */
static uint64_t longest_wait(const char *path, uint64_t *took) {
    alarm(60);
    nardsill *index = made(path, 0);
    struct informed informed = {.index = index};
    struct deleting one;
    pthread_t thread;
    fill(index, MANY, 1);
    IS(0, nardsill_checkpoint(index, 0));
    IS(0, pthread_create(&thread, 0, informs, &informed));
    start(&one, index, rows, MANY);
    ends(&one, 0, MANY);
    informed.is_over = 1;
    pthread_join(thread, 0);
    IS(0, nardsill_close(index));
    remove(path);
    *took = one.took;
    return informed.longest;
}

static void waits_are_short(void) {
    char path[64];
    snprintf(path, sizeof path, access("/dev/shm", W_OK) ? PATH : "/dev/shm/nardsill-vacuum-%d.idx", (int)getpid());
    uint64_t least = UINT64_MAX, took, of = 0;
    /* Other work on the machine makes a call wait too: the least of some rounds counts, and of many if it has to. */
    for (int round = 0; round < (IS_WATCHED ? 1 : 5) || (round < 40 && !(least < 20000 && least * 4 < of)); round++) {
        uint64_t longest = longest_wait(path, &took);
        if (longest < least) least = longest, of = took;
    }
    printf("vacuum: a call waits %llu us at most, beside a bulk delete of %d entries that takes %llu us\n", (unsigned long long)least, MANY,
           (unsigned long long)of);
    HOLDS(least < 20000 && least * 4 < of);
}

/* Threads that make all calls beside a bulk delete and a vacuum, with a judge. */
static struct {
    nardsill *index;
    atomic_uint is_over, is_gone, there[INSERTERS], scans, gets, commits;
} shared;

/* A key of 13 bytes that tells its entry. Those of one number stand beside each other, whether they are to be deleted or not. */
static void key_for(unsigned number, unsigned offset, unsigned char *key) {
    ordered_key(number, key);
    key[12] = (unsigned char)offset;
}

static void put(unsigned number, unsigned offset) {
    unsigned char key[16];
    key_for(number, offset, key);
    IS(0, nardsill_insert(shared.index, key, 13, row_of(number, offset), 0));
}

static void *inserts(void *at) {
    atomic_uint *there = at;
    while (!shared.is_over && *there < MANY) {
        put(*there, INSERTED + (unsigned)(there - shared.there));
        ++*there;
        if (*there % 16 == 0) usleep(100);
    }
    return 0;
}

static void *commits_too(void *none) {
    for (; !shared.is_over; usleep(500)) {
        IS(0, nardsill_commit(shared.index, 0));
        shared.commits++;
    }
    return none;
}

static void *looks_up(void *none) {
    unsigned char key[16];
    for (uint32_t dice = 1; !shared.is_over; dice = dice * 1664525u + 1013904223u) {
        unsigned number = (dice >> 8) % FEW, is_gone = shared.is_gone;
        nardsill_row row;
        key_for(number, LIVE, key);
        IS(0, nardsill_get(shared.index, key, 13, &row));
        HOLDS(row.block == number && row.offset == LIVE);
        key_for(number, DEAD, key);
        int status = nardsill_get(shared.index, key, 13, &row);
        HOLDS(status == NARDSILL_NOT_FOUND || (!status && !is_gone));
        if (++shared.gets % 16 == 0) usleep(100);
    }
    return none;
}

/* What a scan has given: the last key, and how many entries of each offset; of those inserted, how many that were there before it. */
struct given {
    unsigned char last[16];
    unsigned before[INSERTERS], counts[INSERTED + INSERTERS];
};

static void take_entry(struct given *given, const nardsill_entry *entry) {
    unsigned char key[16];
    unsigned offset = entry->row.offset, number = entry->row.block;
    HOLDS(entry->key_len == 13 && offset >= DEAD && offset < INSERTED + INSERTERS);
    key_for(number, offset, key);
    HOLDS(!memcmp(key, entry->key, 13) && memcmp(given->last, key, 13) < 0);
    memcpy(given->last, key, 13);
    given->counts[offset] += offset < INSERTED || number < given->before[offset - INSERTED];
}

static void scan_all(void) {
    nardsill_scan *scan;
    nardsill_entry few[64];
    size_t count;
    struct given given = {.last = {0}};
    unsigned is_gone = shared.is_gone;
    int status;
    for (int i = 0; i < INSERTERS; i++) given.before[i] = shared.there[i];
    IS(0, nardsill_scan_open(shared.index, 0, 0, 0, 0, &scan));
    do {
        status = nardsill_scan_read(scan, few, 64, &count);
        for (size_t i = 0; i < count; i++) take_entry(&given, few + i);
    } while (!status);
    IS(NARDSILL_DONE, status);
    nardsill_scan_close(scan);
    IS(FEW, given.counts[LIVE]);
    HOLDS(is_gone ? !given.counts[DEAD] : given.counts[DEAD] <= MANY);
    for (int i = 0; i < INSERTERS; i++) IS(given.before[i], given.counts[INSERTED + i]);
}

static void *scans(void *none) {
    for (; !shared.is_over; shared.scans++) scan_all();
    return none;
}

/* The vacuums, while the others run, and after them. */
static void vacuum_beside(void) {
    nardsill_stats stats = NARDSILL_STATS;
    name_rows(DEAD);
    IS(0, nardsill_delete_rows(shared.index, rows, MANY, &stats));
    IS(MANY, stats.removed);
    shared.is_gone = 1;
    usleep(100000);
    IS(0, nardsill_vacuum(shared.index, &stats));
    HOLDS(stats.entries >= FEW && !stats.removed);
}

static void beside_all(unsigned frames) {
    void *(*const works[])(void *) = {scans, scans, looks_up, commits_too, commits_too};
    enum { WORKS = sizeof works / sizeof *works };
    pthread_t threads[INSERTERS + WORKS];
    unsigned entries = FEW;
    shared.index = made(PATH, &limits);
    shared.is_over = shared.is_gone = 0;
    for (unsigned i = 0; i < MANY; i++) {
        put(i, DEAD);
        if (i < FEW) put(i, LIVE);
    }
    IS(0, nardsill_close(shared.index));
    IS(0, nardsill_open(PATH, frames, &shared.index));
    IS(0, nardsill_set_patience(shared.index, LONG));
    for (int i = 0; i < INSERTERS; i++) {
        shared.there[i] = 0;
        IS(0, pthread_create(threads + i, 0, inserts, shared.there + i));
    }
    for (int i = 0; i < WORKS; i++) IS(0, pthread_create(threads + INSERTERS + i, 0, works[i], 0));
    for (unsigned ticks = 0; !shared.there[0] || !shared.gets || !shared.commits; usleep(100)) HOLDS(++ticks < 300000);
    vacuum_beside();
    for (unsigned ticks = 0; !shared.scans; usleep(100)) HOLDS(++ticks < 300000);
    shared.is_over = 1;
    for (int i = 0; i < INSERTERS + WORKS; i++) pthread_join(threads[i], 0);
    scan_all();
    for (int i = 0; i < INSERTERS; i++) entries += shared.there[i];
    is_sound(shared.index, entries);
    printf("vacuum: beside %u entries inserted, %u scans, %u gets, %u commits\n", entries - FEW, shared.scans, shared.gets, shared.commits);
    HOLDS(entries > FEW && shared.scans && shared.gets && shared.commits);
}

int main(void) {
    name_rows(1);
    IN_A_MINUTE(refused_at_once());
    IN_A_MINUTE(waits_for(closes));
    IN_A_MINUTE(waits_for(restarts));
    IN_A_MINUTE(waits_for(reads_on));
    IN_A_MINUTE(patience_ends());
    IN_A_MINUTE(patience_begins_anew());
    IN_A_MINUTE(goes_before_scans());
    IN_A_MINUTE(many_scans());
    IN_A_MINUTE(in_turn());
    IN_A_MINUTE(at_once());
    IN_A_MINUTE(frees_its_rows());
    IN_A_MINUTE(writes_fail());
    IN_A_MINUTE(stops_meanwhile());
    IN_A_MINUTE(beside_commits(1));
    IN_A_MINUTE(beside_commits(4));
    IN_A_MINUTE(stands_aside());
    IN_A_MINUTE(lets_commits_in());
    waits_are_short();
    IN_A_MINUTE(beside_all(16));
    if (!IS_WATCHED) IN_A_MINUTE(beside_all(256));
    unlink(PATH);
    puts("vacuum: all is as it must be");
    return 0;
}
