/* Threads that insert, commit, scan, look up and delete for SECONDS on one handle, with a judge: long SECONDS
 *
 * Each inserter numbers its entries. Below `gone` its entries are deleted, from `gone` to `going` a bulk delete names them, from `going`
 * to `there` each of them is there. A scan must give those that were there throughout, once, in order, and none of the others that
 * never was there, or was gone when it began. */
#define _GNU_SOURCE
#include "testing.h"
#include <pthread.h>
#include <stdatomic.h>
#include <time.h>
#include <unistd.h>

#define PATH "long.idx"

enum { INSERTERS = 6, SCANNERS = 2, MOST = 20000, PART = 4000 };

struct inserter {
    _Atomic uint32_t gone, going, there, begun;
};

static struct inserter inserters[INSERTERS];
static nardsill *shared;
static atomic_int is_over;
static atomic_uint commits, scans, gets, deletes, blocked, vacuums;
static _Atomic uint64_t committed;

/* A key that tells its entry, behind four bytes that put it anywhere. */
static void key_for(uint32_t number, unsigned who, unsigned char *key) {
    key_of(number * INSERTERS + who, key);
    memcpy(key + 4, &number, 4);
    key[8] = (unsigned char)(who + 1);
}

/* A durable commit: it covers this action, and no later one is told less than an earlier one that had ended before. */
static void commit(uint64_t action) {
    uint64_t told, before = committed;
    IS(0, nardsill_commit(shared, &told));
    HOLDS(told >= action && told >= before);
    while (before < told && !atomic_compare_exchange_weak(&committed, &before, told)) {}
    commits++;
}

static void *inserts(void *at) {
    struct inserter *me = at;
    unsigned who = (unsigned)(me - inserters);
    unsigned char key[16];
    uint64_t action;
    while (!is_over) {
        uint32_t number = me->there;
        if (number - me->going > MOST) {
            usleep(1000);
            continue;
        }
        key_for(number, who, key);
        me->begun = number + 1;
        IS(0, nardsill_insert(shared, key, 16, row_of(number, 1 + who), &action));
        me->there = number + 1;
        /* Some commit each entry, some seldom, and one never does. */
        if (who && number % (who * who) == 0) commit(action);
    }
    return 0;
}

/* One entry of a scan: which it is, and that it may be there. */
static unsigned judge_entry(const nardsill_entry *entry, const uint32_t *gone) {
    unsigned char key[16];
    unsigned who = entry->row.offset - 1u;
    uint32_t number = entry->row.block;
    HOLDS(who < INSERTERS && entry->key_len == 16);
    key_for(number, who, key);
    HOLDS(!memcmp(key, entry->key, 16));
    HOLDS(number >= gone[who] && number < inserters[who].begun);
    return who;
}

/* A scan, from its beginning to its end: what was there and gone as it began, the last key, and the numbers that it gave. */
struct scanner {
    uint32_t gone[INSERTERS], there[INSERTERS], counts[INSERTERS];
    unsigned char last[16];
    uint32_t given[INSERTERS][MOST * 4];
};

static struct scanner scanners[SCANNERS];

static void take_entry(struct scanner *me, const nardsill_entry *entry) {
    unsigned who = judge_entry(entry, me->gone);
    HOLDS(memcmp(me->last, entry->key, 16) < 0 && me->counts[who] < MOST * 4);
    memcpy(me->last, entry->key, 16);
    me->given[who][me->counts[who]++] = entry->row.block;
}

/* It gave each entry that was there from its beginning to its end. */
static void judge_scan(const struct scanner *me) {
    for (unsigned who = 0; who < INSERTERS; who++) {
        uint32_t from = inserters[who].going, there = me->there[who], met = 0;
        for (unsigned i = 0; i < me->counts[who]; i++) met += me->given[who][i] >= from && me->given[who][i] < there;
        IS(there > from ? there - from : 0, met);
    }
}

static void scan_once(struct scanner *me) {
    nardsill_scan *scan;
    nardsill_entry few[64];
    size_t count;
    int status;
    memset(me, 0, offsetof(struct scanner, given));
    for (int i = 0; i < INSERTERS; i++) me->gone[i] = inserters[i].gone, me->there[i] = inserters[i].there;
    IS(0, nardsill_scan_open(shared, 0, 0, 0, 0, &scan));
    do {
        status = nardsill_scan_read(scan, few, 64, &count);
        for (size_t i = 0; i < count; i++) take_entry(me, few + i);
    } while (!status);
    IS(NARDSILL_DONE, status);
    nardsill_scan_close(scan);
    judge_scan(me);
    scans++;
}

static void *scan_and_rest(void *at) {
    while (!is_over) {
        scan_once(at);
        /* A bulk delete waits for open scans. */
        usleep(20000);
    }
    return 0;
}

static void *looks_up(void *none) {
    unsigned char key[16];
    for (uint32_t dice = 1; !is_over; dice = dice * 1664525u + 1013904223u) {
        unsigned who = dice >> 8 & 0xffff;
        struct inserter *one = inserters + (who %= INSERTERS);
        uint32_t from = one->going, there = one->there;
        if (from == there) continue;
        uint32_t number = from + (dice >> 4) % (there - from);
        nardsill_row row = {0, 0};
        key_for(number, who, key);
        int status = nardsill_get(shared, key, 16, &row);
        if (number < one->going) continue;
        IS(0, status);
        HOLDS(row.block == number && row.offset == 1 + who);
        gets++;
        if (gets % 64 == 0) usleep(1000);
    }
    return none;
}

/* Names the first entries of each inserter that has enough, and counts them. */
static size_t name_old(nardsill_row *rows) {
    size_t count = 0;
    for (unsigned who = 0; who < INSERTERS; who++) {
        struct inserter *one = inserters + who;
        uint32_t from = one->going, there = one->there;
        if (there - from < PART) continue;
        one->going = from + PART;
        for (uint32_t number = from; number < from + PART; number++) rows[count++] = row_of(number, 1 + who);
    }
    return count;
}

/* A bulk delete may be refused if a scan stands, and is made again. */
static void delete_until_done(const nardsill_row *rows, size_t count) {
    nardsill_stats stats = NARDSILL_STATS;
    uint64_t removed = 0;
    int status;
    while ((status = nardsill_delete_rows(shared, rows, count, &stats))) {
        IS(NARDSILL_BLOCKED, status);
        HOLDS(nardsill_last_fault()->page);
        blocked++;
        usleep(2000);
    }
    removed = stats.removed;
    HOLDS(removed <= count);
    deletes++;
}

static void *deletes_old(void *none) {
    static nardsill_row rows[INSERTERS * PART];
    while (!is_over) {
        size_t count = name_old(rows);
        if (!count) {
            usleep(1000);
            continue;
        }
        delete_until_done(rows, count);
        for (unsigned who = 0; who < INSERTERS; who++) inserters[who].gone = inserters[who].going;
        int status = nardsill_vacuum(shared, 0);
        HOLDS(!status || status == NARDSILL_BLOCKED);
        vacuums += !status;
    }
    return none;
}

static void *commits_only(void *none) {
    while (!is_over) {
        commit(0);
        usleep(500);
    }
    return none;
}

/* All entries that are there, and no others, also behind another opening. */
static void judge_end(void) {
    uint64_t entries = 0;
    nardsill_report report = NARDSILL_REPORT;
    IS(0, nardsill_close(shared));
    IS(0, nardsill_check(PATH, 0, &report));
    IS(0, report.damage);
    for (int i = 0; i < INSERTERS; i++) entries += inserters[i].there - inserters[i].gone;
    IS(entries, report.entries);
    IS(0, nardsill_open(PATH, 256, &shared));
    scan_once(scanners);
    IS(0, nardsill_close(shared));
}

int main(int argc, char **argv) {
    unsigned seconds = argc > 1 ? (unsigned)atoi(argv[1]) : 5;
    const nardsill_limits limits = {sizeof limits, 50, 32768, 1 << 22, 0};
    pthread_t threads[INSERTERS + SCANNERS + 3];
    unsigned count = 0;
    alarm(seconds + 60);
    unlink(PATH);
    IS(0, nardsill_create(PATH, &limits));
    IS(0, nardsill_open(PATH, 256, &shared));
    for (int i = 0; i < INSERTERS; i++) IS(0, pthread_create(threads + count++, 0, inserts, inserters + i));
    for (int i = 0; i < SCANNERS; i++) IS(0, pthread_create(threads + count++, 0, scan_and_rest, scanners + i));
    IS(0, pthread_create(threads + count++, 0, looks_up, 0));
    IS(0, pthread_create(threads + count++, 0, deletes_old, 0));
    IS(0, pthread_create(threads + count++, 0, commits_only, 0));
    /* On a busy machine it lasts until each call was made. */
    for (unsigned i = 0; i < seconds * 10 || !commits || !scans || !gets || !deletes; i++) {
        usleep(100000);
        if (i % 50 == 49) IS(0, nardsill_checkpoint(shared, 0));
    }
    is_over = 1;
    for (unsigned i = 0; i < count; i++) pthread_join(threads[i], 0);
    judge_end();
    uint64_t inserted = 0;
    for (int i = 0; i < INSERTERS; i++) inserted += inserters[i].there;
    fprintf(stderr, "long: %llu inserts, %u commits, %u scans, %u gets, %u bulk deletes (refused %u times), %u vacuums\n",
            (unsigned long long)inserted, commits, scans, gets, deletes, blocked, vacuums);
    HOLDS(inserted && commits && scans && gets && deletes);
    unlink(PATH);
    puts("long: all is as it must be");
    return 0;
}
