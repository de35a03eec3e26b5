/* Commits of many threads: what each is told, how many syncs they share, and what they wait for. */
#define _GNU_SOURCE
#include "testing.h"
#include <pthread.h>
#include <semaphore.h>
#include <signal.h>
#include <stdatomic.h>
#include <sys/types.h>
#include <sys/wait.h>
#include <time.h>
#include <unistd.h>

#define PATH "commits.idx"
#define OTHER "commits-other.idx"

enum { MOST_THREADS = 32, MOST_ACTIONS = 20000 };

/* The thread sanitizer knows no process with threads that is forked. */
#ifdef __SANITIZE_THREAD__
enum { IS_WATCHED = 1 };
#else
enum { IS_WATCHED = 0 };
#endif

static const nardsill_limits limits = {sizeof limits, 50, 4096, 1 << 22, 0};

/* The syncs that were made, and from which on they fail, with which number; 0 for never. How long each takes beside, in microseconds. */
static atomic_uint syncs;
static unsigned failing;
static int why;
static unsigned slowness;
/* On which sync one waits until it is let go; 0 for none. Whether each write does. */
static atomic_uint held_sync;
static atomic_int is_write_held;
/* The waits that calls made, those that wait now, and the longest that one was ready to wait. Threads of no committer aren't counted. */
static atomic_uint waits, waiting;
static uint64_t longest;
static _Thread_local int is_beside;
/* Whether waits with an end last until they are rung. */
static atomic_int is_held;
/* Whether a sync runs, or a write that is held. A thread that finds the lock taken is kept from it, and whether it is there. One that was
   woken comes late to the lock. */
static atomic_int is_syncing, is_kept, is_there, is_late;
static pthread_t kept;

int __real_fdatasync(int fd);
int __real_fsync(int fd);
ssize_t __real_pwrite(int fd, const void *from, size_t count, off_t at);
int __real_pthread_mutex_lock(pthread_mutex_t *lock);
int __real_pthread_cond_wait(pthread_cond_t *bell, pthread_mutex_t *lock);
int __real_pthread_cond_timedwait(pthread_cond_t *bell, pthread_mutex_t *lock, const struct timespec *until);

/* What stood where bytes were written that aren't synced: a crash may bring it back. */
struct written {
    struct written *before;
    off_t at;
    size_t count;
    char was[];
};

static struct written *unsynced;

static void forget_unsynced(void) {
    while (unsynced) {
        struct written *one = unsynced;
        unsynced = one->before;
        free(one);
    }
}

/* The file as a crash may leave it, without each write that wasn't synced. */
static void crash(const char *path) {
    FILE *file = fopen(path, "r+");
    HOLDS(file);
    for (struct written *one = unsynced; one; one = one->before) IS(one->count, pwrite(fileno(file), one->was, one->count, one->at));
    fclose(file);
    forget_unsynced();
}

/* A tenth of a millisecond: none of the tests waits for 100,000 of them. */
static void tick(unsigned *ticks) {
    HOLDS(++*ticks < 100000);
    usleep(100);
}

/* A write has come to nothing. The system tells each open file of it once: descriptors that were told. The first is held until it is let
   go. (Each open file has one descriptor that syncs.) */
enum { MOST_FILES = 1024 };
static atomic_int is_lost, is_told_held, is_told[MOST_FILES];

/* Whether a sync is told now of the write that came to nothing. */
static int is_told_now(int fd) {
    unsigned ticks = 0;
    HOLDS(fd < MOST_FILES);
    if (!is_lost || is_told[fd]++) return 0;
    if (is_lost++ == 1) {
        while (is_told_held) tick(&ticks);
    }
    return 1;
}

static int sync_by(int (*real)(int), int fd) {
    unsigned number = ++syncs, ticks = 0;
    is_syncing = 1;
    if (slowness) usleep(slowness);
    while (held_sync == number) tick(&ticks);
    is_syncing = 0;
    if (is_told_now(fd)) {
        errno = EIO;
        return -1;
    }
    if (failing && number >= failing) {
        errno = why;
        return -1;
    }
    int status = real(fd);
    if (!status) forget_unsynced();
    return status;
}

int __wrap_fdatasync(int fd) { return sync_by(__real_fdatasync, fd); }

int __wrap_fsync(int fd) { return sync_by(__real_fsync, fd); }

ssize_t __wrap_pwrite(int fd, const void *from, size_t count, off_t at) {
    if (failing) {
        struct written *one = malloc(sizeof *one + count);
        HOLDS(one);
        *one = (struct written){unsynced, at, count};
        memset(one->was, 0, count);
        HOLDS(pread(fd, one->was, count, at) >= 0);
        unsynced = one;
    }
    if (is_write_held) {
        unsigned ticks = 0;
        is_syncing = 1;
        while (is_write_held) tick(&ticks);
        is_syncing = 0;
    }
    return __real_pwrite(fd, from, count, at);
}

int __wrap_pthread_mutex_lock(pthread_mutex_t *lock) {
    if (is_kept && pthread_equal(kept, pthread_self())) {
        is_there = 1;
        while (is_kept) usleep(100);
    }
    return __real_pthread_mutex_lock(lock);
}

int __wrap_pthread_cond_wait(pthread_cond_t *bell, pthread_mutex_t *lock) {
    if (is_beside) return __real_pthread_cond_wait(bell, lock);
    waits++;
    waiting++;
    int status = __real_pthread_cond_wait(bell, lock);
    if (is_late && pthread_equal(kept, pthread_self())) {
        pthread_mutex_unlock(lock);
        while (is_late) usleep(100);
        __real_pthread_mutex_lock(lock);
    }
    waiting--;
    return status;
}

static uint64_t nanoseconds(void) {
    struct timespec now;
    clock_gettime(CLOCK_MONOTONIC, &now);
    return (uint64_t)now.tv_sec * 1000000000u + (uint64_t)now.tv_nsec;
}

int __wrap_pthread_cond_timedwait(pthread_cond_t *bell, pthread_mutex_t *lock, const struct timespec *until) {
    struct timespec end = *until;
    uint64_t now = nanoseconds(), at = (uint64_t)end.tv_sec * 1000000000u + (uint64_t)end.tv_nsec;
    if (at > now && at - now > longest) longest = at - now;
    HOLDS(longest < 1000000000u);
    if (is_held) end.tv_sec += 30;
    waits++;
    waiting++;
    int status = __real_pthread_cond_timedwait(bell, lock, &end);
    waiting--;
    return status;
}

static void wait_until(unsigned waiters) {
    for (unsigned ticks = 0; waiting != waiters;) tick(&ticks);
}

static void wait_for(sem_t *done) {
    for (unsigned ticks = 0; sem_trywait(done);) tick(&ticks);
}

/* A thread that inserts an entry and commits, each time that it is sent; or makes another call. */
struct committer {
    pthread_t thread;
    sem_t go, done;
    nardsill *index;
    int (*does)(nardsill *);
    unsigned who, sent;
    int is_over, inserts_alone, inserted, status, error;
    nardsill_fault fault;
    uint64_t action, told;
};

static int insert_next(nardsill *index, unsigned who, unsigned at, uint64_t *action) {
    unsigned char key[16];
    key_of(at * MOST_THREADS + who, key);
    return nardsill_insert(index, key, 16, row_of(at, 1 + who), action);
}

static void *commits_when_sent(void *at) {
    struct committer *me = at;
    for (;;) {
        sem_wait(&me->go);
        if (me->is_over) return 0;
        if (!me->does) me->inserted = insert_next(me->index, me->who, me->sent++, &me->action);
        errno = 77;
        me->told = me->action;
        me->status = me->does ? me->does(me->index) : me->inserts_alone ? 0 : nardsill_commit(me->index, &me->told);
        me->error = errno;
        me->fault = *nardsill_last_fault();
        sem_post(&me->done);
    }
}

static void start(struct committer *all, unsigned count, nardsill *index) {
    for (unsigned i = 0; i < count; i++) {
        all[i] = (struct committer){.index = index, .who = i};
        sem_init(&all[i].go, 0, 0);
        sem_init(&all[i].done, 0, 0);
        IS(0, pthread_create(&all[i].thread, 0, commits_when_sent, all + i));
    }
}

static void send(struct committer *one) { sem_post(&one->go); }

/* Its commit was answered with success, and covers what it inserted before. */
static void judge(const struct committer *one) {
    IS(0, one->inserted);
    IS(0, one->status);
    IS(77, one->error);
    HOLDS(one->told >= one->action);
}

static void succeeded(struct committer *one) {
    wait_for(&one->done);
    judge(one);
}

/* Whether its commit waits; else it has succeeded. */
static int waits_or_ends(struct committer *one) {
    for (unsigned ticks = 0; !waiting;) {
        tick(&ticks);
        if (sem_trywait(&one->done)) continue;
        judge(one);
        return 0;
    }
    return 1;
}

static void stop(struct committer *all, unsigned count) {
    for (unsigned i = 0; i < count; i++) {
        all[i].is_over = 1;
        sem_post(&all[i].go);
        pthread_join(all[i].thread, 0);
        sem_destroy(&all[i].go);
        sem_destroy(&all[i].done);
    }
}

/* The first commit waits for others as long as the last call took. So long a busy machine keeps no thread from beginning to wait. */
enum { LONG_ENOUGH = 10000 };

/* Lets these committers share one call: each of them is then expected at the next. */
static void share(struct committer *all, unsigned count) {
    unsigned was = slowness;
    if (slowness < LONG_ENOUGH) slowness = LONG_ENOUGH;
    is_held = 1;
    send(all);
    succeeded(all);
    for (unsigned i = 1; i < count; i++) {
        send(all + i);
        wait_until(i);
    }
    unsigned before = syncs;
    send(all);
    for (unsigned i = 0; i < count; i++) succeeded(all + i);
    IS(2, syncs - before);
    is_held = 0;
    slowness = was;
}

/* Who commits alone waits for nobody: not for a thread that scans, and not on either of two indexes. */
struct beside {
    nardsill *index;
    atomic_int is_over;
    unsigned who;
    atomic_uint count;
};

static void *inserts(void *at) {
    struct beside *me = at;
    is_beside = 1;
    for (; !me->is_over && me->count < MOST_ACTIONS; me->count++) IS(0, insert_next(me->index, me->who, me->count, 0));
    return 0;
}

static void *scans(void *at) {
    struct beside *me = at;
    is_beside = 1;
    while (!me->is_over) counted(me->index);
    return 0;
}

static void commits_a_hundred(nardsill *index, unsigned from) {
    uint64_t action, told;
    for (unsigned i = from; i < from + 100; i++) {
        IS(0, insert_next(index, 0, i, &action));
        IS(0, nardsill_commit(index, &told));
        HOLDS(told >= action);
    }
}

static void alone(void) {
    nardsill *indexes[2] = {made(PATH, &limits), made(OTHER, &limits)};
    uint64_t action, told;
    syncs = waits = 0;
    for (unsigned i = 0; i < 100; i++) {
        for (int k = 0; k < 2; k++) {
            IS(0, insert_next(indexes[k], 0, i, &action));
            IS(0, nardsill_commit(indexes[k], &told));
            HOLDS(told >= action);
        }
    }
    IS(400, syncs);
    /* Nothing is forced if nothing was done. */
    IS(0, nardsill_commit(indexes[0], 0));
    IS(400, syncs);
    struct beside beside[2] = {{.index = indexes[0], .who = 1}, {.index = indexes[0], .who = 2}};
    pthread_t threads[2];
    IS(0, pthread_create(threads, 0, scans, beside));
    commits_a_hundred(indexes[0], 100);
    IS(0, waits);
    /* One that inserts beside goes on too, as often as it has come. */
    IS(0, pthread_create(threads + 1, 0, inserts, beside + 1));
    for (unsigned from = 200; from < 300 || beside[1].count <= 50; from += 100) {
        HOLDS(from < MOST_ACTIONS);
        commits_a_hundred(indexes[0], from);
    }
    for (int k = 0; k < 2; k++) beside[k].is_over = 1;
    for (int k = 0; k < 2; k++) pthread_join(threads[k], 0);
    for (int k = 0; k < 2; k++) IS(0, nardsill_close(indexes[k]));
    unlink(OTHER);
}

/* A child whose calls of the parent's handle are refused, at once, and which closes this scan of it. */
static void fork_one(nardsill *index, nardsill_scan *scan) {
    int status;
    if (IS_WATCHED) return;
    pid_t child = fork();
    if (!child) {
        alarm(20);
        nardsill_scan_close(scan);
        _exit(nardsill_commit(index, 0) != NARDSILL_FORKED || nardsill_close(index) != NARDSILL_FORKED);
    }
    waitpid(child, &status, 0);
    IS(0, status);
}

static int checkpoints(nardsill *index) { return nardsill_checkpoint(index, 0); }

static int vacuums(nardsill *index) { return nardsill_vacuum(index, 0); }

static int deletes(nardsill *index) { return nardsill_delete_rows(index, (nardsill_row[]){{77, 7}}, 1, 0); }

/* Until the one that was sent last waits: it isn't over before. */
static void is_kept_waiting(struct committer *one) {
    for (unsigned ticks = 0; waiting != 1; tick(&ticks)) HOLDS(sem_trywait(&one->done));
}

/* While a commit makes its first sync, or its second one, calls that read go on. One that inserts, or does this, waits for its end. */
static void beside_a_sync(unsigned held, int (*does)(nardsill *)) {
    nardsill *index = made(PATH, &limits);
    struct committer all[2];
    nardsill_details details = NARDSILL_DETAILS;
    nardsill_row row;
    unsigned char key[16];
    unsigned ticks = 0;
    start(all, 2, index);
    all[1].does = does;
    send(all);
    succeeded(all);
    key_of(0, key);
    held_sync = syncs + held;
    send(all);
    while (!is_syncing || syncs != held_sync) tick(&ticks);
    for (int i = 0; i < 100; i++) {
        IS(0, nardsill_get(index, key, 16, &row));
        IS(2, counted(index));
        IS(0, nardsill_info(index, &details));
    }
    send(all + 1);
    is_kept_waiting(all + 1);
    IS(2, counted(index));
    HOLDS(sem_trywait(&all[0].done) && sem_trywait(&all[1].done));
    fork_one(index, 0);
    held_sync = 0;
    succeeded(all);
    succeeded(all + 1);
    IS(does ? 2 : 3, counted(index));
    stop(all, 2);
    IS(0, nardsill_close(index));
}

static int informs(nardsill *index) {
    nardsill_details details = NARDSILL_DETAILS;
    return nardsill_info(index, &details);
}

/* A commit that has synced goes before calls that come, which else might keep it from the lock one after the other. */
static void before_readers(void) {
    nardsill *index = made(PATH, &limits);
    struct committer all[2];
    unsigned ticks = 0;
    start(all, 2, index);
    all[1].does = informs;
    send(all);
    succeeded(all);
    held_sync = syncs + 1;
    send(all);
    while (!is_syncing || syncs != held_sync) tick(&ticks);
    /* Its next lock is the handle's, which it comes back for. */
    kept = all[0].thread;
    is_there = 0;
    is_kept = 1;
    held_sync = 0;
    while (!is_there) tick(&ticks);
    send(all + 1);
    is_kept_waiting(all + 1);
    is_kept = 0;
    succeeded(all);
    succeeded(all + 1);
    stop(all, 2);
    IS(0, nardsill_close(index));
}

/* One that inserts beside a thread that commits again and again waits for a commit's syncs, and goes on before those of the next one. */
static void before_the_next(void) {
    nardsill *index = made(PATH, &limits);
    struct committer all[2];
    start(all, 2, index);
    all[1].inserts_alone = 1;
    kept = all[1].thread;
    for (int round = 0; round < 20; round++) {
        unsigned ticks = 0, first = syncs + 1;
        held_sync = first;
        send(all);
        send(all);
        while (!is_syncing || syncs != first) tick(&ticks);
        send(all + 1);
        wait_until(1);
        is_late = 1;
        held_sync = first + 2;
        /* Though it comes late, the next commit waits for it. */
        while (waiting != 2) {
            tick(&ticks);
            HOLDS(syncs < first + 2);
        }
        is_late = 0;
        succeeded(all + 1);
        wait_for(&all[0].done);
        while (!is_syncing || syncs != first + 2) tick(&ticks);
        HOLDS(sem_trywait(&all[0].done));
        held_sync = 0;
        succeeded(all);
    }
    IS(60, counted(index));
    stop(all, 2);
    IS(0, nardsill_close(index));
}

/* An index with more pages than frames, to which entries are added, each after a lookup of it, up to this one, or to the first whose lookup
   syncs: each page that is in memory has changed then, so that one of them has to be written. Answers which one it is. */
static unsigned fill_until(nardsill *index, unsigned stop) {
    nardsill_row row;
    unsigned char key[16];
    for (unsigned i = 0; i < 6000; i++) IS(0, insert_next(index, 9, i, 0));
    IS(0, nardsill_commit(index, 0));
    for (unsigned i = 6000; i < stop; i++) {
        unsigned before = syncs;
        key_of(i * MOST_THREADS + 9, key);
        IS(NARDSILL_NOT_FOUND, nardsill_get(index, key, 16, &row));
        if (syncs != before) return i;
        IS(0, insert_next(index, 9, i, 0));
    }
    return stop;
}

static void *commits_once(void *at) {
    struct committer *me = at;
    errno = 77;
    me->status = nardsill_commit(me->index, &me->told);
    me->error = errno;
    return 0;
}

/* A write came to nothing, and a commit's sync is told of it. Before the commit knows, one that reads must force: it is told too, by an
   open file of its own. No commit succeeds behind that. */
static void told_apart(void) {
    nardsill *index = made(PATH, &limits);
    struct committer one = {0};
    nardsill_row row;
    unsigned char key[16];
    unsigned at = fill_until(index, MOST_ACTIONS);
    HOLDS(at < MOST_ACTIONS);
    IS(0, nardsill_close(index));
    one.index = index = made(PATH, &limits);
    IS(at, fill_until(index, at));
    is_told_held = is_lost = 1;
    IS(0, pthread_create(&one.thread, 0, commits_once, &one));
    for (unsigned ticks = 0; is_lost < 2;) tick(&ticks);
    key_of(at * MOST_THREADS + 9, key);
    IS(NARDSILL_IO, nardsill_get(index, key, 16, &row));
    is_told_held = 0;
    pthread_join(one.thread, 0);
    IS(NARDSILL_IO, one.status);
    IS(EIO, one.error);
    HOLDS(nardsill_commit(index, 0) && nardsill_checkpoint(index, 0));
    HOLDS(nardsill_close(index));
    is_lost = 0;
    memset(is_told, 0, sizeof is_told);
}

/* A commit waits for those of the last call, and meanwhile other calls go on, and forks. */
static void meanwhile(void) {
    nardsill *index = made(PATH, &limits);
    struct committer all[3];
    nardsill_row row;
    unsigned char key[16];
    start(all, 3, index);
    share(all, 3);
    unsigned entries = counted(index), before = syncs;
    is_held = 1;
    send(all);
    send(all + 1);
    wait_until(2);
    IS(0, insert_next(index, 9, 9, 0));
    key_of(9 * MOST_THREADS + 9, key);
    IS(0, nardsill_get(index, key, 16, &row));
    IS(entries + 3, counted(index));
    IS(before, syncs);
    fork_one(index, 0);
    /* A thread isn't cancelled where it waits. */
    pthread_cancel(all[1].thread);
    usleep(1000);
    IS(2, waiting);
    send(all + 2);
    succeeded(all);
    succeeded(all + 2);
    IS(before + 2, syncs);
    void *ended;
    pthread_join(all[1].thread, &ended);
    HOLDS(ended == PTHREAD_CANCELED);
    is_held = 0;
    stop(all, 1);
    stop(all + 2, 1);
    IS(0, nardsill_close(index));
}

/* Who commits no more is waited for once: as long as the last call took, and 20 ms at most. */
static void stopped(void) {
    nardsill *index = made(PATH, &limits);
    struct committer all[2];
    start(all, 2, index);
    slowness = 50000;
    longest = 0;
    /* Other work on the machine may begin its wait late: the longest of some counts. */
    for (int i = 0; i < 20 && longest <= 10000000; i++) {
        share(all, 2);
        longest = 0;
        send(all);
        succeeded(all);
        HOLDS(longest <= 20000000);
    }
    HOLDS(longest > 10000000);
    waits = 0;
    slowness = 1000;
    for (int i = 0; i < 20; i++) {
        send(all);
        succeeded(all);
    }
    IS(0, waits);
    slowness = 0;
    stop(all, 2);
    IS(0, nardsill_close(index));
}

/* Two threads commit in turn, by a lock of their own: how often one waits for the other. It is as long as a call takes at most. */
static unsigned waits_in_turn(struct committer *all) {
    waits = 0;
    uint64_t before = 0;
    for (int i = 0; i < 200; i++) {
        uint64_t begun = nanoseconds();
        longest = 0;
        send(all + i % 2);
        succeeded(all + i % 2);
        /* The call before took less than its commit. */
        HOLDS(longest <= before);
        before = nanoseconds() - begun;
    }
    return waits;
}

/* Threads that commit in turn wait for each other seldom. */
static void in_turn(void) {
    struct committer all[2];
    unsigned found = 0;
    slowness = 1000;
    /* The second one waits, and the next behind 1, 3, 7, 15, 31, 63 and 63 that don't. Other work on the machine may end a wait before it
       is begun: the most of some runs counts. */
    for (int run = 0; run < 10 && found < 8; run++) {
        nardsill *index = made(PATH, &limits);
        start(all, 2, index);
        found = waits_in_turn(all);
        HOLDS(found < 12);
        stop(all, 2);
        IS(0, nardsill_close(index));
    }
    HOLDS(found >= 8);
    slowness = 0;
}

/* Where such threads come together again, they share again. */
static void together_again(void) {
    nardsill *index = made(PATH, &limits);
    struct committer all[2];
    start(all, 2, index);
    waits_in_turn(all);
    slowness = LONG_ENOUGH;
    is_held = 1;
    int who = 0;
    for (send(all); !waits_or_ends(all + who); send(all + who)) who = !who;
    for (int i = 0; i < 3; i++) {
        unsigned made = syncs;
        send(all + !who);
        for (int k = 0; k < 2; k++) succeeded(all + k);
        IS(made + 2, syncs);
        send(all + who);
        wait_until(1);
    }
    is_held = 0;
    send(all + !who);
    for (int k = 0; k < 2; k++) succeeded(all + k);
    slowness = 0;
    stop(all, 2);
    IS(0, nardsill_close(index));
}

/* A commit waits for a committer that waits for the lock: else that may never get it from one that commits again and again. */
static void at_the_lock(void) {
    nardsill *index = made(PATH, &limits);
    struct committer all[2];
    nardsill_scan *scan;
    unsigned ticks = 0;
    start(all, 2, index);
    for (int i = 1; i >= 0; i--) {
        send(all + i);
        succeeded(all + i);
    }
    IS(0, nardsill_scan_open(index, 0, 0, 0, 0, &scan));
    slowness = LONG_ENOUGH;
    is_write_held = 1;
    send(all);
    while (!is_syncing) tick(&ticks);
    /* A thread has the lock: a child has no use of it. */
    fork_one(index, scan);
    kept = all[1].thread;
    is_there = 0;
    is_kept = 1;
    send(all + 1);
    while (!is_there) tick(&ticks);
    is_write_held = 0;
    succeeded(all);
    waits = 0;
    is_held = 1;
    send(all);
    wait_until(1);
    is_kept = 0;
    succeeded(all + 1);
    succeeded(all);
    is_held = 0;
    slowness = 0;
    HOLDS(waits);
    nardsill_scan_close(scan);
    stop(all, 2);
    IS(0, nardsill_close(index));
}

/* A failure is told to each whose actions the call was to cover. */
static void failed(int error) {
    nardsill *index = made(PATH, &limits);
    struct committer all[4];
    nardsill_details details = NARDSILL_DETAILS;
    start(all, 4, index);
    share(all, 4);
    is_held = 1;
    for (int i = 0; i < 3; i++) {
        send(all + i);
        wait_until((unsigned)i + 1);
    }
    why = error;
    failing = 1;
    send(all + 3);
    for (int i = 0; i < 4; i++) {
        wait_for(&all[i].done);
        IS(NARDSILL_IO, all[i].status);
        IS(error, all[i].error);
        IS(NARDSILL_IO, all[i].fault.status);
        IS(error, all[i].fault.error);
        HOLDS(!all[i].fault.page && !all[i].fault.row.block && !all[i].fault.row.offset);
        /* What it would tell stays as it was. */
        IS(all[i].action, all[i].told);
    }
    failing = 0;
    is_held = 0;
    IS(0, nardsill_info(index, &details));
    IS(1, details.stopped);
    for (int i = 0; i < 4; i++) send(all + i);
    for (int i = 0; i < 4; i++) {
        wait_for(&all[i].done);
        IS(NARDSILL_STOPPED, all[i].inserted);
        IS(NARDSILL_STOPPED, all[i].status);
        IS(NARDSILL_STOPPED, all[i].fault.status);
    }
    stop(all, 4);
    IS(NARDSILL_STOPPED, nardsill_close(index));
    forget_unsynced();
}

/* Threads that insert and commit, again and again, to an end or to a refusal. */
struct worker {
    nardsill *index;
    unsigned who, count, rests;
    uint64_t told;
};

/* The entry that an action has inserted: its thread and its number there. */
static struct { unsigned who, at; int is_there; } entries[MOST_ACTIONS];

static void *works(void *at) {
    struct worker *me = at;
    for (unsigned i = 0; i < me->count; i++) {
        uint64_t action, told = 0;
        int status = insert_next(me->index, me->who, i, &action);
        if (status) {
            HOLDS(failing && status == NARDSILL_STOPPED);
            return 0;
        }
        HOLDS(action > 0 && action < MOST_ACTIONS);
        entries[action].who = me->who;
        entries[action].at = i;
        entries[action].is_there = 1;
        if (me->rests && (i + me->who) % me->rests == 0) usleep(2000);
        status = nardsill_commit(me->index, &told);
        if (status) {
            HOLDS(failing && (status == NARDSILL_STOPPED || (status == NARDSILL_IO && errno == why && nardsill_last_fault()->error == why)));
            IS(status, nardsill_last_fault()->status);
            return 0;
        }
        HOLDS(told >= action);
        me->told = told;
    }
    return 0;
}

/* Runs so many threads with so many commits each. Answers up to which action one of them was told that all is durable. */
static uint64_t run(nardsill *index, unsigned threads, unsigned count, unsigned rests) {
    struct worker workers[MOST_THREADS];
    pthread_t ids[MOST_THREADS];
    uint64_t told = 0;
    memset(entries, 0, sizeof entries);
    for (unsigned i = 0; i < threads; i++) {
        workers[i] = (struct worker){index, i, count, rests, 0};
        IS(0, pthread_create(ids + i, 0, works, workers + i));
    }
    for (unsigned i = 0; i < threads; i++) {
        pthread_join(ids[i], 0);
        if (workers[i].told > told) told = workers[i].told;
    }
    return told;
}

/* A new index which writes no page home before its end: that would take syncs too. */
static nardsill *made_wide(void) {
    static const nardsill_limits wide = {sizeof wide, 50, 4096, 1 << 24, 0};
    nardsill *index;
    unlink(PATH);
    IS(0, nardsill_create(PATH, &wide));
    IS(0, nardsill_open(PATH, 1024, &index));
    return index;
}

/* The syncs of so many threads, by 100 commits. Other work on the machine may part them: the best of some runs counts. In each of them a
   sync takes longer, so that a thread that the machine holds up has time to come. */
static void shared(unsigned threads, unsigned most_commits, unsigned rests, unsigned most) {
    unsigned best = 1000;
    for (unsigned i = 0; i < 10 && best > most; i++) {
        nardsill *index = made_wide();
        unsigned count = i ? most_commits / 5 : most_commits;
        slowness = 1000 * i;
        syncs = 0;
        HOLDS(run(index, threads, count, rests) >= threads * count);
        unsigned found = (100 * syncs + threads * count - 1) / (threads * count);
        if (found < best) best = found;
        IS(threads * count, counted(index));
        slowness = 0;
        IS(0, nardsill_close(index));
    }
    printf("commits: %u threads%s: %u syncs by 100 commits\n", threads, rests ? " that rest" : "", best);
    HOLDS(best <= most || IS_WATCHED);
}

/* Syncs fail from one on, while eight threads commit: what was told as durable is there behind a crash, and nobody waits for ever. */
static void failing_beside_others(unsigned from) {
    nardsill *index = made(PATH, &limits);
    unsigned char key[16];
    nardsill_row row;
    syncs = 0;
    why = EIO;
    failing = from;
    uint64_t told = run(index, 8, 1000, 0);
    HOLDS(syncs >= from);
    failing = 0;
    HOLDS(told < MOST_ACTIONS);
    IS(NARDSILL_STOPPED, nardsill_close(index));
    crash(PATH);
    IS(0, nardsill_open(PATH, 64, &index));
    for (uint64_t i = 1; i <= told; i++) {
        /* A split is an action too. */
        if (!entries[i].is_there) continue;
        key_of(entries[i].at * MOST_THREADS + entries[i].who, key);
        IS(0, nardsill_get(index, key, 16, &row));
        HOLDS(row.block == entries[i].at && row.offset == 1 + entries[i].who);
    }
    IS(0, nardsill_close(index));
}

/* Children of a process whose threads commit: their calls are refused, and the parent's go on. */
static void forks_beside_commits(void) {
    nardsill *index = made(PATH, &limits);
    struct worker workers[4];
    pthread_t ids[4];
    for (unsigned i = 0; i < 4; i++) {
        workers[i] = (struct worker){index, i, 200, 0, 0};
        IS(0, pthread_create(ids + i, 0, works, workers + i));
    }
    for (int i = 0; i < 30; i++) fork_one(index, 0);
    for (unsigned i = 0; i < 4; i++) pthread_join(ids[i], 0);
    IS(800, counted(index));
    IS(0, nardsill_close(index));
}

int main(void) {
    IN_A_MINUTE(alone());
    for (unsigned held = 1; held <= 2; held++) {
        IN_A_MINUTE(beside_a_sync(held, 0));
        IN_A_MINUTE(beside_a_sync(held, checkpoints));
        IN_A_MINUTE(beside_a_sync(held, vacuums));
        IN_A_MINUTE(beside_a_sync(held, deletes));
    }
    IN_A_MINUTE(before_readers());
    IN_A_MINUTE(before_the_next());
    IN_A_MINUTE(told_apart());
    IN_A_MINUTE(meanwhile());
    IN_A_MINUTE(stopped());
    IN_A_MINUTE(in_turn());
    IN_A_MINUTE(together_again());
    IN_A_MINUTE(at_the_lock());
    IN_A_MINUTE(failed(EIO));
    IN_A_MINUTE(failed(ENOSPC));
    IN_A_MINUTE(shared(8, 300, 0, 30));
    IN_A_MINUTE(shared(32, 300, 0, 8));
    IN_A_MINUTE(shared(8, 300, 20, 40));
    for (unsigned from = 1; from < 40; from += 3) IN_A_MINUTE(failing_beside_others(from));
    IN_A_MINUTE(forks_beside_commits());
    unlink(PATH);
    puts("commits: all is as it must be");
    return 0;
}
