/* How much of its thread's stack each call uses: none more than nardsill.h tells, and each works on a thread of 128 KB. */
#define _GNU_SOURCE
#include "testing.h"
#include <fcntl.h>
#include <pthread.h>
#include <sys/mman.h>
#include <sys/wait.h>
#include <unistd.h>

#define PATH "stack.idx"
#define COPY "stack-copy.idx"

/* The stack of each thread here, what nardsill.h tells of a call, and what the memory of a stack holds before it is used. */
enum { ROOM = 131072, MOST = 98304, UNUSED = 0xa5 };

static nardsill *index_;
static nardsill_scan *scan;
static nardsill_entry many[300];
static nardsill_row rows[4000];
/* How many entries were inserted, and how many of them are deleted. */
static unsigned next, gone;
static int fd;

/* Keys in order, that tell their number. */
static void name(unsigned number, nardsill_entry *entry) {
    *entry = (nardsill_entry){.row = row_of(number, 1), .key_len = NARDSILL_KEY_MAX};
    sprintf((char *)entry->key, "%063u", number);
}

static void calls_nothing(void) {}

static void creates(void) { IS(0, nardsill_create(PATH, &(nardsill_limits){sizeof(nardsill_limits), 4, 8192, 65536, 1})); }

static void creates_again(void) { IS(NARDSILL_IO, nardsill_create(PATH, 0)); }

static void opens(void) { IS(0, nardsill_open(PATH, 16, &index_)); }

static void opens_large(void) { IS(0, nardsill_open(PATH, 1024, &index_)); }

static void opens_none(void) {
    nardsill *none;
    IS(NARDSILL_IO, nardsill_open("stack-none.idx", 16, &none));
}

static void opens_fd(void) { IS(0, nardsill_open_fd(fd, 16, &index_)); }

static void closes(void) { IS(0, nardsill_close(index_)); }

/* Pages split on all levels, and pages go out of memory; the log is full now and then, and the pages are written home. */
static void inserts(void) {
    nardsill_entry entry;
    for (unsigned i = 0; i < 2000; i++) {
        name(next++ * 7919 % 65536, &entry);
        IS(0, nardsill_insert(index_, entry.key, entry.key_len, entry.row, 0));
    }
}

static void inserts_once_more(void) {
    nardsill_entry entry;
    name(0, &entry);
    IS(NARDSILL_EXISTS, nardsill_insert(index_, entry.key, entry.key_len, entry.row, 0));
    IS(NARDSILL_KEY_EXISTS, nardsill_insert(index_, entry.key, entry.key_len, row_of(77, 7), 0));
}

static void inserts_many(void) {
    size_t done;
    for (unsigned i = 0; i < 300; i++) name(next++ * 7919 % 65536, many + i);
    IS(0, nardsill_insert_many(index_, many, 300, &done));
}

static void gets(void) {
    nardsill_entry entry;
    nardsill_row row;
    for (unsigned i = 0; i < 500; i++) {
        name(i * 7919 % 65536, &entry);
        IS(0, nardsill_get(index_, entry.key, entry.key_len, &row));
        IS(i * 7919 % 65536, row.block);
        IS(NARDSILL_NOT_FOUND, nardsill_get(index_, entry.key, 60, &row));
    }
}

static void opens_scan(void) { IS(0, nardsill_scan_open(index_, "0", 1, "1", 1, &scan)); }

static void opens_prefix(void) { IS(0, nardsill_scan_open_prefix(index_, "0", 1, &scan)); }

static void reads(void) {
    size_t count;
    for (unsigned i = 0; i < 5; i++) IS(0, nardsill_scan_read(scan, many, 300, &count));
}

static void reads_one(void) { IS(0, nardsill_scan_next(scan, many)); }

static void begins_anew(void) { IS(0, nardsill_scan_restart(scan, "00", 2, "1", 1)); }

static void closes_scan(void) { nardsill_scan_close(scan); }

static void deletes(void) {
    nardsill_stats stats = NARDSILL_STATS;
    for (unsigned i = 0; i < 4000; i++) rows[i] = row_of(gone++ * 7919 % 65536, 1);
    IS(0, nardsill_delete_rows(index_, rows, 4000, &stats));
    IS(4000, stats.removed);
}

static void vacuums(void) {
    nardsill_stats stats = NARDSILL_STATS;
    IS(0, nardsill_vacuum(index_, &stats));
    HOLDS(stats.pages_newly_deleted);
}

/* Beside 63 scans both are made whole. */
static void makes_whole(void) {
    nardsill_scan *scans[63];
    for (int i = 0; i < 63; i++) IS(0, nardsill_scan_open(index_, 0, 0, 0, 0, scans + i));
    deletes();
    vacuums();
    for (int i = 0; i < 63; i++) nardsill_scan_close(scans[i]);
}

static void is_blocked(void) { IS(NARDSILL_BLOCKED, nardsill_delete_rows(index_, rows, 1, 0)); }

static void sets_patience(void) { IS(0, nardsill_set_patience(index_, 1)); }

static void commits(void) { IS(0, nardsill_commit(index_, 0)); }

static void checkpoints(void) { IS(0, nardsill_checkpoint(index_, 0)); }

static void informs(void) {
    nardsill_details details = NARDSILL_DETAILS;
    IS(0, nardsill_info(index_, &details));
}

static void copies(void) {
    uint64_t copied;
    IS(0, nardsill_copy(index_, COPY, 0, 0, 0, &copied));
    HOLDS(copied);
}

static void copies_not(void) { IS(NARDSILL_IO, nardsill_copy(index_, COPY, 0, 0, 0, 0)); }

static void checks(void) {
    nardsill_report report = NARDSILL_REPORT;
    IS(0, nardsill_check(PATH, 16, &report));
    IS(0, report.damage);
}

static void tells(void) {
    HOLDS(nardsill_last_fault() && nardsill_strerror(8) && nardsill_errname(8) && nardsill_version());
}

static const struct call {
    const char *name;
    void (*makes)(void);
} calls[] = {
    {"", calls_nothing},
    {"create", creates},
    {"create", creates_again},
    {"open", opens_none},
    {"open", opens},
    {"insert", inserts},
    {"insert_many", inserts_many},
    {"commit", commits},
    {"insert", inserts},
    {"checkpoint", checkpoints},
    {"insert", inserts_once_more},
    {"get", gets},
    {"scan_open", opens_scan},
    {"scan_next", reads_one},
    {"scan_read", reads},
    {"scan_restart", begins_anew},
    {"scan_close", closes_scan},
    {"scan_open_prefix", opens_prefix},
    {"scan_close", closes_scan},
    {"set_patience", sets_patience},
    {"info", informs},
    {"copy", copies},
    {"copy", copies_not},
    {"delete_rows", deletes},
    {"vacuum", vacuums},
    {"close", closes},
    {"check", checks},
    {"open", opens_large},
    {"insert", inserts},
    {"scan_open", opens_scan},
    {"scan_next", reads_one},
    {"delete_rows", is_blocked},
    {"scan_close", closes_scan},
    {"delete_rows", makes_whole},
    {"close", closes},
    {"open_fd", opens_fd},
    {"close", closes},
    {"last_fault", tells},
};
enum { CALLS = sizeof calls / sizeof *calls };

/* Runs one of them, and answers where its frame stands. */
static void *run(void *at) {
    const struct call *call = at;
    void *frame = __builtin_frame_address(0);
    call->makes();
    return frame;
}

/* How many bytes a call uses, on a thread with a new stack. */
static size_t used_by(const struct call *call) {
    pthread_attr_t attr;
    pthread_t thread;
    void *frame;
    unsigned char *stack = mmap(0, ROOM, PROT_READ | PROT_WRITE, MAP_PRIVATE | MAP_ANONYMOUS | MAP_STACK, -1, 0), *lowest = stack;
    HOLDS(stack != MAP_FAILED);
    memset(stack, UNUSED, ROOM);
    IS(0, pthread_attr_init(&attr));
    IS(0, pthread_attr_setstack(&attr, stack, ROOM));
    IS(0, pthread_create(&thread, &attr, run, (void *)call));
    IS(0, pthread_join(thread, &frame));
    pthread_attr_destroy(&attr);
    while (lowest < stack + ROOM && *lowest == UNUSED) lowest++;
    size_t used = (size_t)((unsigned char *)frame - lowest);
    munmap(stack, ROOM);
    return used;
}

/* An index that was killed behind a commit: its opening has the log to bring home. */
static void kill_one(void) {
    int status;
    pid_t child = fork();
    if (!child) {
        opens();
        inserts();
        commits();
        _exit(0);
    }
    waitpid(child, &status, 0);
    IS(0, status);
    next += 2000;
}

int main(void) {
    size_t most = 0;
    const char *which = "";
    alarm(100);
    unlink(PATH);
    unlink(COPY);
    for (int i = 0; i < CALLS; i++) {
        if (calls[i].makes == opens_large) kill_one();
        if (calls[i].makes == opens_fd) fd = open(PATH, O_RDWR | O_CLOEXEC);
        size_t used = used_by(calls + i);
        if (used > most) {
            most = used;
            which = calls[i].name;
        }
    }
    close(fd);
    unlink(PATH);
    unlink(COPY);
    printf("stack: nardsill_%s uses most: %zu bytes\n", which, most);
    HOLDS(most <= MOST);
    puts("stack: all is as it must be");
    return 0;
}
