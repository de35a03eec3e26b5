/* Copies of an index: what is in them, how full their pages are, and that a file is whole at its path or isn't there. */
#define _GNU_SOURCE
#include "testing.h"
#include <dirent.h>
#include <pthread.h>
#include <signal.h>
#include <stdatomic.h>
#include <sys/file.h>
#include <sys/stat.h>
#include <sys/types.h>
#include <sys/wait.h>
#include <unistd.h>
#include <fcntl.h>

#define PATH "copies.idx"
#define COPY "copies-copy.idx"
#define DRAFT COPY ".nardsill-draft"

enum { ALL = 20000 };

static const nardsill_limits limits = {sizeof limits, 50, 4096, 1 << 20, 0};

/* The calls that write, so far, and from which on they fail, with which number; 0 for never. Whether that one alone fails. */
static atomic_uint calls;
static unsigned failing;
static int why, is_alone;
/* Writes since the last sync of a file, and what they were when a file got its name. */
static atomic_uint unsynced, unsynced_then;

int __real_fdatasync(int fd);
int __real_fsync(int fd);
int __real_link(const char *from, const char *to);
ssize_t __real_pwrite(int fd, const void *from, size_t count, off_t at);

static int fails(void) {
    if (!failing || ++calls < failing || (is_alone && calls > failing)) return 0;
    errno = why;
    return 1;
}

int __wrap_fdatasync(int fd) {
    if (fails()) return -1;
    unsynced = 0;
    return __real_fdatasync(fd);
}

int __wrap_fsync(int fd) { return fails() ? -1 : __real_fsync(fd); }

int __wrap_link(const char *from, const char *to) {
    if (fails()) return -1;
    unsynced_then = unsynced;
    return __real_link(from, to);
}

ssize_t __wrap_pwrite(int fd, const void *from, size_t count, off_t at) {
    if (fails()) return -1;
    unsynced++;
    return __real_pwrite(fd, from, count, at);
}

/* Keys of 0 to 64 bytes, in no order; a few have several rows. */
static size_t nth_key(unsigned i, unsigned char *key) {
    unsigned number = i / 3 * 2654435761u;
    memset(key, (int)(number % 251), NARDSILL_KEY_MAX);
    for (int k = 0; k < 4; k++) key[k] = (unsigned char)(number >> (24 - 8 * k));
    return number % 7 ? 4 + number % 61 : NARDSILL_KEY_MAX;
}

static nardsill_row nth_row(unsigned i) { return row_of(i, 1 + i % 100); }

static nardsill *filled(unsigned from, unsigned to) {
    unsigned char key[NARDSILL_KEY_MAX];
    nardsill *index = made(PATH, &limits);
    for (unsigned i = from; i < to; i++) {
        size_t len = nth_key(i, key);
        IS(0, nardsill_insert(index, key, len, nth_row(i), 0));
    }
    return index;
}

/* Both give the same entries, in the same order. */
static void same_entries(nardsill *one, nardsill *other) {
    nardsill_scan *scans[2];
    nardsill_entry entries[2];
    int statuses[2];
    IS(0, nardsill_scan_open(one, 0, 0, 0, 0, scans));
    IS(0, nardsill_scan_open(other, 0, 0, 0, 0, scans + 1));
    do {
        for (int k = 0; k < 2; k++) {
            memset(entries + k, 0, sizeof entries[k]);
            statuses[k] = nardsill_scan_next(scans[k], entries + k);
        }
        IS(statuses[0], statuses[1]);
        HOLDS(entries[0].key_len == entries[1].key_len && entries[0].row.block == entries[1].row.block);
        HOLDS(entries[0].row.offset == entries[1].row.offset && !memcmp(entries[0].key, entries[1].key, entries[0].key_len));
    } while (!statuses[0]);
    IS(NARDSILL_DONE, statuses[0]);
    for (int k = 0; k < 2; k++) nardsill_scan_close(scans[k]);
}

static int open_descriptors(void) {
    int count = 0;
    DIR *folder = opendir("/proc/self/fd");
    while (readdir(folder)) count++;
    closedir(folder);
    return count;
}

static void nothing_is_there(void) { HOLDS(access(COPY, F_OK) && access(DRAFT, F_OK)); }

/* What is told of how far a copy is. */
struct told {
    uint64_t last;
    unsigned times;
};

static int tell(void *at, uint64_t copied) {
    struct told *told = at;
    HOLDS(copied >= told->last);
    told->last = copied;
    told->times++;
    return 0;
}

static int gives_up(void *at, uint64_t copied) {
    (void)at;
    return copied >= ALL / 2;
}

/* A copy has the entries, and some 48 of them a page; the pages of one that was filled in order are twice as many. */
static void contents(void) {
    nardsill *index = filled(0, ALL), *copy;
    nardsill_details details = NARDSILL_DETAILS;
    nardsill_report report = NARDSILL_REPORT;
    struct told told = {0, 0};
    uint64_t copied = 77;
    IS(0, nardsill_copy(index, COPY, 0, tell, &told, &copied));
    IS(ALL, copied);
    IS(ALL, told.last);
    HOLDS(told.times >= ALL / 4900);
    IS(0, unsynced_then);
    HOLDS(access(DRAFT, F_OK));
    IS(0, nardsill_check(COPY, 0, &report));
    HOLDS(!report.damage && report.entries == ALL && !report.unfinished);
    IS(0, nardsill_open(COPY, 64, &copy));
    same_entries(index, copy);
    IS(0, nardsill_info(copy, &details));
    HOLDS(details.items == 50 && details.pages == 4096 && details.log_bytes == 1 << 20 && !details.unique);
    HOLDS(details.pages_used * 50u <= ALL * 108u / 100u);
    /* Each goes on by itself. */
    IS(0, insert(copy, "of the copy", 7, 7));
    IS(ALL + 1, counted(copy));
    IS(ALL, counted(index));
    IS(0, nardsill_close(copy));
    unlink(COPY);
    IS(0, nardsill_close(index));
    /* Of an empty one. */
    index = made(PATH, &limits);
    IS(0, nardsill_copy(index, COPY, 0, 0, 0, &copied));
    IS(0, copied);
    IS(0, nardsill_open(COPY, 64, &copy));
    IS(0, counted(copy));
    IS(0, nardsill_close(copy));
    IS(0, nardsill_close(index));
    unlink(COPY);
}

/* The sizes are those that are asked for. What can't be copied leaves nothing. */
static void sizes(void) {
    nardsill *index = filled(0, 3000), *copy;
    nardsill_limits large = {sizeof large, 40, 9000, 1 << 17, 0}, few = {sizeof few, 50, 40, 65536, 0};
    nardsill_limits unique = {sizeof unique, 50, 4096, 65536, 1}, bad = {sizeof bad, 3, 4096, 65536, 0}, unsized = {0, 50, 4096, 65536, 0};
    nardsill_details details = NARDSILL_DETAILS;
    uint64_t copied = 77;
    IS(0, nardsill_copy(index, COPY, &large, 0, 0, &copied));
    IS(3000, copied);
    IS(0, nardsill_open(COPY, 64, &copy));
    same_entries(index, copy);
    IS(0, nardsill_info(copy, &details));
    HOLDS(details.items == 40 && details.pages == 9000 && details.log_bytes == 1 << 17 && !details.unique);
    HOLDS(details.pages_used * 40u <= 3000 * 115u / 100u);
    IS(NARDSILL_IO, nardsill_copy(index, COPY, 0, 0, 0, &copied));
    IS(EEXIST, nardsill_last_fault()->error);
    IS(3000, counted(copy));
    IS(0, nardsill_close(copy));
    unlink(COPY);
    copied = 77;
    IS(NARDSILL_INDEX_FULL, nardsill_copy(index, COPY, &few, 0, 0, &copied));
    nothing_is_there();
    IS(NARDSILL_KEY_EXISTS, nardsill_copy(index, COPY, &unique, 0, 0, &copied));
    HOLDS(nardsill_last_fault()->row.block < 3000);
    nothing_is_there();
    IS(NARDSILL_BAD_LIMITS, nardsill_copy(index, COPY, &bad, 0, 0, &copied));
    nothing_is_there();
    IS(NARDSILL_MISUSE, nardsill_copy(index, COPY, &unsized, 0, 0, &copied));
    IS(NARDSILL_MISUSE, nardsill_copy(index, 0, 0, 0, 0, &copied));
    IS(NARDSILL_MISUSE, nardsill_copy(0, COPY, 0, 0, 0, &copied));
    IS(NARDSILL_IO, nardsill_copy(index, "no/folder/copy.idx", 0, 0, 0, &copied));
    IS(ENOENT, errno);
    IS(77, copied);
    nothing_is_there();
    /* Another makes an index there. */
    int fd = open(DRAFT, O_RDWR | O_CREAT | O_CLOEXEC, 0666);
    IS(0, flock(fd, LOCK_EX));
    IS(NARDSILL_LOCKED, nardsill_copy(index, COPY, 0, 0, 0, &copied));
    HOLDS(!access(DRAFT, F_OK));
    close(fd);
    IS(0, nardsill_copy(index, COPY, 0, 0, 0, &copied));
    unlink(COPY);
    IS(3000, counted(index));
    IS(0, nardsill_close(index));
}

/* Each call of the file fails, and all after it, or that one alone: nothing is left. The copy that meets none is whole. The old index goes
   on. */
static void failures(int alone) {
    static const nardsill_limits small = {sizeof small, 50, 64, 65536, 0};
    nardsill *index = filled(0, 1500), *copy;
    IS(0, nardsill_checkpoint(index, 0));
    int descriptors = open_descriptors(), status = NARDSILL_IO;
    for (unsigned at = 1; status; at++) {
        uint64_t copied = 77;
        calls = 0;
        why = at % 2 ? ENOSPC : EIO;
        is_alone = alone;
        failing = at;
        status = nardsill_copy(index, COPY, &small, 0, 0, &copied);
        failing = 0;
        if (status || calls >= at) {
            IS(NARDSILL_IO, status);
            IS(why, nardsill_last_fault()->error);
            IS(77, copied);
            nothing_is_there();
        }
        IS(descriptors, open_descriptors());
    }
    IS(0, nardsill_open(COPY, 64, &copy));
    same_entries(index, copy);
    IS(0, nardsill_close(copy));
    unlink(COPY);
    IS(0, nardsill_close(index));
}

/* Threads insert while it is copied: what was there before is in the copy, and nothing that was never inserted. */
static void *inserts(void *at) {
    unsigned char key[NARDSILL_KEY_MAX];
    for (unsigned i = ALL; i < ALL + 3000; i++) {
        size_t len = nth_key(i, key);
        IS(0, nardsill_insert(at, key, len, nth_row(i), 0));
    }
    return 0;
}

static void others_insert(void) {
    nardsill *index = filled(0, ALL), *copy;
    pthread_t thread;
    nardsill_row row;
    unsigned char key[NARDSILL_KEY_MAX];
    uint64_t copied;
    IS(0, pthread_create(&thread, 0, inserts, index));
    IS(0, nardsill_copy(index, COPY, 0, 0, 0, &copied));
    pthread_join(thread, 0);
    HOLDS(copied >= ALL && copied <= ALL + 3000);
    IS(0, nardsill_open(COPY, 64, &copy));
    IS(copied, counted(copy));
    for (unsigned i = 0; i < ALL; i += 3) {
        size_t len = nth_key(i, key);
        IS(0, nardsill_get(copy, key, len, &row));
        IS(i, row.block);
    }
    IS(ALL + 3000, counted(index));
    IS(0, nardsill_close(copy));
    unlink(COPY);
    IS(0, nardsill_close(index));
}

/* A child of a fork in the middle has none of both files. One that copies itself, and is killed in the middle, leaves nothing at the path. */
static int has_file(const char *name) {
    char path[40], target[400];
    for (int fd = 3; fd < 100; fd++) {
        sprintf(path, "/proc/self/fd/%d", fd);
        ssize_t len = readlink(path, target, sizeof target - 1);
        if (len < 0) continue;
        target[len] = 0;
        if (strstr(target, name)) return 1;
    }
    return 0;
}

static int forks_once(void *at, uint64_t copied) {
    pid_t *child = at;
    if (copied < ALL / 2 || *child >= 0) return 0;
    *child = fork();
    if (!*child && has_file("copies")) _exit(1);
    return 0;
}

static int kills(void *at, uint64_t copied) {
    (void)at;
    if (copied >= ALL / 2) kill(getpid(), SIGKILL);
    return 0;
}

static void forks_and_kills(void) {
    nardsill *index = filled(0, ALL);
    nardsill_report report = NARDSILL_REPORT;
    pid_t child = -1;
    int status;
    uint64_t copied;
    int answered = nardsill_copy(index, COPY, 0, forks_once, &child, &copied);
    /* The child comes back from the same call. */
    if (!child) _exit(answered == NARDSILL_FORKED ? 0 : 2);
    IS(0, answered);
    waitpid(child, &status, 0);
    IS(0, status);
    IS(ALL, copied);
    IS(0, nardsill_check(COPY, 0, &report));
    IS(ALL, report.entries);
    unlink(COPY);
    IS(0, nardsill_close(index));
    child = fork();
    if (!child) {
        IS(0, nardsill_open(PATH, 64, &index));
        _exit(nardsill_copy(index, COPY, 0, kills, 0, &copied));
    }
    waitpid(child, &status, 0);
    HOLDS(WIFSIGNALED(status) && access(COPY, F_OK) && !access(DRAFT, F_OK));
    IS(0, nardsill_open(PATH, 64, &index));
    IS(0, nardsill_copy(index, COPY, 0, 0, 0, &copied));
    IS(ALL, copied);
    HOLDS(access(DRAFT, F_OK));
    IS(0, nardsill_close(index));
    IS(0, nardsill_check(COPY, 0, &report));
    HOLDS(!report.damage && report.entries == ALL);
    unlink(COPY);
}

/* The mode of a copy that is made so, of an index with this one. */
static unsigned mode_of_copy(nardsill *index, mode_t mode, mode_t mask) {
    struct stat there;
    IS(0, chmod(PATH, mode));
    mode_t before = umask(mask);
    IS(0, nardsill_copy(index, COPY, 0, 0, 0, 0));
    umask(before);
    IS(0, stat(COPY, &there));
    unlink(COPY);
    return there.st_mode & 07777;
}

/* A copy has the mode of its index without what the umask takes, as a file that cp makes. So it is if a draft was left with another. */
static void modes(void) {
    nardsill *index = filled(0, 100);
    IS(0600, mode_of_copy(index, 0600, 022));
    IS(0640, mode_of_copy(index, 0640, 022));
    IS(0644, mode_of_copy(index, 0666, 022));
    IS(0600, mode_of_copy(index, 0666, 077));
    mode_t before = umask(0);
    close(open(DRAFT, O_RDWR | O_CREAT | O_CLOEXEC, 0666));
    umask(before);
    IS(0600, mode_of_copy(index, 0600, 022));
    IS(0, nardsill_close(index));
}

/* A copy is given up by whoever is told how far it is. An index that stopped gives no copy; a handle of a parent's neither. */
static void stopped(void) {
    nardsill *index = filled(0, ALL);
    int status;
    IS(NARDSILL_GIVEN_UP, nardsill_copy(index, COPY, 0, gives_up, 0, 0));
    IS(NARDSILL_GIVEN_UP, nardsill_last_fault()->status);
    HOLDS(!strcmp("GivenUp", nardsill_errname(NARDSILL_GIVEN_UP)));
    nothing_is_there();
    pid_t child = fork();
    if (!child) _exit(nardsill_copy(index, COPY, 0, 0, 0, 0) != NARDSILL_FORKED);
    waitpid(child, &status, 0);
    IS(0, status);
    is_alone = 0;
    failing = 1;
    why = EIO;
    IS(NARDSILL_IO, nardsill_commit(index, 0));
    failing = 0;
    IS(NARDSILL_STOPPED, nardsill_copy(index, COPY, 0, 0, 0, 0));
    nothing_is_there();
    HOLDS(nardsill_close(index));
}

int main(void) {
    unlink(COPY);
    unlink(DRAFT);
    IN_A_MINUTE(contents());
    IN_A_MINUTE(sizes());
    IN_A_MINUTE(failures(0));
    IN_A_MINUTE(failures(1));
    IN_A_MINUTE(modes());
    IN_A_MINUTE(others_insert());
    IN_A_MINUTE(forks_and_kills());
    IN_A_MINUTE(stopped());
    unlink(PATH);
    puts("copies: all is as it must be");
    return 0;
}
