/* Calls of the file that fail: what each call answers then, and what is there behind the next opening. */
#define _GNU_SOURCE
#include "testing.h"
#include <dirent.h>
#include <fcntl.h>
#include <stdarg.h>
#include <sys/file.h>
#include <sys/stat.h>
#include <sys/types.h>
#include <sys/vfs.h>
#include <unistd.h>

#define PATH "fail.idx"
#define DRAFT PATH ".nardsill-draft"

/* Which calls fail now, and with which number. */
static int no_sync, no_folder_sync, no_read, no_write, no_link, no_rename;
/* Which write or sync from now on fails, 0 for none, with which number, and whether those behind it do; and whether it has come. */
static int countdown, why, is_for_ever, has_come;
/* Syncs aren't handed on, where no test needs them: they take long on a disk. */
static int is_quick;
/* A file isn't opened a second time. How often one is, and how often to write. */
static int no_second, seconds, writable_seconds;
/* What a file system is told to be, if it isn't what it is; -1: that can't be known. */
static long of_kind;
/* Another maker places the draft just before its lock is asked for. */
static int is_placed_before;
/* The folders that were synced, each with whether the file had its name then; closings of what isn't open. */
static int folder_syncs, nameless_syncs, wrong_closes, was_locked;
/* Openings that a started program would have too, and locks of a number that is a standard stream's. */
static int shared_opens, low_locks;
/* The descriptor that was locked last. */
static int locked;
static ino_t synced_folder;

int __real_fdatasync(int fd);
int __real_fsync(int fd);
int __real_close(int fd);
int __real_flock(int fd, int how);
int __real_fstatfs(int fd, struct statfs *where);
int __real_open(const char *path, int flags, mode_t mode);
int __real_link(const char *from, const char *to);
int __real_renameat2(int from_fd, const char *from, int to_fd, const char *to, unsigned flags);
ssize_t __real_pread(int fd, void *out, size_t count, off_t at);
ssize_t __real_pwrite(int fd, const void *from, size_t count, off_t at);

static int refuse(int error) {
    errno = error;
    return -1;
}

/* Whether a write or a sync is to fail. */
static int fails(void) {
    if (has_come) return is_for_ever;
    has_come = countdown && !--countdown;
    return has_come;
}

int __wrap_fdatasync(int fd) {
    if (no_sync) return refuse(no_sync);
    if (fails()) return refuse(why);
    return is_quick ? 0 : __real_fdatasync(fd);
}

/* Notes the syncs of a folder. */
int __wrap_fsync(int fd) {
    struct stat synced;
    if (no_sync) return refuse(no_sync);
    if (fails()) return refuse(why);
    if (is_quick) return 0;
    if (!fstat(fd, &synced) && S_ISDIR(synced.st_mode)) {
        if (no_folder_sync) return refuse(no_folder_sync);
        folder_syncs++;
        synced_folder = synced.st_ino;
        nameless_syncs += access(PATH, F_OK) && access("fail-folder/" PATH, F_OK);
        /* Nobody may use the index before its name is durable. */
        int other = open(PATH, O_RDWR | O_CLOEXEC);
        was_locked = other < 0 || flock(other, LOCK_EX | LOCK_NB);
        if (other >= 0) __real_close(other);
    }
    return __real_fsync(fd);
}

int __wrap_close(int fd) {
    int status = __real_close(fd);
    if (status && errno == EBADF) wrong_closes++;
    return status;
}

int __wrap_open(const char *path, int flags, ...) {
    va_list more;
    va_start(more, flags);
    mode_t mode = flags & O_CREAT ? va_arg(more, mode_t) : 0;
    va_end(more);
    if (!(flags & O_CLOEXEC)) shared_opens++;
    if (!strncmp(path, "/proc/", 6)) {
        if (no_second) return refuse(no_second);
        seconds++;
        writable_seconds += (flags & O_ACCMODE) != O_RDONLY;
    }
    return __real_open(path, flags, mode);
}

int __wrap_fstatfs(int fd, struct statfs *where) {
    if (of_kind < 0) return refuse(EIO);
    int status = __real_fstatfs(fd, where);
    if (of_kind) where->f_type = of_kind;
    return status;
}

int __wrap_flock(int fd, int how) {
    if (fd <= 2) low_locks++;
    if (is_placed_before) {
        is_placed_before = 0;
        __real_link(DRAFT, "fail-other.idx");
        unlink(DRAFT);
    }
    int status = __real_flock(fd, how);
    if (!status && how & LOCK_EX) locked = fd;
    return status;
}

int __wrap_link(const char *from, const char *to) {
    if (no_link == EEXIST) {
        FILE *other = fopen(PATH, "w");
        fputs("another's", other);
        fclose(other);
    }
    return no_link ? refuse(no_link) : __real_link(from, to);
}

int __wrap_renameat2(int from_fd, const char *from, int to_fd, const char *to, unsigned flags) {
    return no_rename ? refuse(no_rename) : __real_renameat2(from_fd, from, to_fd, to, flags);
}

ssize_t __wrap_pread(int fd, void *out, size_t count, off_t at) { return no_read ? refuse(no_read) : __real_pread(fd, out, count, at); }

ssize_t __wrap_pwrite(int fd, const void *from, size_t count, off_t at) {
    if (no_write) return refuse(no_write);
    return fails() ? refuse(why) : __real_pwrite(fd, from, count, at);
}

/* How many descriptors the process has open. */
static int open_descriptors(void) {
    int count = 0;
    DIR *folder = opendir("/proc/self/fd");
    while (readdir(folder)) count++;
    closedir(folder);
    return count;
}

/* The call is refused with Io, for this reason, in errno and in the fault. */
#define FAILS(why, call)                        \
    do {                                        \
        IS(NARDSILL_IO, call);                  \
        IS(why, errno);                         \
        IS(why, nardsill_last_fault()->error);  \
    } while (0)

/* How a scan of all entries ends, and how many it gave. */
static int count(nardsill *index, int *entries) {
    nardsill_scan *scan;
    nardsill_entry entry;
    *entries = 0;
    int status = nardsill_scan_open(index, 0, 0, 0, 0, &scan);
    if (status) return 1000 + status;
    while (!(status = nardsill_scan_next(scan, &entry))) ++*entries;
    nardsill_scan_close(scan);
    return status;
}

static void syncs(void) {
    nardsill *index = made(PATH, 0);
    nardsill_details details = NARDSILL_DETAILS;
    nardsill_row row;
    uint64_t actions;
    int entries;
    IS(0, insert(index, "a", 1, 1));
    IS(0, nardsill_commit(index, &actions));
    IS(0, insert(index, "b", 1, 1));
    no_sync = EIO;
    FAILS(EIO, nardsill_commit(index, &actions));
    no_sync = 0;
    IS(0, nardsill_info(index, &details));
    IS(1, details.stopped);
    /* It has stopped, whatever the file would answer now. */
    IS(NARDSILL_STOPPED, nardsill_commit(index, &actions));
    IS(EIO, nardsill_last_fault()->error);
    IS(NARDSILL_STOPPED, insert(index, "c", 1, 1));
    IS(EIO, nardsill_last_fault()->error);
    IS(1000 + NARDSILL_STOPPED, count(index, &entries));
    IS(NARDSILL_STOPPED, nardsill_get(index, "a", 1, &row));
    IS(NARDSILL_STOPPED, nardsill_vacuum(index, 0));
    IS(NARDSILL_STOPPED, nardsill_close(index));
    IS(0, nardsill_open(PATH, 16, &index));
    IS(NARDSILL_DONE, count(index, &entries));
    HOLDS(entries == 1 || entries == 2);
    /* A closing tells that its checkpoint failed. */
    IS(0, insert(index, "d", 1, 1));
    no_sync = ENOSPC;
    FAILS(ENOSPC, nardsill_close(index));
    FAILS(ENOSPC, nardsill_open(PATH, 16, &index));
    no_sync = 0;
    HOLDS(!index);
}

static void reads_and_writes(void) {
    nardsill *index;
    int entries;
    uint64_t actions;
    IS(0, nardsill_open(PATH, 16, &index));
    no_read = EIO;
    FAILS(EIO, (int)count(index, &entries));
    no_read = 0;
    /* A read that fails ends its call alone. */
    IS(NARDSILL_DONE, count(index, &entries));
    IS(0, insert(index, "e", 1, 1));
    no_write = ENOSPC;
    FAILS(ENOSPC, nardsill_commit(index, &actions));
    no_write = 0;
    IS(NARDSILL_STOPPED, nardsill_close(index));
    /* A file that was cut fails with no number of its own. */
    IS(0, nardsill_open(PATH, 16, &index));
    IS(0, truncate(PATH, 4096 + 1048576));
    FAILS(EIO, (int)count(index, &entries));
    HOLDS(nardsill_close(index) != 77);
    IS(NARDSILL_BAD_SUPER, nardsill_open(PATH, 16, &index));
    unlink(PATH);
}

static int has_stopped(nardsill *index) {
    nardsill_details details = NARDSILL_DETAILS;
    IS(0, nardsill_info(index, &details));
    return (int)details.stopped;
}

/* Entries that outgrow the log and what is in memory, with lookups and commits among them, up to the first call in which one of the file
   fails. Answers what that call answers. */
static int work(nardsill *index) {
    unsigned char key[16];
    nardsill_row row;
    int status = 0;
    for (unsigned i = 0; i < 1500 && !status && !has_come; i++) {
        key_of(i, key);
        status = nardsill_insert(index, key, 16, row_of(i, 1), 0);
        if (status || has_come) return status;
        if (i % 64 == 0) HOLDS(!has_stopped(index));
        key_of(i / 2, key);
        status = nardsill_get(index, key, 16, &row);
        if (!status && !has_come && i % 200 == 199) status = nardsill_commit(index, 0);
    }
    return status;
}

/* The refusals behind a failed write or sync: each tells why, and sooner or later all calls are refused. */
static void is_refused(int status) {
    if (!status) return;
    HOLDS(status == NARDSILL_IO || status == NARDSILL_STOPPED);
    IS(status, nardsill_last_fault()->status);
    IS(why, nardsill_last_fault()->error);
    if (status == NARDSILL_IO) IS(why, errno);
}

/* A write or a sync fails, that one alone or all from it on. Then the index has stopped, and tells it and why. Whether one has failed. */
static int stops_at(int which, int for_ever, int is_asked) {
    static const nardsill_limits small_log = {sizeof small_log, 8, 1024, 65536, 0};
    nardsill *index;
    unsigned char key[16];
    nardsill_row row;
    unlink(PATH);
    is_quick = 1;
    IS(0, nardsill_create(PATH, &small_log));
    IS(0, nardsill_open(PATH, 16, &index));
    why = which % 2 ? ENOSPC : EIO;
    is_for_ever = for_ever;
    countdown = which;
    int status = work(index), is_found = has_come;
    if (is_found) {
        is_refused(status);
        if (is_asked) IS(1, has_stopped(index));
        for (int i = 0; i < 3; i++) {
            key_of(7777, key);
            int inserted = nardsill_insert(index, key, 16, row_of(7777, 1), 0);
            is_refused(inserted);
            int got = nardsill_get(index, key, 16, &row);
            is_refused(got == NARDSILL_NOT_FOUND ? 0 : got);
            int made = nardsill_checkpoint(index, 0);
            is_refused(made);
            /* What is told as durable isn't lost: no checkpoint succeeds any more. */
            HOLDS(made);
            if (is_asked || i) HOLDS(inserted == NARDSILL_STOPPED && got == NARDSILL_STOPPED && made == NARDSILL_STOPPED);
        }
        IS(1, has_stopped(index));
        IS(NARDSILL_STOPPED, nardsill_close(index));
    } else {
        IS(0, status);
        IS(0, has_stopped(index));
        IS(0, nardsill_close(index));
    }
    countdown = has_come = is_quick = 0;
    return is_found;
}

static void stops(void) {
    for (int kind = 0; kind < 4; kind++)
        for (int which = 1; stops_at(which, kind / 2, kind % 2); which += 1 + which / 6) HOLDS(which < 100000);
}

/* A read that fails stops nothing, and info tells so. */
static void reads_stop_nothing(void) {
    nardsill *index;
    nardsill_row row;
    int entries;
    unlink(PATH);
    index = made(PATH, 0);
    IS(0, insert(index, "a", 1, 1));
    IS(0, nardsill_close(index));
    IS(0, nardsill_open(PATH, 16, &index));
    no_read = EIO;
    FAILS(EIO, nardsill_get(index, "a", 1, &row));
    IS(0, has_stopped(index));
    FAILS(EIO, nardsill_get(index, "a", 1, &row));
    no_read = 0;
    IS(0, has_stopped(index));
    IS(0, nardsill_get(index, "a", 1, &row));
    IS(0, insert(index, "b", 1, 1));
    IS(0, nardsill_commit(index, 0));
    IS(NARDSILL_DONE, count(index, &entries));
    IS(2, entries);
    IS(0, nardsill_close(index));
    unlink(PATH);
}

/* A handle whose lock is lost, as on a file system that lost its servers for a while. Another that has it by then is found by a commit,
   which writes nothing; where nobody has it, it is taken again. */
static void lost_locks(void) {
    nardsill *index, *other;
    int entries;
    uint64_t actions;
    unlink(PATH);
    index = made(PATH, 0);
    IS(0, insert(index, "a", 1, 1));
    IS(0, nardsill_commit(index, &actions));
    IS(0, insert(index, "b", 1, 1));
    /* The commit has asked for it. */
    int own = locked;
    IS(0, __real_flock(own, LOCK_UN));
    IS(0, nardsill_commit(index, &actions));
    IS(NARDSILL_LOCKED, nardsill_open(PATH, 16, &other));
    IS(0, insert(index, "c", 1, 1));
    IS(0, __real_flock(own, LOCK_UN));
    IS(0, nardsill_open(PATH, 16, &other));
    FAILS(EAGAIN, nardsill_commit(index, &actions));
    IS(0, insert(other, "d", 1, 1));
    IS(0, nardsill_close(other));
    IS(NARDSILL_STOPPED, nardsill_commit(index, &actions));
    IS(NARDSILL_STOPPED, nardsill_close(index));
    IS(0, nardsill_open(PATH, 16, &index));
    IS(NARDSILL_DONE, count(index, &entries));
    IS(3, entries);
    IS(0, nardsill_close(index));
    unlink(PATH);
}

/* The folder of the path is synced, once, and the file has its name by then and its lock still. */
static void folders(void) {
    struct stat folder;
    unlink(PATH);
    folder_syncs = nameless_syncs = 0;
    IS(0, nardsill_create(PATH, 0));
    HOLDS(folder_syncs == 1 && !nameless_syncs && was_locked && !stat(".", &folder) && folder.st_ino == synced_folder);
    mkdir("fail-folder", 0777);
    unlink("fail-folder/" PATH);
    unlink(PATH);
    IS(0, nardsill_create("fail-folder/" PATH, 0));
    HOLDS(folder_syncs == 2 && !nameless_syncs && !stat("fail-folder", &folder) && folder.st_ino == synced_folder);
    unlink("fail-folder/" PATH);
    rmdir("fail-folder");
    no_folder_sync = EIO;
    FAILS(EIO, nardsill_create(PATH, 0));
    no_folder_sync = 0;
    HOLDS(access(PATH, F_OK) && access(DRAFT, F_OK));
    no_sync = EIO;
    FAILS(EIO, nardsill_create(PATH, 0));
    no_sync = 0;
    HOLDS(access(PATH, F_OK) && access(DRAFT, F_OK));
}

/* Another file comes to the path just before the draft is placed there. */
static void names(void) {
    struct stat other;
    no_link = EEXIST;
    FAILS(EEXIST, nardsill_create(PATH, 0));
    no_link = 0;
    HOLDS(!stat(PATH, &other) && other.st_size == 9 && access(DRAFT, F_OK));
    unlink(PATH);
    /* If there are no hard links the draft is moved, over nothing. */
    no_link = EPERM;
    IS(0, nardsill_create(PATH, 0));
    HOLDS(!access(PATH, F_OK) && access(DRAFT, F_OK));
    FAILS(EEXIST, nardsill_create(PATH, 0));
    unlink(PATH);
    no_rename = EINVAL;
    FAILS(EINVAL, nardsill_create(PATH, 0));
    no_link = no_rename = 0;
    HOLDS(access(PATH, F_OK) && access(DRAFT, F_OK));
}

/* What stands at the draft's name: left by a maker that was stopped, or another's. */
static void drafts(void) {
    nardsill *index;
    int entries;
    unlink(PATH);
    FILE *left = fopen(DRAFT, "w");
    fputs("half of an index", left);
    fclose(left);
    IS(0, nardsill_create(PATH, 0));
    HOLDS(access(DRAFT, F_OK));
    /* A maker was stopped after it had placed the file: the name is made durable before the index is used. */
    IS(0, link(PATH, DRAFT));
    folder_syncs = 0;
    no_folder_sync = EIO;
    FAILS(EIO, nardsill_open(PATH, 16, &index));
    HOLDS(!index && !access(DRAFT, F_OK));
    no_folder_sync = 0;
    IS(0, nardsill_open(PATH, 16, &index));
    HOLDS(folder_syncs == 1 && access(DRAFT, F_OK));
    IS(0, insert(index, "a", 1, 1));
    IS(0, nardsill_close(index));
    /* So it is if the path leads there by a link of another folder. */
    struct stat folder;
    mkdir("fail-folder", 0777);
    unlink("fail-folder/link.idx");
    IS(0, symlink("../" PATH, "fail-folder/link.idx"));
    IS(0, link(PATH, DRAFT));
    folder_syncs = 0;
    IS(0, nardsill_open("fail-folder/link.idx", 16, &index));
    HOLDS(folder_syncs == 1 && !stat(".", &folder) && folder.st_ino == synced_folder && access(DRAFT, F_OK));
    IS(0, nardsill_close(index));
    unlink("fail-folder/link.idx");
    rmdir("fail-folder");
    /* Such a whole file under another name is no draft to be written over. */
    IS(0, rename(PATH, "fail-moved.idx"));
    IS(0, link("fail-moved.idx", DRAFT));
    IS(0, nardsill_create(PATH, 0));
    IS(0, nardsill_open("fail-moved.idx", 16, &index));
    IS(NARDSILL_DONE, count(index, &entries));
    IS(1, entries);
    IS(0, nardsill_close(index));
    unlink(PATH);
    /* Another maker has placed its index between the opening of the draft and its lock: it stays as it is. */
    left = fopen(DRAFT, "w");
    fputs("another's index", left);
    fclose(left);
    is_placed_before = 1;
    FAILS(EBUSY, nardsill_create(PATH, 0));
    struct stat other;
    HOLDS(!stat("fail-other.idx", &other) && other.st_size == 15 && access(PATH, F_OK) && access(DRAFT, F_OK));
    unlink("fail-other.idx");
    /* Another maker's draft, a link and a folder stay as they are. */
    int fd = open(DRAFT, O_RDWR | O_CREAT | O_CLOEXEC, 0666);
    IS(0, flock(fd, LOCK_EX));
    IS(NARDSILL_LOCKED, nardsill_create(PATH, 0));
    HOLDS(!access(DRAFT, F_OK) && access(PATH, F_OK));
    __real_close(fd);
    unlink(DRAFT);
    IS(0, symlink("fail-moved.idx", DRAFT));
    FAILS(EEXIST, nardsill_create(PATH, 0));
    unlink(DRAFT);
    mkdir(DRAFT, 0777);
    FAILS(EEXIST, nardsill_create(PATH, 0));
    rmdir(DRAFT);
    IS(0, nardsill_open("fail-moved.idx", 16, &index));
    IS(NARDSILL_DONE, count(index, &entries));
    IS(1, entries);
    IS(0, nardsill_close(index));
    unlink("fail-moved.idx");
}

/* If the system opens a file only once, or a program serves it, commits sync with the lock held. */
static void one_open_file(int second, long kind) {
    nardsill *index;
    uint64_t actions;
    int entries;
    no_second = second;
    of_kind = kind;
    seconds = 0;
    index = made(PATH, 0);
    IS(0, insert(index, "a", 1, 1));
    IS(0, nardsill_commit(index, &actions));
    IS(1, actions);
    no_sync = EIO;
    IS(0, insert(index, "b", 1, 2));
    FAILS(EIO, nardsill_commit(index, &actions));
    no_sync = 0;
    IS(NARDSILL_STOPPED, nardsill_close(index));
    IS(0, nardsill_open(PATH, 16, &index));
    IS(NARDSILL_DONE, count(index, &entries));
    HOLDS(entries >= 1);
    IS(0, nardsill_close(index));
    IS(0, seconds);
    no_second = 0;
    of_kind = 0;
}

/* What is refused at its beginning says why. */
static void refusals(void) {
    nardsill *index;
    nardsill_report report = NARDSILL_REPORT;
    FAILS(ENOENT, nardsill_open("no.idx", 16, &index));
    FAILS(ENOENT, nardsill_check("no.idx", 16, &report));
    FAILS(ENOENT, nardsill_create("no/folder.idx", 0));
    mkdir("fail-folder", 0777);
    FAILS(EISDIR, nardsill_open("fail-folder", 16, &index));
    FAILS(EEXIST, nardsill_create("fail-folder", 0));
    rmdir("fail-folder");
    char name[400];
    memset(name, 'x', sizeof name);
    name[399] = 0;
    FAILS(ENAMETOOLONG, nardsill_create(name, 0));
}

/* A file never has the number of a standard stream, also if that is closed. */
static void closed_streams(void) {
    nardsill *index;
    nardsill_report report = NARDSILL_REPORT;
    int kept = fcntl(0, F_DUPFD_CLOEXEC, 10);
    unlink(PATH);
    __real_close(0);
    IS(0, nardsill_create(PATH, 0));
    IS(0, nardsill_open(PATH, 16, &index));
    IS(0, nardsill_close(index));
    IS(0, nardsill_check(PATH, 16, &report));
    IS(0, low_locks);
    if (kept >= 0) dup2(kept, 0), __real_close(kept);
}

int main(void) {
    int descriptors = open_descriptors();
    closed_streams();
    syncs();
    reads_and_writes();
    stops();
    reads_stop_nothing();
    lost_locks();
    folders();
    names();
    drafts();
    refusals();
    one_open_file(ENOENT, 0);
    one_open_file(0, 0x65735546);
    one_open_file(0, -1);
    IS(0, wrong_closes);
    IS(0, writable_seconds);
    IS(0, shared_opens);
    IS(descriptors, open_descriptors());
    unlink(PATH);
    puts("fail: all is as it must be");
    return 0;
}
