/* One handle has a file, however it is reached; a forked child has none of them; a cancelled thread leaves no lock taken. */
#define _GNU_SOURCE
#include "testing.h"
#include <fcntl.h>
#include <pthread.h>
#include <sys/file.h>
#include <sys/wait.h>
#include <unistd.h>

#define PATH "handles.idx"

static nardsill_limits limits = {sizeof limits, 50, 256, 1048576, 0};

/* Whether somebody else may have the file's lock. */
static int is_free(const char *path) {
    int fd = open(path, O_RDWR | O_CLOEXEC), is = !flock(fd, LOCK_EX | LOCK_NB);
    close(fd);
    return is;
}

/* Each way to a file that a handle has is refused, and both handles' entries are there in the end. */
static void one_file(void) {
    nardsill *index = made(PATH, &limits), *other = index;
    IS(0, nardsill_close(index));
    int fd = open(PATH, O_RDWR), same = dup(fd), fresh = open(PATH, O_RDWR);
    unlink("hard.idx");
    unlink("soft.idx");
    IS(0, link(PATH, "hard.idx"));
    IS(0, symlink(PATH, "soft.idx"));
    IS(0, nardsill_open_fd(fd, 64, &index));
    IS(0, insert(index, "first", 1, 1));
    int ways[] = {fd, same, fresh};
    for (int i = 0; i < 3; i++) {
        IS(NARDSILL_LOCKED, nardsill_open_fd(ways[i], 64, &other));
        HOLDS(!other);
    }
    const char *paths[] = {PATH, "./handles.idx", "hard.idx", "soft.idx"};
    nardsill_report report = NARDSILL_REPORT;
    for (int i = 0; i < 4; i++) {
        IS(NARDSILL_LOCKED, nardsill_open(paths[i], 64, &other));
        IS(NARDSILL_LOCKED, nardsill_check(paths[i], 64, &report));
    }
    IS(0, insert(index, "second", 1, 1));
    IS(0, nardsill_commit(index, 0));
    HOLDS(!is_free(PATH));
    IS(0, nardsill_close(index));
    /* It is free at once, though the caller has it open; and the caller's descriptor is as it was. */
    HOLDS(is_free(PATH) && fcntl(fd, F_GETFD) >= 0 && fcntl(same, F_GETFD) >= 0);
    IS(0, nardsill_open_fd(same, 64, &index));
    close(fd);
    close(same);
    close(fresh);
    IS(2, counted(index));
    IS(0, nardsill_close(index));
    unlink("hard.idx");
    unlink("soft.idx");
}

/* What can't be an index's is refused, and is as it was. */
static void descriptors(void) {
    nardsill *index = 0;
    int fd = open(PATH, O_RDWR), ends[2];
    const int wrong[] = {open(PATH, O_RDONLY), open(PATH, O_WRONLY), open(PATH, O_RDWR | O_APPEND), open(PATH, O_PATH), -1, 900};
    for (int i = 0; i < 6; i++) IS(NARDSILL_MISUSE, nardsill_open_fd(wrong[i], 64, &index));
    for (int i = 0; i < 4; i++) close(wrong[i]);
    IS(NARDSILL_MISUSE, nardsill_open_fd(fd, 64, 0));
    IS(NARDSILL_BAD_LIMITS, nardsill_open_fd(fd, 15, &index));
    HOLDS(!index && is_free(PATH));
    /* A caller who holds the lock is another who has the file. */
    IS(0, flock(fd, LOCK_EX));
    IS(NARDSILL_LOCKED, nardsill_open_fd(fd, 64, &index));
    IS(NARDSILL_LOCKED, nardsill_open(PATH, 64, &index));
    HOLDS(!is_free(PATH));
    close(fd);
    HOLDS(!pipe(ends));
    HOLDS(nardsill_open_fd(ends[0], 64, &index));
    close(ends[0]);
    close(ends[1]);
    /* A file without a name is one too. */
    fd = open(PATH, O_RDWR);
    unlink(PATH);
    IS(0, nardsill_open_fd(fd, 64, &index));
    IS(2, counted(index));
    IS(0, nardsill_close(index));
    close(fd);
}

/* A standard stream that is closed gives the index's file no number on which something is printed. */
static void closed_streams(void) {
    int status;
    nardsill_limits small = {sizeof small, 4, 8, 65536, 0};
    pid_t child = fork();
    if (!child) {
        nardsill *index;
        nardsill_report report = NARDSILL_REPORT;
        close(0);
        close(1);
        close(2);
        unlink(PATH);
        int made = nardsill_create(PATH, &small), opened = nardsill_open(PATH, 16, &index);
        const char text[] = "what a program prints";
        int wrote = write(0, text, 20) > 0 || write(1, text, 20) > 0 || write(2, text, 20) > 0;
        if (made || opened || wrote || nardsill_close(index) || nardsill_check(PATH, 0, &report) || report.damage) _exit(1);
        _exit(0);
    }
    waitpid(child, &status, 0);
    IS(0, status);
}

/* A program that is started has no descriptor of an index. */
static void started_program(void) {
    nardsill *index = made(PATH, &limits);
    IS(0, system("for fd in /proc/self/fd/*; do readlink $fd; done | grep -q handles.idx && exit 1; exit 0"));
    IS(0, nardsill_close(index));
}

/* How a child that did this ended. */
static int in_child(int (*does)(nardsill *, nardsill_scan *), nardsill *index, nardsill_scan *scan) {
    int status;
    pid_t child = fork();
    if (!child) _exit(does(index, scan));
    waitpid(child, &status, 0);
    return WIFEXITED(status) ? WEXITSTATUS(status) : -1;
}

/* Whether this process has a descriptor of such a file. */
static int has_file(const char *name) {
    char path[40], target[400];
    for (int fd = 3; fd < 100; fd++) {
        sprintf(path, "/proc/self/fd/%d", fd);
        ssize_t len = readlink(path, target, sizeof target - 1);
        if (len < 0) continue;
        target[len] = 0;
        if (strstr(target, name)) return 1;
    }
    return 0;
}

/* Each call of a handle of the parent's is refused, and a file of its own is opened. */
static int uses_all(nardsill *index, nardsill_scan *scan) {
    nardsill_entry entry;
    nardsill_row row = {1, 1};
    nardsill_details details = NARDSILL_DETAILS;
    nardsill_scan *other;
    nardsill *own;
    HOLDS(!has_file(PATH));
    IS(NARDSILL_FORKED, insert(index, "child", 1, 1));
    IS(NARDSILL_FORKED, nardsill_insert_many(index, &entry, 1, 0));
    IS(NARDSILL_FORKED, nardsill_get(index, "a", 1, &row));
    IS(NARDSILL_FORKED, nardsill_delete_rows(index, &row, 1, 0));
    IS(NARDSILL_FORKED, nardsill_vacuum(index, 0));
    IS(NARDSILL_FORKED, nardsill_set_patience(index, 1));
    IS(NARDSILL_FORKED, nardsill_commit(index, 0));
    IS(NARDSILL_FORKED, nardsill_checkpoint(index, 0));
    IS(NARDSILL_FORKED, nardsill_info(index, &details));
    IS(NARDSILL_FORKED, nardsill_scan_open(index, 0, 0, 0, 0, &other));
    IS(NARDSILL_FORKED, nardsill_scan_open_prefix(index, "a", 1, &other));
    IS(NARDSILL_FORKED, nardsill_scan_next(scan, &entry));
    IS(NARDSILL_FORKED, nardsill_scan_restart(scan, 0, 0, 0, 0));
    IS(NARDSILL_LOCKED, nardsill_open(PATH, 64, &own));
    nardsill_scan_close(scan);
    IS(NARDSILL_FORKED, nardsill_close(index));
    own = made("child.idx", &limits);
    IS(0, insert(own, "own", 1, 1));
    IS(0, nardsill_close(own));
    remove("child.idx");
    return 0;
}

static int sleeps(nardsill *index, nardsill_scan *scan) {
    (void)index;
    (void)scan;
    alarm(60);
    pause();
    return 1;
}

static void children(void) {
    nardsill_scan *scan;
    nardsill_entry entry;
    nardsill *index = made(PATH, &limits);
    IS(0, insert(index, "a", 1, 1));
    IS(0, nardsill_scan_open(index, 0, 0, 0, 0, &scan));
    IS(0, in_child(uses_all, index, scan));
    /* The parent's are as they were. */
    IS(0, nardsill_scan_next(scan, &entry));
    nardsill_scan_close(scan);
    IS(0, insert(index, "b", 1, 1));
    pid_t child = fork();
    if (!child) _exit(sleeps(0, 0));
    IS(0, nardsill_close(index));
    HOLDS(is_free(PATH));
    IS(0, nardsill_open(PATH, 64, &index));
    IS(2, counted(index));
    IS(0, nardsill_close(index));
    kill(child, SIGKILL);
    waitpid(child, 0, 0);
}

/* A parent that ends without a closing leaves the file to who comes, though its child lives on. */
static void orphans(void) {
    nardsill *index;
    int ends[2];
    pid_t child;
    HOLDS(!pipe(ends));
    pid_t parent = fork();
    if (!parent) {
        if (nardsill_open(PATH, 64, &index)) _exit(1);
        child = fork();
        if (!child) _exit(sleeps(0, 0));
        if (write(ends[1], &child, sizeof child) != sizeof child) _exit(1);
        _exit(0);
    }
    HOLDS(read(ends[0], &child, sizeof child) == sizeof child);
    waitpid(parent, 0, 0);
    /* The child may not have come to close it yet. */
    for (int i = 0; i < 3000 && !is_free(PATH); i++) usleep(10000);
    HOLDS(is_free(PATH));
    kill(child, SIGKILL);
    close(ends[0]);
    close(ends[1]);
}

static void *works(void *is_over) {
    nardsill_report report = NARDSILL_REPORT;
    while (!__atomic_load_n((int *)is_over, __ATOMIC_SEQ_CST)) {
        nardsill *index = made("busy.idx", &limits);
        for (unsigned i = 0; i < 200; i++) {
            char key[20];
            sprintf(key, "%u", i);
            IS(0, insert(index, key, i, 1));
        }
        IS(0, nardsill_commit(index, 0));
        IS(0, nardsill_close(index));
        IS(0, nardsill_check("busy.idx", 0, &report));
        IS(200, report.entries);
    }
    return 0;
}

/* Children that live on while a thread makes, opens, closes and checks: none of them has a file of it. */
static void forks_beside_calls(void) {
    pthread_t thread;
    pid_t children[100];
    int is_over = 0;
    IS(0, pthread_create(&thread, 0, works, &is_over));
    for (int i = 0; i < 100; i++) {
        children[i] = fork();
        if (!children[i]) _exit(has_file("busy.idx") ? 1 : sleeps(0, 0));
        usleep(2000);
    }
    __atomic_store_n(&is_over, 1, __ATOMIC_SEQ_CST);
    pthread_join(thread, 0);
    for (int i = 0; i < 100; i++) {
        int status;
        kill(children[i], SIGKILL);
        waitpid(children[i], &status, 0);
        HOLDS(WIFSIGNALED(status));
    }
    unlink("busy.idx");
}

static void *commits(void *index) {
    for (unsigned i = 0;; i++) {
        char key[20];
        sprintf(key, "%u", i);
        if (insert(index, key, i, 2) || nardsill_commit(index, 0)) return 0;
        pthread_testcancel();
    }
}

static void *opens(void *none) {
    (void)none;
    for (;;) {
        nardsill *index;
        if (nardsill_open("cancel.idx", 64, &index) || nardsill_close(index)) return 0;
        pthread_testcancel();
    }
}

/* Threads that are cancelled in their calls: the next caller finds the lock free, and the file. */
static void cancelled_threads(void) {
    for (int round = 0; round < 30; round++) {
        pthread_t thread;
        void *ended;
        nardsill *index = made("cancel.idx", &limits);
        IS(0, pthread_create(&thread, 0, commits, index));
        usleep(1000u * (unsigned)(round % 7));
        pthread_cancel(thread);
        pthread_join(thread, &ended);
        HOLDS(ended == PTHREAD_CANCELED);
        IS(0, insert(index, "behind it", 1, 1));
        IS(0, nardsill_commit(index, 0));
        IS(0, nardsill_close(index));
        IS(0, pthread_create(&thread, 0, opens, 0));
        usleep(1000u * (unsigned)(round % 7));
        pthread_cancel(thread);
        pthread_join(thread, &ended);
        HOLDS(ended == PTHREAD_CANCELED && is_free("cancel.idx"));
    }
    unlink("cancel.idx");
}

int main(void) {
    IN_A_MINUTE(one_file());
    IN_A_MINUTE(descriptors());
    IN_A_MINUTE(closed_streams());
    IN_A_MINUTE(started_program());
    IN_A_MINUTE(children());
    IN_A_MINUTE(orphans());
    IN_A_MINUTE(forks_beside_calls());
    IN_A_MINUTE(cancelled_threads());
    unlink(PATH);
    puts("handles: all is as it must be");
    return 0;
}
