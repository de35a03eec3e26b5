/* Each growth of memory refused in turn: the call that needs it answers 1, or what it did before stands. */
#include "testing.h"
#include <unistd.h>

static long left = -1;

void *__real_malloc(size_t size);
void *__real_calloc(size_t count, size_t size);
void *__real_realloc(void *old, size_t size);
void *__real_aligned_alloc(size_t unit, size_t size);
int __real_posix_memalign(void **out, size_t unit, size_t size);

static int is_refused(void) { return left >= 0 && left-- == 0; }

void *__wrap_malloc(size_t size) { return is_refused() ? 0 : __real_malloc(size); }
void *__wrap_calloc(size_t count, size_t size) { return is_refused() ? 0 : __real_calloc(count, size); }
void *__wrap_realloc(void *old, size_t size) { return is_refused() ? 0 : __real_realloc(old, size); }
void *__wrap_aligned_alloc(size_t unit, size_t size) { return is_refused() ? 0 : __real_aligned_alloc(unit, size); }
int __wrap_posix_memalign(void **out, size_t unit, size_t size) { return is_refused() ? 12 : __real_posix_memalign(out, unit, size); }

static int ends_so(int status, const char *call) {
    if (!status || status == NARDSILL_NO_MEMORY) return status;
    fprintf(stderr, "refuse: %s answers %d\n", call, status);
    exit(1);
}

/* The calls of an open index: which of them need memory, and which must do without. */
static void work(nardsill *index) {
    nardsill_scan *scan;
    nardsill_entry entry;
    nardsill_row row = {1, 1};
    nardsill_details details = NARDSILL_DETAILS;
    uint64_t actions;
    IS(0, insert(index, "k", 1, 1));
    IS(0, nardsill_get(index, "k", 1, &row));
    IS(0, nardsill_info(index, &details));
    if (!ends_so(nardsill_scan_open(index, 0, 0, 0, 0, &scan), "scan_open")) {
        IS(0, nardsill_scan_next(scan, &entry));
        IS(0, nardsill_scan_restart(scan, 0, 0, 0, 0));
        nardsill_scan_close(scan);
    } else HOLDS(!scan);
    if (!ends_so(nardsill_scan_open_prefix(index, "k", 1, &scan), "scan_open_prefix")) nardsill_scan_close(scan);
    ends_so(nardsill_delete_rows(index, &row, 1, 0), "delete_rows");
    IS(0, nardsill_vacuum(index, 0));
    int copied = ends_so(nardsill_copy(index, "refuse-copy.idx", 0, 0, 0, 0), "copy");
    HOLDS(!access("refuse-copy.idx", F_OK) == !copied && access("refuse-copy.idx.nardsill-draft", F_OK));
    unlink("refuse-copy.idx");
    IS(0, nardsill_commit(index, &actions));
}

int main(void) {
    nardsill_limits limits = {sizeof limits, 50, 1024, 65536, 0};
    for (long n = 0;; n++) {
        nardsill *index;
        nardsill_report report = NARDSILL_REPORT;
        unlink("refuse.idx");
        left = n;
        int made = ends_so(nardsill_create("refuse.idx", &limits), "create");
        HOLDS(!access("refuse.idx", F_OK) == !made && access("refuse.idx.nardsill-draft", F_OK));
        int opened = made ? made : ends_so(nardsill_open("refuse.idx", 16, &index), "open");
        if (!opened) {
            work(index);
            IS(0, nardsill_close(index));
            ends_so(nardsill_check("refuse.idx", 16, &report), "check");
        } else HOLDS(made || !index);
        int is_over = left >= 0;
        left = -1;
        if (!is_over) continue;
        printf("refuse: %ld growths, each refused\n", n);
        unlink("refuse.idx");
        return 0;
    }
}
