/* Refuses one growth of room, the call of malloc or realloc of the number REFUSED, and says so. tools/refused-growths has it
   loaded before a program. */
#define _GNU_SOURCE
#include <dlfcn.h>
#include <stdatomic.h>
#include <stdlib.h>
#include <string.h>
#include <unistd.h>

static const char SAID[] = "a growth is refused\n";

static int is_refused(void) {
    static atomic_long calls;
    const char *number = getenv("REFUSED");
    if (number == NULL || atomic_fetch_add(&calls, 1) + 1 != atol(number)) return 0;
    return write(2, SAID, strlen(SAID)) >= 0;
}

void *malloc(size_t size) {
    void *(*below)(size_t) = (void *(*)(size_t))dlsym(RTLD_NEXT, "malloc");
    return is_refused() ? NULL : below(size);
}

void *realloc(void *room, size_t size) {
    void *(*below)(void *, size_t) = (void *(*)(void *, size_t))dlsym(RTLD_NEXT, "realloc");
    return is_refused() ? NULL : below(room, size);
}
