/* Refuses the Nth allocation (malloc or realloc) of a program that preloads it. REFUSE is N. If there is an Nth allocation, a byte
   is written to descriptor 9. */
#define _GNU_SOURCE
#include <dlfcn.h>
#include <stdlib.h>
#include <unistd.h>

static long left = -1;

static int is_refused(void) {
    if (left < 0) {
        const char *n = getenv("REFUSE");
        left = n ? atol(n) : 0;
    }
    if (left == 0 || --left > 0) return 0;
    (void)!write(9, "r", 1);
    return 1;
}

void *malloc(size_t size) {
    static void *(*next)(size_t);
    if (!next) next = (void *(*)(size_t))dlsym(RTLD_NEXT, "malloc");
    return is_refused() ? NULL : next(size);
}

void *realloc(void *old, size_t size) {
    static void *(*next)(void *, size_t);
    if (!next) next = (void *(*)(void *, size_t))dlsym(RTLD_NEXT, "realloc");
    return is_refused() ? NULL : next(old, size);
}
