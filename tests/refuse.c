/* Refuses one call of malloc or realloc, the one that REFUSED_GROWTH numbers from 1, and then writes to the file that REFUSED_TOLD numbers. */
#define _GNU_SOURCE
#include <dlfcn.h>
#include <stdatomic.h>
#include <stdlib.h>
#include <unistd.h>
static atomic_long growths;
static int is_refused(void) {
    const char *which = getenv("REFUSED_GROWTH");
    return which && atomic_fetch_add(&growths, 1) + 1 == atol(which) && write(atoi(getenv("REFUSED_TOLD")), "refused", 7) == 7;
}
void *malloc(size_t size) {
    static void *(*next)(size_t);
    if (!next) next = (void *(*)(size_t))dlsym(RTLD_NEXT, "malloc");
    return is_refused() ? 0 : next(size);
}
void *realloc(void *block, size_t size) {
    static void *(*next)(void *, size_t);
    if (!next) next = (void *(*)(void *, size_t))dlsym(RTLD_NEXT, "realloc");
    return is_refused() ? 0 : next(block, size);
}
