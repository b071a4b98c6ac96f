/* What the shared table takes memory by, over malloc, where the kit has no library for the processor: as its liblibc_c.a for x86-64.
 * A size of 0 takes the alignment; the answer is whether there is memory, and where. */
#include <stdint.h>
#include <stdlib.h>

struct taken {
    uint64_t well;
    void *at;
};

static char nothing;

static struct taken told(void *at) {
    struct taken it = {at != NULL, at != NULL ? at : &nothing};
    return it;
}

struct taken rattle_alloc(size_t size, size_t align) { return told(malloc(size ? size : align)); }

struct taken rattle_realloc(void *at, size_t old, size_t size, size_t align) {
    (void)old;
    return told(realloc(at, size ? size : align));
}

void rattle_dealloc(void *at) { free(at); }
