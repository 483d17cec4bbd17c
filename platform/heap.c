/* The heap: the C library's malloc, realloc and free.
 *
 * These have to be of one allocator. Proved code has 64-bit pointers, and wants blocks aligned to 16 octets, as those of
 * glibc and musl are on 64-bit processors. */
#include "platform.h"

#include <stdlib.h>

static char unowned;

static platform_memory answer(void *at) {
    platform_memory memory = {at != NULL, at ? at : &unowned};
    return memory;
}

/* malloc may answer NULL for no octets, as where it is refused. */
platform_memory rattle_alloc(size_t size, size_t align) { return answer(malloc(size ? size : align)); }

platform_memory rattle_realloc(void *at, size_t kept, size_t size, size_t align) {
    (void)kept;
    return answer(realloc(at, size ? size : align));
}

void rattle_dealloc(void *at) { free(at); }
