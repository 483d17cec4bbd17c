/* The heap of the module: three functions that are linked to it, those of platform/heap.c or, on a board, one's own.
 * platform/platform.h says what each does; for this C memory that is aligned to 8 octets is enough. A call that
 * opens a stream takes all its memory at once, and gives it back in any order. */
#ifndef PORTABLE_HEAP_H
#define PORTABLE_HEAP_H

typedef struct {
    _Bool ok;
    void *at;
} platform_memory;
platform_memory rattle_alloc(size_t size, size_t align);
platform_memory rattle_realloc(void *at, size_t kept, size_t size, size_t align);
void rattle_dealloc(void *at);

/* Whether there is memory, and its address: of an octet that the caller doesn't own, where there is none. */
INLINE struct_i64_i64 heap_answer(platform_memory memory) {
    struct_i64_i64 answer = {memory.ok, (uint64_t)(uintptr_t)memory.at};
    return answer;
}

/* More than size_t holds is refused here. */
INLINE struct_i64_i64 heap_refusal(void) {
    static uint8_t unowned;
    platform_memory none = {0, &unowned};
    return heap_answer(none);
}

INLINE struct_i64_i64 outside_rattle_alloc(uint64_t octets, uint64_t alignment) {
    if (octets > PTRDIFF_MAX) return heap_refusal();
    return heap_answer(rattle_alloc((size_t)octets, (size_t)alignment));
}

INLINE struct_i64_i64 outside_rattle_realloc(address at, uint64_t kept, uint64_t octets, uint64_t alignment) {
    if (octets > PTRDIFF_MAX) return heap_refusal();
    return heap_answer(rattle_realloc(AT(at), (size_t)kept, (size_t)octets, (size_t)alignment));
}

INLINE void outside_rattle_dealloc(address at) { rattle_dealloc(AT(at)); }

#endif
