/* The memory of streams without a heap: an array, whose octets are given out in order. An open takes a few blocks, and
 * the close or the finish gives them back; once no block is held, the array is free again. Where it does not suffice,
 * the open returns TMCHAN_MEMORY. platform/platform.h says what the library asks of these three functions. */
#include <stddef.h>
#include <stdint.h>

/* docs/BOARD.md says how much each configuration takes; a sender always takes this. */
#ifndef ARENA
#define ARENA 4400
#endif
_Static_assert(ARENA % 8 == 0, "blocks are whole numbers of eight octets");

typedef struct {
    _Bool ok;
    void *at;
} platform_memory;

static _Alignas(8) uint8_t arena[ARENA];
static size_t taken, blocks;

platform_memory rattle_alloc(size_t size, size_t align) {
    platform_memory memory = {size <= ARENA - taken, arena + taken};
    (void)align;
    if (memory.ok) taken += (size + 7) / 8 * 8, blocks++;
    return memory;
}

/* It is moved, and its old octets are free once all are. */
platform_memory rattle_realloc(void *block, size_t kept, size_t size, size_t align) {
    platform_memory memory = rattle_alloc(size, align);
    if (!memory.ok) return memory;
    for (size_t i = 0; i < kept && i < size; i++) ((uint8_t *)memory.at)[i] = ((uint8_t *)block)[i];
    blocks--;
    return memory;
}

void rattle_dealloc(void *block) {
    (void)block;
    if (--blocks == 0) taken = 0;
}
