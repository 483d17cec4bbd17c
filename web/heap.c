/* The heap of the modules for WebAssembly: a list of free blocks in the memory behind the module's own, of which the first that is large
 * enough is taken. It grows as the host allows. The host takes its arrays from it too (tmchan_alloc, tmchan_free). There is one thread.
 * What the calls have to give is said in platform/platform.h; no proof covers this file. The kit's compiler comes without headers. */
typedef __SIZE_TYPE__ size_t;

typedef struct block {
    size_t size; /* of the whole block, in octets, a multiple of 16 */
    struct block *next;
} block;

enum { HEAD = 16, PAGE = 65536 };

extern unsigned char __heap_base; /* of the linker */
static char unowned[16];
static block *holes; /* by address, no two touching */
static size_t end;   /* of what holes and taken blocks are in; 0 before the first */

void *memcpy(void *restrict to, const void *restrict from, size_t n) {
    __builtin_memcpy(to, from, n); /* one instruction, as the next two are */
    return to;
}

void *memmove(void *to, const void *from, size_t n) {
    __builtin_memmove(to, from, n);
    return to;
}

void *memset(void *to, int octet, size_t n) {
    __builtin_memset(to, octet, n);
    return to;
}

/* Joins two holes where the first one ends at the second. */
static void join(block *low) {
    if (low->next && (char *)low + low->size == (char *)low->next) {
        low->size += low->next->size;
        low->next = low->next->next;
    }
}

static void give(block *it) {
    block *low = 0;
    for (block *hole = holes; hole && hole < it; hole = hole->next) low = hole;
    if (low) {
        it->next = low->next;
        low->next = it;
    } else {
        it->next = holes;
        holes = it;
    }
    join(it);
    if (low) join(low);
}

static block *take(size_t size) {
    for (block **at = &holes; *at; at = &(*at)->next) {
        block *it = *at;
        if (it->size < size) continue;
        if (it->size - size < 2 * HEAD) {
            *at = it->next;
            return it;
        }
        it->size -= size; /* the end of the hole is taken */
        block *taken = (block *)((char *)it + it->size);
        taken->size = size;
        return taken;
    }
    return 0;
}

/* Has the host add pages for a block of `size` octets. Returns 0 where it does not. */
static int grow(size_t size) {
    if (!end) end = ((size_t)&__heap_base + 15) / 16 * 16;
    size_t old = __builtin_wasm_memory_size(0) * PAGE, more = 0;
    if (end + size > old) {
        more = (end + size - old + PAGE - 1) / PAGE;
        /* -1 where the host refuses; binaryen cuts it to 32 bits, as it does addresses. No memory has as many pages. */
        if ((unsigned)__builtin_wasm_memory_grow(0, more) == (unsigned)-1) return 0;
    }
    block *all = (block *)end;
    all->size = old + more * PAGE - end;
    end += all->size;
    give(all);
    return 1;
}

void *tmchan_alloc(size_t n) {
    if (n > (size_t)1 << 40) return 0;
    size_t size = ((n ? n : 1) + HEAD + 15) / 16 * 16;
    block *it = take(size);
    if (!it && grow(size)) it = take(size);
    return it ? (char *)it + HEAD : 0;
}

void tmchan_free(void *at) {
    if (at) give((block *)((char *)at - HEAD));
}

typedef struct {
    _Bool ok;
    void *at;
} tried;

tried rattle_alloc(size_t size, size_t align) {
    (void)align;
    void *at = tmchan_alloc(size);
    return (tried){at != 0, at ? at : unowned};
}

tried rattle_realloc(void *at, size_t kept, size_t size, size_t align) {
    tried it = rattle_alloc(size, align);
    if (it.ok) {
        memcpy(it.at, at, kept < size ? kept : size);
        tmchan_free(at);
    }
    return it;
}

void rattle_dealloc(void *at) { tmchan_free(at); }

/* What the compiler calls of its own library: the product of two numbers of 128 bits, and their shifts. */
typedef unsigned long long word;
typedef union {
    __int128 all;
    struct {
        word low, high;
    };
} wide;

__int128 __multi3(__int128 a, __int128 b) {
    wide x = {a}, y = {b}, z;
    word mask = 0xffffffff, xl = x.low & mask, xh = x.low >> 32, yl = y.low & mask, yh = y.low >> 32;
    word low = xl * yl, middle = xh * yl + (low >> 32), other = (middle & mask) + xl * yh;
    z.low = (other << 32) | (low & mask);
    z.high = xh * yh + (middle >> 32) + (other >> 32) + x.low * y.high + x.high * y.low;
    return z.all;
}

__int128 __ashlti3(__int128 a, int by) {
    wide x = {a}, z;
    z.low = by > 63 ? 0 : x.low << by;
    z.high = by > 63 ? x.low << (by & 63) : by ? x.high << by | x.low >> (64 - by) : x.high;
    return z.all;
}

__int128 __lshrti3(__int128 a, int by) {
    wide x = {a}, z;
    z.high = by > 63 ? 0 : x.high >> by;
    z.low = by > 63 ? x.high >> (by & 63) : by ? x.low >> by | x.high << (64 - by) : x.low;
    return z.all;
}
