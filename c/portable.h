/* What C that tools/to-c made of a module of LLVM needs: memory as little-endian octets, addresses, numbers,
 * vectors.
 *
 * It takes C11 with integers of 8 to 64 bits in two's complement, and right shifts of negative numbers that keep the
 * sign. Of alignment, the order of octets and the size of pointers, 32 or 64 bits, it assumes nothing. With gcc and
 * clang it is faster by what only GNU C has; a big-endian processor needs these. Macros that choose, all optional:
 *
 * PORTABLE_NO_THREADS   a program starts no threads (portable_program.h)
 * PORTABLE_NO_SHUFFLE   x86-64 without -march is never asked for SSE4.1 (portable_vectors.h)
 * PORTABLE_PLAIN        nothing of GNU C */
#ifndef PORTABLE_H
#define PORTABLE_H

#include <float.h>
#include <stddef.h>
#include <stdint.h>

#if defined(__GNUC__) && !defined(PORTABLE_PLAIN)
#define GNU 1
#else
#define GNU 0
#endif

/* With -ffreestanding there may be no string.h, and the compiler places a copy of a few octets by this name alone. */
#if __STDC_HOSTED__ || !GNU
#include <string.h>
#else
#define memcpy __builtin_memcpy
#define memmove __builtin_memmove
#define memset __builtin_memset
#endif

#if defined(__BYTE_ORDER__)
#define BIG_ENDIAN_MEMORY (__BYTE_ORDER__ == __ORDER_BIG_ENDIAN__)
#elif defined(_WIN32) || defined(__x86_64__) || defined(__i386__) || defined(__aarch64__) || defined(__riscv)
#define BIG_ENDIAN_MEMORY 0
#else
#error "the compiler doesn't say how octets of numbers are ordered: define __BYTE_ORDER__ and __ORDER_BIG_ENDIAN__"
#endif
#if BIG_ENDIAN_MEMORY && !GNU
#error "big-endian processors need gcc or clang: addresses in constants are turned by a constructor"
#endif

#if GNU
#define INLINE static inline __attribute__((always_inline, unused))
#define NEVER __builtin_unreachable()
#define TRAP __builtin_trap()
#define COMPILER_FENCE __asm__ volatile("" ::: "memory")
#define ROOM(n) struct { uint8_t octets[n] __attribute__((aligned(16))); }
#else
#include <stdlib.h>
#define INLINE static inline
#define NEVER abort()
#define TRAP abort()
#define COMPILER_FENCE ((void)0)
#define ROOM(n) union { uint64_t alignment; uint8_t octets[n]; }
#endif

/* An address of the module. It has 64 bits in memory, and any eight octets that are moved may pass through one; so
 * where C's pointer has fewer, it is a number. AT is C's address, ADDRESS the module's. */
#if UINTPTR_MAX > 0xffffffffu
typedef uint8_t *address;
typedef ptrdiff_t offset;
#define AT(x) (x)
#define ADDRESS(x) ((address)(uintptr_t)(x))
#else
typedef uint64_t address;
typedef int64_t offset;
#define AT(x) ((uint8_t *)(uintptr_t)(x))
#define ADDRESS(x) ((address)(uintptr_t)(x))
#endif
#define number_of(x) ((uint64_t)(x))
#define address_of(x) ((address)(x))

/* Memory */

#if BIG_ENDIAN_MEMORY
#define TURNED8(x) (x)
#define TURNED16(x) __builtin_bswap16(x)
#define TURNED32(x) __builtin_bswap32(x)
#define TURNED64(x) __builtin_bswap64(x)
#else
#define TURNED8(x) (x)
#define TURNED16(x) (x)
#define TURNED32(x) (x)
#define TURNED64(x) (x)
#endif

#define MEMORY(n)                                                                                                      \
    INLINE uint##n##_t load##n(const void *at) {                                                                       \
        uint##n##_t x;                                                                                                 \
        memcpy(&x, at, n / 8);                                                                                         \
        return TURNED##n(x);                                                                                           \
    }                                                                                                                  \
    INLINE void store##n(void *at, uint##n##_t x) {                                                                    \
        x = TURNED##n(x);                                                                                              \
        memcpy(at, &x, n / 8);                                                                                         \
    }
MEMORY(16)
MEMORY(32)
MEMORY(64)

INLINE uint64_t load_octets(const uint8_t *at, int n) {
    uint64_t x = 0;
    while (n--) x = x << 8 | at[n];
    return x;
}

INLINE void store_octets(uint8_t *at, uint64_t x, int n) {
    for (int k = 0; k < n; k++) at[k] = (uint8_t)(x >> 8 * k);
}

/* Addresses stand in memory as numbers do. Those of constants stand as C has them until they are turned as the
 * program is loaded. */
typedef union {
    const void *at;
    void (*call)(void);
    uint8_t octets[8];
    uint64_t alignment;
} held_address;

#if BIG_ENDIAN_MEMORY
#define CONSTANT_ADDRESSES
#define AT_LOAD __attribute__((constructor))
INLINE address held(const void *at) { return address_of(load64(at)); }
INLINE void hold(void *at, address x) { store64(at, number_of(x)); }
#else
#define CONSTANT_ADDRESSES const
INLINE address held(const void *at) {
    address x;
    memcpy(&x, at, 8);
    return x;
}
INLINE void hold(void *at, address x) { memcpy(at, &x, 8); }
#endif

INLINE double double_of(uint64_t bits) {
    double x;
    memcpy(&x, &bits, 8);
    return x;
}

INLINE uint64_t bits_of(double x) {
    uint64_t bits;
    memcpy(&bits, &x, 8);
    return bits;
}

/* A pair of numbers, as the calls of the heap answer it. */
typedef struct {
    uint64_t f0, f1;
} struct_i64_i64;

#include "portable_numbers.h"
#include "portable_vectors.h"

#endif
