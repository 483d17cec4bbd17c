/* Numbers of 8 to 128 bits: what LLVM's functions of these names do. */
#ifndef PORTABLE_NUMBERS_H
#define PORTABLE_NUMBERS_H

#define OF_WIDTH(n)                                                                                                    \
    INLINE uint##n##_t umin##n(uint##n##_t a, uint##n##_t b) { return a < b ? a : b; }                                 \
    INLINE uint##n##_t umax##n(uint##n##_t a, uint##n##_t b) { return a > b ? a : b; }                                 \
    INLINE uint##n##_t smin##n(uint##n##_t a, uint##n##_t b) { return (int##n##_t)a < (int##n##_t)b ? a : b; }         \
    INLINE uint##n##_t smax##n(uint##n##_t a, uint##n##_t b) { return (int##n##_t)a > (int##n##_t)b ? a : b; }         \
    INLINE uint##n##_t abs##n(uint##n##_t a) { return (int##n##_t)a < 0 ? (uint##n##_t)(0u - a) : a; }                 \
    INLINE uint##n##_t uadd_sat##n(uint##n##_t a, uint##n##_t b) {                                                     \
        uint##n##_t sum = (uint##n##_t)(a + b);                                                                        \
        return sum < a ? (uint##n##_t)-1 : sum;                                                                        \
    }                                                                                                                  \
    INLINE uint##n##_t usub_sat##n(uint##n##_t a, uint##n##_t b) { return a < b ? 0 : (uint##n##_t)(a - b); }          \
    INLINE uint8_t uadd_with_overflow##n(uint##n##_t a, uint##n##_t b, uint##n##_t *sum) {                             \
        *sum = (uint##n##_t)(a + b);                                                                                   \
        return *sum < a;                                                                                               \
    }                                                                                                                  \
    INLINE uint8_t usub_with_overflow##n(uint##n##_t a, uint##n##_t b, uint##n##_t *rest) {                            \
        *rest = (uint##n##_t)(a - b);                                                                                  \
        return a < b;                                                                                                  \
    }                                                                                                                  \
    INLINE uint##n##_t fshl##n(uint##n##_t a, uint##n##_t b, uint##n##_t s) {                                          \
        s %= n;                                                                                                        \
        return s ? (uint##n##_t)((uint64_t)a << s | b >> (n - s)) : a;                                                 \
    }                                                                                                                  \
    INLINE uint##n##_t fshr##n(uint##n##_t a, uint##n##_t b, uint##n##_t s) {                                          \
        s %= n;                                                                                                        \
        return s ? (uint##n##_t)((uint64_t)a << (n - s) | b >> s) : b;                                                 \
    }
OF_WIDTH(8)
OF_WIDTH(16)
OF_WIDTH(32)
OF_WIDTH(64)

INLINE uint8_t umul_with_overflow32(uint32_t a, uint32_t b, uint32_t *product) {
    *product = a * b;
    return (uint64_t)a * b >> 32 != 0;
}

INLINE uint8_t umul_with_overflow64(uint64_t a, uint64_t b, uint64_t *product) {
    *product = a * b;
    return a && *product / a != b;
}

#if GNU
INLINE uint64_t ctpop64(uint64_t x) { return (uint64_t)__builtin_popcountll(x); }
INLINE uint64_t cttz64(uint64_t x) { return x ? (uint64_t)__builtin_ctzll(x) : 64; }
INLINE uint64_t ctlz64(uint64_t x) { return x ? (uint64_t)__builtin_clzll(x) : 64; }
#else
INLINE uint64_t ctpop64(uint64_t x) {
    uint64_t n = 0;
    for (; x; x &= x - 1) n++;
    return n;
}
INLINE uint64_t cttz64(uint64_t x) {
    uint64_t n = 0;
    while (n < 64 && !(x >> n & 1)) n++;
    return n;
}
INLINE uint64_t ctlz64(uint64_t x) {
    uint64_t n = 0;
    while (n < 64 && !(x >> (63 - n) & 1)) n++;
    return n;
}
#endif
#define COUNTS(n)                                                                                                      \
    INLINE uint##n##_t ctpop##n(uint##n##_t x) { return (uint##n##_t)ctpop64(x); }                                     \
    INLINE uint##n##_t cttz##n(uint##n##_t x) { return x ? (uint##n##_t)cttz64(x) : n; }                               \
    INLINE uint##n##_t ctlz##n(uint##n##_t x) { return (uint##n##_t)(ctlz64(x) - (64 - n)); }
COUNTS(8)
COUNTS(16)
COUNTS(32)

INLINE uint16_t bswap16(uint16_t x) { return (uint16_t)((uint32_t)x << 8 | x >> 8); }
INLINE uint32_t bswap32(uint32_t x) { return x << 24 | (x & 0xff00u) << 8 | (x >> 8 & 0xff00u) | x >> 24; }
INLINE uint64_t bswap64(uint64_t x) { return (uint64_t)bswap32((uint32_t)x) << 32 | bswap32((uint32_t)(x >> 32)); }

/* Doubles: each sum, product and quotient is rounded, to 53 bits. Where C's compiler keeps more there are no such
 * calls, but for x87. */

#if FLT_EVAL_METHOD == 0 || FLT_EVAL_METHOD == 1
INLINE double real_add(double a, double b) { return a + b; }
INLINE double real_sub(double a, double b) { return a - b; }
INLINE double real_div(double a, double b) { return a / b; }
INLINE double real_mul(double a, double b) {
    volatile double product = a * b; /* so that it is not added to without that rounding */
    return product;
}
INLINE double real_of(uint64_t x) { return (double)x; }
#elif GNU && defined(__i386__)
#define REAL(name, operator)                                                                                           \
    INLINE double real_##name(double a, double b) {                                                                    \
        volatile double x = a, y = b, made;                                                                            \
        uint16_t kept, set;                                                                                            \
        __asm__ volatile("fnstcw %0" : "=m"(kept));                                                                    \
        set = (kept & 0xfcff) | 0x0200;                                                                                \
        __asm__ volatile("fldcw %0" : : "m"(set));                                                                     \
        made = x operator y;                                                                                           \
        __asm__ volatile("fldcw %0" : : "m"(kept));                                                                    \
        return made;                                                                                                   \
    }
REAL(add, +)
REAL(sub, -)
REAL(mul, *)
REAL(div, /)
INLINE double real_of(uint64_t x) {
    volatile double made = (double)x;
    return made;
}
#endif

/* 128 bits */

#if GNU && defined(__SIZEOF_INT128__)
__extension__ typedef unsigned __int128 u128;
#define U128(high, low) ((u128)(high) << 64 | (u128)(low))
#define low128(x) ((uint64_t)(x))
#define high128(x) ((uint64_t)((x) >> 64))
#define add128(a, b) ((a) + (b))
#define sub128(a, b) ((a) - (b))
#define mul128(a, b) ((a) * (b))
#define and128(a, b) ((a) & (b))
#define or128(a, b) ((a) | (b))
#define xor128(a, b) ((a) ^ (b))
#define shl128(a, n) ((a) << (n))
#define lshr128(a, n) ((a) >> (n))
#define udiv128(a, b) ((a) / (b))
#define urem128(a, b) ((a) % (b))
#define eq128(a, b) ((a) == (b))
#define ult128(a, b) ((a) < (b))
#else
typedef struct {
    uint64_t low, high;
} u128;
INLINE u128 U128(uint64_t high, uint64_t low) {
    u128 x = {low, high};
    return x;
}
#define low128(x) ((x).low)
#define high128(x) ((x).high)
INLINE u128 add128(u128 a, u128 b) {
    uint64_t low = a.low + b.low;
    return U128(a.high + b.high + (low < a.low), low);
}
INLINE u128 sub128(u128 a, u128 b) { return U128(a.high - b.high - (a.low < b.low), a.low - b.low); }
INLINE u128 and128(u128 a, u128 b) { return U128(a.high & b.high, a.low & b.low); }
INLINE u128 or128(u128 a, u128 b) { return U128(a.high | b.high, a.low | b.low); }
INLINE u128 xor128(u128 a, u128 b) { return U128(a.high ^ b.high, a.low ^ b.low); }
INLINE u128 shl128(u128 a, unsigned n) {
    if (n > 63) return U128(a.low << (n - 64), 0);
    return n ? U128(a.high << n | a.low >> (64 - n), a.low << n) : a;
}
INLINE u128 lshr128(u128 a, unsigned n) {
    if (n > 63) return U128(0, a.high >> (n - 64));
    return n ? U128(a.high >> n, a.low >> n | a.high << (64 - n)) : a;
}
INLINE u128 mul128(u128 a, u128 b) {
    uint64_t a0 = (uint32_t)a.low, a1 = a.low >> 32, b0 = (uint32_t)b.low, b1 = b.low >> 32;
    uint64_t least = a0 * b0, middle = a1 * b0 + (least >> 32), other = (uint32_t)middle + a0 * b1;
    uint64_t high = a1 * b1 + (middle >> 32) + (other >> 32) + a.low * b.high + a.high * b.low;
    return U128(high, other << 32 | (uint32_t)least);
}
#define eq128(a, b) ((a).low == (b).low && (a).high == (b).high)
INLINE int ult128(u128 a, u128 b) { return a.high < b.high || (a.high == b.high && a.low < b.low); }
INLINE u128 udiv128(u128 a, u128 b) {
    u128 quotient = {0, 0}, rest = {0, 0};
    for (unsigned i = 128; i-- > 0;) {
        rest = shl128(rest, 1);
        rest.low |= lshr128(a, i).low & 1;
        if (!ult128(rest, b)) {
            rest = sub128(rest, b);
            quotient = or128(quotient, shl128(U128(0, 1), i));
        }
    }
    return quotient;
}
#define urem128(a, b) sub128(a, mul128(udiv128(a, b), b))
#endif
#define ne128(a, b) (!(eq128(a, b)))
#define ugt128(a, b) ult128(b, a)
#define uge128(a, b) (!ult128(a, b))
#define ule128(a, b) (!ult128(b, a))

INLINE u128 load128(const uint8_t *at) { return U128(load64(at + 8), load64(at)); }

INLINE void store128(uint8_t *at, u128 x) {
    store64(at, low128(x));
    store64(at + 8, high128(x));
}

INLINE u128 usub_sat128(u128 a, u128 b) {
    if (ult128(a, b)) return U128(0, 0);
    return sub128(a, b);
}

#endif
