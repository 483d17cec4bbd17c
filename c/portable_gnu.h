/* Vectors by those of GNU C (gcc, clang), on little-endian processors; a few calls are faster by x86-64's or ARM's
 * own. */
#ifndef PORTABLE_GNU_H
#define PORTABLE_GNU_H

#if defined(__SSE4_1__)
#include <smmintrin.h>
#elif defined(__SSSE3__)
#include <tmmintrin.h>
#elif defined(__SSE2__)
#include <emmintrin.h>
#elif defined(__ARM_NEON)
#include <arm_neon.h>
#endif

/* How a vector is passed to a function, which differs by options, doesn't matter: these are all placed where they
 * are called. */
#pragma GCC diagnostic ignored "-Wpsabi"

/* On a processor without vectors placing all calls takes the compiler minutes. */
#if defined(__SSE2__) || defined(__ARM_NEON)
#define VECTOR INLINE
#else
#define VECTOR static __attribute__((noinline, unused))
#endif

#define COMPARISON(w, name, type, operator)                                                                            \
    VECTOR v##w v##w##_##name(v##w a, v##w b) { return (v##w)((type##w)a operator(type##w) b); }
#define VECTORS(w)                                                                                                     \
    typedef uint##w##_t v##w __attribute__((vector_size(16)));                                                         \
    typedef int##w##_t signed_v##w __attribute__((vector_size(16)));                                                   \
    VECTOR v##w v##w##_zero(void) { return (v##w){0}; }                                                                \
    VECTOR v##w v##w##_all(uint##w##_t x) { return x - (v##w){0}; }                                                    \
    VECTOR v##w v##w##_add(v##w a, v##w b) { return a + b; }                                                           \
    VECTOR v##w v##w##_sub(v##w a, v##w b) { return a - b; }                                                           \
    VECTOR v##w v##w##_mul(v##w a, v##w b) { return a * b; }                                                           \
    VECTOR v##w v##w##_and(v##w a, v##w b) { return a & b; }                                                           \
    VECTOR v##w v##w##_or(v##w a, v##w b) { return a | b; }                                                            \
    VECTOR v##w v##w##_xor(v##w a, v##w b) { return a ^ b; }                                                           \
    VECTOR v##w v##w##_shl(v##w a, int n) { return a << n; }                                                           \
    VECTOR v##w v##w##_lshr(v##w a, int n) { return a >> n; }                                                          \
    VECTOR v##w v##w##_ashr(v##w a, int n) { return (v##w)((signed_v##w)a >> n); }                                     \
    VECTOR v##w v##w##_shl_each(v##w a, v##w b) { return a << b; }                                                     \
    VECTOR v##w v##w##_lshr_each(v##w a, v##w b) { return a >> b; }                                                    \
    COMPARISON(w, eq, v, ==)                                                                                           \
    COMPARISON(w, ne, v, !=)                                                                                           \
    VECTOR v##w v##w##_umin(v##w a, v##w b) { return least##w(a, b); }                                                 \
    VECTOR v##w v##w##_umax(v##w a, v##w b) { return most##w(a, b); }                                                  \
    VECTOR v##w v##w##_ule(v##w a, v##w b) { return (v##w)(v##w##_umin(a, b) == a); }                                  \
    VECTOR v##w v##w##_uge(v##w a, v##w b) { return (v##w)(v##w##_umax(a, b) == a); }                                  \
    VECTOR v##w v##w##_ult(v##w a, v##w b) { return ~(v##w)(v##w##_umin(a, b) == b); }                                 \
    VECTOR v##w v##w##_ugt(v##w a, v##w b) { return ~(v##w)(v##w##_umax(a, b) == b); }                                 \
    COMPARISON(w, slt, signed_v, <)                                                                                    \
    COMPARISON(w, sgt, signed_v, >)                                                                                    \
    COMPARISON(w, sle, signed_v, <=)                                                                                   \
    COMPARISON(w, sge, signed_v, >=)                                                                                   \
    VECTOR v##w v##w##_choose(v##w mask, v##w a, v##w b) { return (mask & a) | (~mask & b); }                          \
    VECTOR v##w v##w##_load(const void *at) {                                                                          \
        v##w x;                                                                                                        \
        memcpy(&x, at, 16);                                                                                            \
        return x;                                                                                                      \
    }                                                                                                                  \
    VECTOR void v##w##_store(void *at, v##w x) { memcpy(at, &x, 16); }                                                 \
    VECTOR v##w v##w##_load_some(const void *at, size_t octets) {                                                      \
        v##w x = {0};                                                                                                  \
        memcpy(&x, at, octets);                                                                                        \
        return x;                                                                                                      \
    }                                                                                                                  \
    VECTOR void v##w##_store_some(void *at, v##w x, size_t octets) { memcpy(at, &x, octets); }                         \
    VECTOR v##w v##w##_set(v##w x, int lane, uint##w##_t item) {                                                       \
        x[lane] = item;                                                                                                \
        return x;                                                                                                      \
    }

#define CHOICE_LEAST(w, a, b) ((((v##w)(a < b)) & a) | (~(v##w)(a < b) & b))
#define CHOICE_MOST(w, a, b) ((((v##w)(a > b)) & a) | (~(v##w)(a > b) & b))
#define least64(a, b) CHOICE_LEAST(64, a, b)
#define most64(a, b) CHOICE_MOST(64, a, b)
#if defined(__SSE4_1__)
#define least8(a, b) (v8) _mm_min_epu8((__m128i)a, (__m128i)b)
#define most8(a, b) (v8) _mm_max_epu8((__m128i)a, (__m128i)b)
#define least16(a, b) (v16) _mm_min_epu16((__m128i)a, (__m128i)b)
#define most16(a, b) (v16) _mm_max_epu16((__m128i)a, (__m128i)b)
#define least32(a, b) (v32) _mm_min_epu32((__m128i)a, (__m128i)b)
#define most32(a, b) (v32) _mm_max_epu32((__m128i)a, (__m128i)b)
#elif defined(__SSE2__)
#define least8(a, b) (v8) _mm_min_epu8((__m128i)a, (__m128i)b)
#define most8(a, b) (v8) _mm_max_epu8((__m128i)a, (__m128i)b)
#define least16(a, b) a - (v16)_mm_subs_epu16((__m128i)a, (__m128i)b)
#define most16(a, b) b + (v16)_mm_subs_epu16((__m128i)a, (__m128i)b)
#define least32(a, b) CHOICE_LEAST(32, a, b)
#define most32(a, b) CHOICE_MOST(32, a, b)
#elif defined(__ARM_NEON)
#define least8(a, b) (v8) vminq_u8((uint8x16_t)a, (uint8x16_t)b)
#define most8(a, b) (v8) vmaxq_u8((uint8x16_t)a, (uint8x16_t)b)
#define least16(a, b) (v16) vminq_u16((uint16x8_t)a, (uint16x8_t)b)
#define most16(a, b) (v16) vmaxq_u16((uint16x8_t)a, (uint16x8_t)b)
#define least32(a, b) (v32) vminq_u32((uint32x4_t)a, (uint32x4_t)b)
#define most32(a, b) (v32) vmaxq_u32((uint32x4_t)a, (uint32x4_t)b)
#else
#define least8(a, b) CHOICE_LEAST(8, a, b)
#define most8(a, b) CHOICE_MOST(8, a, b)
#define least16(a, b) CHOICE_LEAST(16, a, b)
#define most16(a, b) CHOICE_MOST(16, a, b)
#define least32(a, b) CHOICE_LEAST(32, a, b)
#define most32(a, b) CHOICE_MOST(32, a, b)
#endif
VECTORS(8)
VECTORS(16)
VECTORS(32)
VECTORS(64)

#define CASTS(w)                                                                                                       \
    VECTOR v##w v##w##_from_v8(v8 x) { return (v##w)x; }                                                               \
    VECTOR v##w v##w##_from_v16(v16 x) { return (v##w)x; }                                                             \
    VECTOR v##w v##w##_from_v32(v32 x) { return (v##w)x; }                                                             \
    VECTOR v##w v##w##_from_v64(v64 x) { return (v##w)x; }
CASTS(8)
CASTS(16)
CASTS(32)
CASTS(64)

#define v8_of(...) ((v8){__VA_ARGS__})
#define v16_of(...) ((v16){__VA_ARGS__})
#define v32_of(...) ((v32){__VA_ARGS__})
#define v64_of(...) ((v64){__VA_ARGS__})
#define v8_at(x, lane) ((x)[lane])
#define v16_at(x, lane) ((x)[lane])
#define v32_at(x, lane) ((x)[lane])
#define v64_at(x, lane) ((x)[lane])

/* Lanes of two parts, those of the second after those of the first. */
#if defined(__clang__) || __GNUC__ >= 12
#define LANES(w, a, b, ...) __builtin_shufflevector(a, b, __VA_ARGS__)
#else
#define LANES(w, a, b, ...) __builtin_shuffle(a, b, (v##w){__VA_ARGS__})
#endif
#define v8_pick(x, ...) LANES(8, x, x, __VA_ARGS__)
#define v16_pick(x, ...) LANES(16, x, x, __VA_ARGS__)
#define v32_pick(x, ...) LANES(32, x, x, __VA_ARGS__)
#define v64_pick(x, ...) LANES(64, x, x, __VA_ARGS__)
#define v8_pick_two(a, b, ...) LANES(8, a, b, __VA_ARGS__)
#define v16_pick_two(a, b, ...) LANES(16, a, b, __VA_ARGS__)
#define v32_pick_two(a, b, ...) LANES(32, a, b, __VA_ARGS__)
#define v64_pick_two(a, b, ...) LANES(64, a, b, __VA_ARGS__)

/* Lanes by turns, of the lower or the upper halves; and the lower halves of the lanes of two parts. */
#define v8_low(a, b) LANES(8, a, b, 0, 16, 1, 17, 2, 18, 3, 19, 4, 20, 5, 21, 6, 22, 7, 23)
#define v8_high(a, b) LANES(8, a, b, 8, 24, 9, 25, 10, 26, 11, 27, 12, 28, 13, 29, 14, 30, 15, 31)
#define v16_low(a, b) LANES(16, a, b, 0, 8, 1, 9, 2, 10, 3, 11)
#define v16_high(a, b) LANES(16, a, b, 4, 12, 5, 13, 6, 14, 7, 15)
#define v32_low(a, b) LANES(32, a, b, 0, 4, 1, 5)
#define v32_high(a, b) LANES(32, a, b, 2, 6, 3, 7)
#define v16_pack(a, b) LANES(8, (v8)(a), (v8)(b), 0, 2, 4, 6, 8, 10, 12, 14, 16, 18, 20, 22, 24, 26, 28, 30)
#define v32_pack(a, b) LANES(16, (v16)(a), (v16)(b), 0, 2, 4, 6, 8, 10, 12, 14)
#define v64_pack(a, b) LANES(32, (v32)(a), (v32)(b), 0, 2, 4, 6)

/* The highest bit of each lane, lane 0's the lowest. */
#if defined(__SSE2__)
VECTOR unsigned v8_bits(v8 x) { return (unsigned)_mm_movemask_epi8((__m128i)x); }
VECTOR unsigned v16_bits_of_two(v16 a, v16 b) {
    return (unsigned)_mm_movemask_epi8(_mm_packs_epi16((__m128i)a, (__m128i)b));
}
VECTOR unsigned v16_bits(v16 x) { return v16_bits_of_two(x, v16_zero()); }
VECTOR unsigned v32_bits(v32 x) { return (unsigned)_mm_movemask_ps((__m128)x); }
VECTOR unsigned v64_bits(v64 x) { return (unsigned)_mm_movemask_pd((__m128d)x); }
#else
VECTOR unsigned v8_bits(v8 x) {
    v64 high = ((v64)x & v64_all(0x8080808080808080u)) >> 7;
    return (unsigned)(high[0] * 0x0102040810204080u >> 56) | (unsigned)(high[1] * 0x0102040810204080u >> 56) << 8;
}
VECTOR unsigned v16_bits_of_two(v16 a, v16 b) { return v8_bits(v16_pack(v16_lshr(a, 8), v16_lshr(b, 8))); }
VECTOR unsigned v16_bits(v16 x) { return v16_bits_of_two(x, v16_zero()); }
VECTOR unsigned v32_bits(v32 x) { return v16_bits(v32_pack(v32_lshr(x, 16), v32_zero())); }
VECTOR unsigned v64_bits(v64 x) { return v32_bits(v64_pack(v64_lshr(x, 32), v64_zero())); }
#endif

/* Lane k of the result is the lane of x whose number is the lower four bits of lane k of lanes, or 0 where that
 * one's highest bit is set: pshufb of x86-64's SSSE3. */
VECTOR v8 v8_shuffle_slowly(v8 x, v8 lanes) {
    uint8_t from[16], to[16];
    memcpy(from, &x, 16);
    memcpy(to, &lanes, 16);
    for (int k = 0; k < 16; k++) to[k] = to[k] & 128 ? 0 : from[to[k] & 15];
    memcpy(&x, to, 16);
    return x;
}
#if defined(__SSSE3__)
#define v8_shuffle(x, lanes) ((v8)_mm_shuffle_epi8((__m128i)(x), (__m128i)(lanes)))
#elif defined(__aarch64__)
#define v8_shuffle(x, lanes) ((v8)vqtbl1q_u8((uint8x16_t)(x), (uint8x16_t)((lanes) & v8_all(0x8f))))
#elif !CHOSEN_AT_RUN_TIME
#define v8_shuffle(x, lanes) v8_shuffle_slowly(x, lanes)
#else
/* A function that is compiled twice has a parameter of this name, a constant. */
enum { has_sse4 = 0 };
#define BY_SSE4(type, name, instruction, other)                                                                        \
    VECTOR type name(type a, type b, int has) {                                                                        \
        if (!has) return other;                                                                                        \
        __asm__(instruction " %1, %0" : "+x"(a) : "x"(b));                                                             \
        return a;                                                                                                      \
    }
BY_SSE4(v8, shuffled_by, "pshufb", v8_shuffle_slowly(a, b))
BY_SSE4(v16, least_by, "pminuw", v16_umin(a, b))
BY_SSE4(v16, most_by, "pmaxuw", v16_umax(a, b))
#define v8_shuffle(x, lanes) shuffled_by(x, lanes, has_sse4)
#define v16_umin(a, b) least_by(a, b, has_sse4)
#define v16_umax(a, b) most_by(a, b, has_sse4)
#define v16_ule(a, b) ((v16)(v16_umin(a, b) == (a)))
#define v16_uge(a, b) ((v16)(v16_umax(a, b) == (a)))
#define v16_ult(a, b) (~(v16)(v16_umin(a, b) == (b)))
#define v16_ugt(a, b) (~(v16)(v16_umax(a, b) == (b)))
#endif

#endif
