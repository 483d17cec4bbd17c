/* Vectors by arrays, in C alone: what portable_gnu.h says of each call. */
#ifndef PORTABLE_ARRAYS_H
#define PORTABLE_ARRAYS_H

/* Placing thousands of calls, of loops, takes the compiler minutes. */
#if defined(__GNUC__)
#define VECTOR static __attribute__((noinline, unused))
#else
#define VECTOR static inline
#endif

#define load8(at) (*(at))
#define store8(at, x) (*(at) = (x))

#define EACH_OF_TWO(w, name, result)                                                                                   \
    VECTOR v##w v##w##_##name(v##w x, v##w y) {                                                                        \
        for (int k = 0; k < 128 / w; k++) {                                                                            \
            uint##w##_t a = x.of[k], b = y.of[k];                                                                      \
            x.of[k] = (uint##w##_t)(result);                                                                           \
        }                                                                                                              \
        return x;                                                                                                      \
    }
#define EACH_BY(w, name, result)                                                                                       \
    VECTOR v##w v##w##_##name(v##w x, int n) {                                                                         \
        for (int k = 0; k < 128 / w; k++) {                                                                            \
            uint##w##_t a = x.of[k];                                                                                   \
            x.of[k] = (uint##w##_t)(result);                                                                           \
        }                                                                                                              \
        return x;                                                                                                      \
    }
#define VECTORS(w)                                                                                                     \
    typedef struct {                                                                                                   \
        uint##w##_t of[128 / w];                                                                                       \
    } v##w;                                                                                                            \
    VECTOR v##w v##w##_all(uint##w##_t item) {                                                                         \
        v##w x;                                                                                                        \
        for (int k = 0; k < 128 / w; k++) x.of[k] = item;                                                              \
        return x;                                                                                                      \
    }                                                                                                                  \
    VECTOR v##w v##w##_zero(void) { return v##w##_all(0); }                                                            \
    EACH_OF_TWO(w, add, a + b)                                                                                         \
    EACH_OF_TWO(w, sub, a - b)                                                                                         \
    EACH_OF_TWO(w, mul, (uint64_t)a * b)                                                                               \
    EACH_OF_TWO(w, and, a & b)                                                                                         \
    EACH_OF_TWO(w, or, a | b)                                                                                          \
    EACH_OF_TWO(w, xor, a ^ b)                                                                                         \
    EACH_BY(w, shl, (uint64_t)a << n)                                                                                  \
    EACH_BY(w, lshr, a >> n)                                                                                           \
    EACH_BY(w, ashr, (int##w##_t)a >> n)                                                                               \
    EACH_OF_TWO(w, shl_each, (uint64_t)a << b)                                                                         \
    EACH_OF_TWO(w, lshr_each, a >> b)                                                                                  \
    EACH_OF_TWO(w, eq, 0 - (uint64_t)(a == b))                                                                         \
    EACH_OF_TWO(w, ne, 0 - (uint64_t)(a != b))                                                                         \
    EACH_OF_TWO(w, ult, 0 - (uint64_t)(a < b))                                                                         \
    EACH_OF_TWO(w, ugt, 0 - (uint64_t)(a > b))                                                                         \
    EACH_OF_TWO(w, ule, 0 - (uint64_t)(a <= b))                                                                        \
    EACH_OF_TWO(w, uge, 0 - (uint64_t)(a >= b))                                                                        \
    EACH_OF_TWO(w, slt, 0 - (uint64_t)((int##w##_t)a < (int##w##_t)b))                                                 \
    EACH_OF_TWO(w, sgt, 0 - (uint64_t)((int##w##_t)a > (int##w##_t)b))                                                 \
    EACH_OF_TWO(w, sle, 0 - (uint64_t)((int##w##_t)a <= (int##w##_t)b))                                                \
    EACH_OF_TWO(w, sge, 0 - (uint64_t)((int##w##_t)a >= (int##w##_t)b))                                                \
    EACH_OF_TWO(w, umin, a < b ? a : b)                                                                                \
    EACH_OF_TWO(w, umax, a > b ? a : b)                                                                                \
    VECTOR v##w v##w##_choose(v##w mask, v##w a, v##w b) {                                                             \
        for (int k = 0; k < 128 / w; k++) a.of[k] = mask.of[k] ? a.of[k] : b.of[k];                                    \
        return a;                                                                                                      \
    }                                                                                                                  \
    VECTOR v##w v##w##_load_some(const uint8_t *at, size_t octets) {                                                   \
        v##w x = v##w##_zero();                                                                                        \
        for (size_t k = 0; k < octets / (w / 8); k++) x.of[k] = load##w(at + k * (w / 8));                             \
        return x;                                                                                                      \
    }                                                                                                                  \
    VECTOR void v##w##_store_some(uint8_t *at, v##w x, size_t octets) {                                                \
        for (size_t k = 0; k < octets / (w / 8); k++) store##w(at + k * (w / 8), x.of[k]);                             \
    }                                                                                                                  \
    VECTOR v##w v##w##_load(const uint8_t *at) { return v##w##_load_some(at, 16); }                                    \
    VECTOR void v##w##_store(uint8_t *at, v##w x) { v##w##_store_some(at, x, 16); }                                    \
    VECTOR v##w v##w##_set(v##w x, int lane, uint##w##_t item) {                                                       \
        x.of[lane] = item;                                                                                             \
        return x;                                                                                                      \
    }                                                                                                                  \
    VECTOR v##w v##w##_lanes(v##w a, v##w b, const uint8_t *lanes) {                                                   \
        v##w x;                                                                                                        \
        for (int k = 0; k < 128 / w; k++) x.of[k] = lanes[k] < 128 / w ? a.of[lanes[k]] : b.of[lanes[k] - 128 / w];    \
        return x;                                                                                                      \
    }                                                                                                                  \
    VECTOR v##w v##w##_from(v##w a, v##w b, int first) {                                                               \
        v##w x;                                                                                                        \
        for (int k = 0; k < 64 / w; k++) {                                                                             \
            x.of[2 * k] = a.of[first + k];                                                                             \
            x.of[2 * k + 1] = b.of[first + k];                                                                         \
        }                                                                                                              \
        return x;                                                                                                      \
    }                                                                                                                  \
    VECTOR v##w v##w##_low(v##w a, v##w b) { return v##w##_from(a, b, 0); }                                            \
    VECTOR v##w v##w##_high(v##w a, v##w b) { return v##w##_from(a, b, 64 / w); }                                      \
    VECTOR unsigned v##w##_bits(v##w x) {                                                                              \
        unsigned bits = 0;                                                                                             \
        for (int k = 0; k < 128 / w; k++) bits |= (unsigned)(x.of[k] >> (w - 1)) << k;                                 \
        return bits;                                                                                                   \
    }
VECTORS(8)
VECTORS(16)
VECTORS(32)
VECTORS(64)

#define CAST(to, w)                                                                                                    \
    VECTOR v##to v##to##_from_v##w(v##w x) {                                                                           \
        uint8_t octets[16];                                                                                            \
        v##w##_store(octets, x);                                                                                       \
        return v##to##_load(octets);                                                                                   \
    }
CAST(8, 16)
CAST(8, 32)
CAST(8, 64)
CAST(16, 8)
CAST(16, 32)
CAST(16, 64)
CAST(32, 8)
CAST(32, 16)
CAST(32, 64)
CAST(64, 8)
CAST(64, 16)
CAST(64, 32)
#define v8_from_v8(x) (x)
#define v16_from_v16(x) (x)
#define v32_from_v32(x) (x)
#define v64_from_v64(x) (x)

#define PACK(w, half)                                                                                                  \
    VECTOR v##half v##w##_pack(v##w a, v##w b) {                                                                       \
        v##half x;                                                                                                     \
        for (int k = 0; k < 128 / w; k++) {                                                                            \
            x.of[k] = (uint##half##_t)a.of[k];                                                                         \
            x.of[128 / w + k] = (uint##half##_t)b.of[k];                                                               \
        }                                                                                                              \
        return x;                                                                                                      \
    }
PACK(16, 8)
PACK(32, 16)
PACK(64, 32)
#define v16_bits_of_two(a, b) (v16_bits(a) | v16_bits(b) << 8)

#define v8_of(...) ((v8){{__VA_ARGS__}})
#define v16_of(...) ((v16){{__VA_ARGS__}})
#define v32_of(...) ((v32){{__VA_ARGS__}})
#define v64_of(...) ((v64){{__VA_ARGS__}})
#define v8_at(x, lane) ((x).of[lane])
#define v16_at(x, lane) ((x).of[lane])
#define v32_at(x, lane) ((x).of[lane])
#define v64_at(x, lane) ((x).of[lane])
#define v8_pick(x, ...) v8_lanes(x, x, (const uint8_t[]){__VA_ARGS__})
#define v16_pick(x, ...) v16_lanes(x, x, (const uint8_t[]){__VA_ARGS__})
#define v32_pick(x, ...) v32_lanes(x, x, (const uint8_t[]){__VA_ARGS__})
#define v64_pick(x, ...) v64_lanes(x, x, (const uint8_t[]){__VA_ARGS__})
#define v8_pick_two(a, b, ...) v8_lanes(a, b, (const uint8_t[]){__VA_ARGS__})
#define v16_pick_two(a, b, ...) v16_lanes(a, b, (const uint8_t[]){__VA_ARGS__})
#define v32_pick_two(a, b, ...) v32_lanes(a, b, (const uint8_t[]){__VA_ARGS__})
#define v64_pick_two(a, b, ...) v64_lanes(a, b, (const uint8_t[]){__VA_ARGS__})

VECTOR v8 v8_shuffle(v8 x, v8 lanes) {
    for (int k = 0; k < 16; k++) lanes.of[k] = lanes.of[k] & 128 ? 0 : x.of[lanes.of[k] & 15];
    return lanes;
}

#endif
