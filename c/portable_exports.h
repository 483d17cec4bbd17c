/* How calls of a header pass what may have another layout in C than in the module, which has that of x86-64. A
 * struct is turned in place before and after the call; or it stands in a copy, where C may have other places in it. */
#ifndef PORTABLE_EXPORTS_H
#define PORTABLE_EXPORTS_H

#define EXPORT_TURN(type, turns)                                                                                       \
    INLINE void turn_##type(type *it, size_t count) {                                                                  \
        for (; count; count--, it++) { turns }                                                                         \
    }
#if BIG_ENDIAN_MEMORY
#define TURN(type, it, count) turn_##type(it, count)
EXPORT_TURN(uint64_t, *it = TURNED64(*it);)
#else
#define TURN(type, it, count) ((void)0)
#endif

#if BIG_ENDIAN_MEMORY || UINTPTR_MAX <= 0xffffffffu
#define EXPORT_COPY(type, size, ins, outs)                                                                             \
    INLINE void copy_in_##type(uint8_t *to, const type *it) { ins }                                                    \
    INLINE void copy_out_##type(uint8_t *to, type *it) { outs }                                                        \
    enum { octets_of_##type = size };
#define COPY_IN(type, it)                                                                                              \
    ROOM(octets_of_##type) it##_copy = {0};                                                                            \
    copy_in_##type(it##_copy.octets, it);
#define COPY(it) ADDRESS(it##_copy.octets)
#define COPY_OUT(type, it) copy_out_##type(it##_copy.octets, it)
#else
#define EXPORT_COPY(type, size, ins, outs) _Static_assert(sizeof(type) == size, "the layout of x86-64");
#define COPY_IN(type, it)
#define COPY(it) ADDRESS(it)
#define COPY_OUT(type, it) ((void)0)
#endif

/* Numbers that are only read. Of those after the options that any version has it only matters whether they are 0. */
#if BIG_ENDIAN_MEMORY
enum { MOST_NUMBERS = 64 };
#define NUMBERS_IN(it)                                                                                                 \
    uint64_t it##_turned[MOST_NUMBERS];                                                                                \
    uint64_t it##_count = turn_numbers((const uint64_t *)(const void *)it, it##_length, it##_turned);
#define NUMBERS(it) ADDRESS(it##_turned)
#define NUMBERS_COUNT(it) it##_count
INLINE uint64_t turn_numbers(const uint64_t *it, size_t count, uint64_t *turned) {
    uint64_t others = 0;
    for (size_t k = 0; k < count; k++) {
        if (k < MOST_NUMBERS - 1) turned[k] = TURNED64(it[k]);
        else others |= it[k];
    }
    turned[MOST_NUMBERS - 1] = others;
    return count < MOST_NUMBERS ? count : MOST_NUMBERS;
}
#else
#define NUMBERS_IN(it)
#define NUMBERS(it) ADDRESS(it)
#define NUMBERS_COUNT(it) it##_length
#endif

#endif
