/* Numbers of 64 bits that threads share: each access is sequentially consistent. Where the processor has no such
 * access, one lock is taken for each (a program with threads), or there are no threads (else). */
#ifndef PORTABLE_ATOMIC_H
#define PORTABLE_ATOMIC_H

#if GNU && __GCC_ATOMIC_LLONG_LOCK_FREE == 2
typedef uint64_t aligned64 __attribute__((aligned(8)));
#define SHARED(at) ((aligned64 *)(void *)(at))
#define atomic_fence() __atomic_thread_fence(__ATOMIC_SEQ_CST)

INLINE uint64_t atomic_load(void *at) { return TURNED64(__atomic_load_n(SHARED(at), __ATOMIC_SEQ_CST)); }
INLINE void atomic_store(void *at, uint64_t x) { __atomic_store_n(SHARED(at), TURNED64(x), __ATOMIC_SEQ_CST); }
INLINE uint64_t atomic_xchg(void *at, uint64_t x) {
    return TURNED64(__atomic_exchange_n(SHARED(at), TURNED64(x), __ATOMIC_SEQ_CST));
}

INLINE uint8_t atomic_compare_exchange(void *at, uint64_t *expected, uint64_t x) {
    uint64_t found = TURNED64(*expected);
    uint8_t done = __atomic_compare_exchange_n(SHARED(at), &found, TURNED64(x), 0, __ATOMIC_SEQ_CST, __ATOMIC_SEQ_CST);
    *expected = TURNED64(found);
    return done;
}

#if BIG_ENDIAN_MEMORY
INLINE uint64_t atomic_add(void *at, uint64_t x) {
    uint64_t found = atomic_load(at);
    while (!atomic_compare_exchange(at, &found, found + x)) {}
    return found;
}
#else
INLINE uint64_t atomic_add(void *at, uint64_t x) { return __atomic_fetch_add(SHARED(at), x, __ATOMIC_SEQ_CST); }
#endif

#else

#ifdef PORTABLE_THREADS
static pthread_mutex_t all_shared = PTHREAD_MUTEX_INITIALIZER;
#define LOCK ((void)pthread_mutex_lock(&all_shared))
#define UNLOCK ((void)pthread_mutex_unlock(&all_shared))
#else
#define LOCK ((void)0)
#define UNLOCK ((void)0)
#endif
#define atomic_fence() (LOCK, UNLOCK)

INLINE uint64_t atomic_load(const void *at) {
    LOCK;
    uint64_t found = load64(at);
    UNLOCK;
    return found;
}

INLINE void atomic_store(void *at, uint64_t x) {
    LOCK;
    store64(at, x);
    UNLOCK;
}

INLINE uint64_t atomic_xchg(void *at, uint64_t x) {
    LOCK;
    uint64_t found = load64(at);
    store64(at, x);
    UNLOCK;
    return found;
}

INLINE uint64_t atomic_add(void *at, uint64_t x) {
    LOCK;
    uint64_t found = load64(at);
    store64(at, found + x);
    UNLOCK;
    return found;
}

INLINE uint8_t atomic_compare_exchange(void *at, uint64_t *expected, uint64_t x) {
    LOCK;
    uint64_t found = load64(at);
    uint8_t is_equal = found == *expected;
    if (is_equal) store64(at, x);
    UNLOCK;
    *expected = found;
    return is_equal;
}

#endif

#define atomic_sub(at, x) atomic_add(at, 0 - (x))

#endif
