/* What a program calls outside the heap: streams, the words of the command line and the error number, by the files
 * of platform/, of which one has C's main; and threads, which are POSIX's where there are any. With
 * PORTABLE_NO_THREADS, and on Windows, none can be started: the program then does all work in one, with the same
 * results. */
#ifndef PORTABLE_PROGRAM_H
#define PORTABLE_PROGRAM_H

#include <errno.h>
#include <signal.h>
#include <stdlib.h>
#include <sys/types.h>
#if !defined(_WIN32) && !defined(PORTABLE_NO_THREADS)
#define PORTABLE_THREADS
#include <pthread.h>
#endif

/* What platform/platform.h declares, and says of each */
ssize_t platform_read(int stream, void *octets, size_t length);
ssize_t platform_write(int stream, const void *octets, size_t length);
_Noreturn void platform_exit(int status);
int32_t rattle_errno(void);
void rattle_set_errno(int32_t error);
ssize_t rattle_arg(size_t i, uint8_t *array, size_t length);
int tmchan_main(int count, char **words);

INLINE uint64_t outside_read(uint32_t file, address at, uint64_t octets) {
    return (uint64_t)(int64_t)platform_read((int)file, AT(at), (size_t)octets);
}

INLINE uint64_t outside_write(uint32_t file, address at, uint64_t octets) {
    return (uint64_t)(int64_t)platform_write((int)file, AT(at), (size_t)octets);
}

#define outside___write outside_write
INLINE uint32_t outside_rattle_errno(void) { return (uint32_t)rattle_errno(); }
INLINE void outside_rattle_set_errno(uint32_t error) { rattle_set_errno((int32_t)error); }

INLINE uint64_t outside_rattle_arg(uint64_t number, address at, uint64_t room) {
    return (uint64_t)(int64_t)rattle_arg((size_t)(number < INT32_MAX ? number : INT32_MAX), AT(at), (size_t)room);
}

/* The process */

INLINE address outside_malloc(uint64_t octets) { return ADDRESS(malloc((size_t)octets)); }
INLINE void outside_free(address at) { free(AT(at)); }
INLINE void outside_abort(void) { abort(); }

INLINE void outside__exit(uint32_t status) { platform_exit((int)status); }

INLINE uint64_t outside___sysv_signal(uint32_t number, uint64_t handler) {
#if defined(_WIN32)
    (void)number;
    return handler;
#else
    return (uint64_t)(uintptr_t)signal((int)number, (void (*)(int))(uintptr_t)handler);
#endif
}

/* The module is that for x86-64-v2, which asks as it starts whether the processor is one. C needs none of it. */
INLINE address outside___x86_get_cpuid_feature_leaf(uint32_t leaf) {
    static uint8_t all[256];
    (void)leaf;
    return ADDRESS(memset(all, 255, sizeof all));
}

/* Threads. Of attributes the module sets the guard alone, which is the system's here. */

INLINE uint32_t outside_pthread_attr_init(address attributes) { return (void)attributes, 0; }
INLINE uint32_t outside_pthread_attr_destroy(address attributes) { return (void)attributes, 0; }
INLINE uint32_t outside_pthread_attr_setguardsize(address attributes, uint64_t octets) {
    return (void)attributes, (void)octets, 0;
}

#if defined(PORTABLE_THREADS)
/* What the code of workers may take, whatever the C library's default; and no local leaps over the guard after it. */
enum { LEAST_STACK = 1 << 20, GUARD = 1 << 16 };

typedef struct {
    address (*start)(address);
    address given;
} thread_begin;

static void *thread_body(void *at) {
    thread_begin it = *(thread_begin *)at;
    free(at);
    it.start(it.given);
    return NULL;
}

/* The module has 8 octets for a pthread_t. */
_Static_assert(sizeof(pthread_t) <= 8, "a pthread_t in 8 octets");

INLINE uint64_t thread_number(pthread_t it) {
    uint64_t number = 0;
    memcpy(&number, &it, sizeof it);
    return number;
}

INLINE pthread_t thread_of(uint64_t number) {
    pthread_t it;
    memcpy(&it, &number, sizeof it);
    return it;
}

INLINE uint32_t outside_pthread_create(address thread, address attributes, address start, address given) {
    thread_begin *begin = malloc(sizeof *begin);
    pthread_attr_t chosen;
    pthread_t made;
    size_t stack = 0;
    (void)attributes;
    if (!begin) return EAGAIN;
    begin->start = (address(*)(address))(uintptr_t)start;
    begin->given = given;
    int error = pthread_attr_init(&chosen);
    if (!error) {
        pthread_attr_getstacksize(&chosen, &stack);
        if (stack < LEAST_STACK) pthread_attr_setstacksize(&chosen, LEAST_STACK);
        pthread_attr_setguardsize(&chosen, GUARD);
        error = pthread_create(&made, &chosen, thread_body, begin);
        pthread_attr_destroy(&chosen);
    }
    if (error) free(begin);
    else store64(AT(thread), thread_number(made));
    return (uint32_t)error;
}

INLINE uint32_t outside_pthread_join(uint64_t thread, address result) {
    return (void)result, (uint32_t)pthread_join(thread_of(thread), NULL);
}

INLINE uint32_t outside_pthread_detach(uint64_t thread) { return (uint32_t)pthread_detach(thread_of(thread)); }
INLINE uint64_t outside_pthread_self(void) { return thread_number(pthread_self()); }
#else
INLINE uint32_t outside_pthread_create(address thread, address attributes, address start, address given) {
    return (void)thread, (void)attributes, (void)start, (void)given, (uint32_t)EAGAIN;
}
INLINE uint32_t outside_pthread_join(uint64_t thread, address result) {
    return (void)thread, (void)result, (uint32_t)ESRCH;
}
INLINE uint32_t outside_pthread_detach(uint64_t thread) { return (void)thread, (uint32_t)ESRCH; }
INLINE uint64_t outside_pthread_self(void) { return 0; }
#endif

#endif
