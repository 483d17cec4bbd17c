/* Vectors of 16 octets: v8, v16, v32 and v64 have lanes of so many bits. */
#ifndef PORTABLE_VECTORS_H
#define PORTABLE_VECTORS_H

/* A function whose body moves lanes about: on x86-64 without -march it is compiled twice, and the processor is asked
 * at each call whether it has SSE4.1, with which that is one instruction. */
#if GNU && defined(__x86_64__) && !defined(__SSSE3__) && !defined(PORTABLE_NO_SHUFFLE)
#define CHOSEN_AT_RUN_TIME 1
#define CHOSEN(type, answer, name, parameters, arguments, with_sse4, without)                                          \
    static __attribute__((noinline, target("sse4.1"))) type name##_with_sse4 parameters { answer with_sse4; }          \
    static __attribute__((noinline)) type name##_without parameters { answer without; }                                \
    static type name parameters {                                                                                      \
        if (__builtin_cpu_supports("sse4.1")) answer name##_with_sse4 arguments;                                       \
        else answer name##_without arguments;                                                                          \
    }
#else
#define CHOSEN_AT_RUN_TIME 0
#define CHOSEN(type, answer, name, parameters, arguments, with_sse4, without)                                          \
    static type name parameters { answer without; }
#endif

#if GNU && !BIG_ENDIAN_MEMORY && (!defined(__i386__) || defined(__SSE2__))
#include "portable_gnu.h"
#else
#include "portable_arrays.h"
#endif

#endif
