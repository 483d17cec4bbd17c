/* What proved code calls of C on a target, beside the C library, and what chooses between two builds of it. Each file
 * of this folder defines some of these calls. Of the heap, the error number, the arguments and the streams the proofs
 * assume what is said here: it is what the kit declares of them, and no proof covers it. tests/c/platform.c tests each
 * on every target. */
#ifndef TMCHAN_PLATFORM_H
#define TMCHAN_PLATFORM_H

#include <stddef.h>
#include <stdint.h>
#include <sys/types.h>

/* What a request for memory came to. Where ok is 0, `at` points to an octet, which the caller doesn't own. */
typedef struct {
    _Bool ok;
    void *at;
} platform_memory;

/* heap.c */

/* Memory of `size` octets, below 2^63, or of none, at a multiple of `align`, which is 1, 2, 4, 8 or 16 and divides the
 * size. What it holds is not said, and it overlaps nothing else that is owned. It may be refused at any time. */
platform_memory rattle_alloc(size_t size, size_t align);

/* Gives memory that was answered another size. It may be moved; its first `kept` octets, or as many as there is room
 * for, stay as they were. Where that is refused, it is as it was. */
platform_memory rattle_realloc(void *at, size_t kept, size_t size, size_t align);

/* Takes back what either answered. */
void rattle_dealloc(void *at);

/* errno.c */

/* The error of the calling thread, as the C library's last call that failed left it. */
int32_t rattle_errno(void);
void rattle_set_errno(int32_t error);

/* streams.c: read, write and _exit are called by these names in proved code, once the Makefile has renamed them. */

/* As read and write of POSIX, but for a stream that does not block: where it has nothing to give, or no room, it is
 * waited for. */
ssize_t platform_read(int stream, void *octets, size_t length);
ssize_t platform_write(int stream, const void *octets, size_t length);

/* Ends the program. After a status of 0, 1, 6 or 7 output and notes are closed first, and where that fails, since what
 * was written is lost, the status is 4. One that was closed from the first, or a signal meanwhile, is no failure. */
_Noreturn void platform_exit(int status);

/* arguments.c */

/* How many words the program was started with, its own name among them. */
size_t rattle_arg_count(void);

/* Copies word number i, from 0, without the NUL after it, to the start of an array, and answers its length; -1 where
 * there is no such word; -2 where it is longer than the array, which is filled then. */
ssize_t rattle_arg(size_t i, uint8_t *array, size_t length);

/* The proved program: its main under another name. Or what chooses one of its builds (choose_program.c). */
int tmchan_main(int count, char **words);

/* processor.c */

/* Whether this processor has what code for x86-64-v3 needs, the system keeps its registers, and such code pays: 1 or 0.
 * It is looked up as the program or library is loaded, and 0 before. */
int platform_takes_v3(void);

#endif
