/* host.h by semihosting: a breakpoint that qemu, or a debugger, takes for a call. Its numbers are the same on Arm and
 * RISC-V. */
#include "host.h"

enum { OPEN = 0x01, WRITE = 0x05, READ = 0x06, EXIT = 0x20 };
enum { READS = 1, WRITES = 5 }; /* "rb" and "wb" of fopen */
enum { ENDED = 0x20026 };       /* the program ended by itself */

static intptr_t call(uintptr_t number, const uintptr_t *words) {
#if defined(__riscv)
    register uintptr_t result __asm__("a0") = number;
    register const uintptr_t *given __asm__("a1") = words;
    /* The call is these three together, of 32 bits each and in one page. */
    __asm__ volatile(".balign 16\n.option push\n.option norvc\n"
                     "slli x0, x0, 0x1f\nebreak\nsrai x0, x0, 7\n"
                     ".option pop" : "+r"(result) : "r"(given) : "memory");
#else
    register uintptr_t result __asm__("r0") = number;
    register const uintptr_t *given __asm__("r1") = words;
    __asm__ volatile("bkpt 0xab" : "+r"(result) : "r"(given) : "memory");
#endif
    return (intptr_t)result;
}

static int open(const char *name, uintptr_t mode) {
    size_t length = 0;
    while (name[length]) length++;
    const uintptr_t words[] = {(uintptr_t)name, mode, length};
    intptr_t file = call(OPEN, words);
    if (file < 0) host_exit(3);
    return (int)file;
}

int host_reads(const char *name) { return open(name, READS); }

int host_writes(const char *name) { return open(name, WRITES); }

/* READ and WRITE answer how many octets are left. */
size_t host_read(int file, void *to, size_t length) {
    const uintptr_t words[] = {(uintptr_t)file, (uintptr_t)to, length};
    return length - (size_t)call(READ, words);
}

void host_write(int file, const void *from, size_t length) {
    const uintptr_t words[] = {(uintptr_t)file, (uintptr_t)from, length};
    if (call(WRITE, words) != 0) host_exit(4);
}

void host_exit(int status) {
    const uintptr_t words[] = {ENDED, (uintptr_t)status};
    for (;;) call(EXIT, words);
}
