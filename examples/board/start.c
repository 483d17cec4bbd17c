/* The first code of a program: it gives variables the values with which they begin, and calls main. sections.ld says
 * where they are. */
#include "host.h"

extern uint32_t data_begin[], data_end[], data_in_rom[], bss_end[], stack_end[];

int main(void);

__attribute__((used)) static _Noreturn void start(void) {
    uint32_t *at = data_begin;
    for (const uint32_t *from = data_in_rom; at < data_end;) *at++ = *from++;
    while (at < bss_end) *at++ = 0;
    main();
    host_exit(0);
}

/* A fault of the processor ends the program with status 70. */
__attribute__((used, aligned(4))) static _Noreturn void fault(void) { host_exit(70); }

#if defined(__riscv)
__attribute__((section(".first"), naked, used)) static void first(void) {
    __asm__(".option arch, +zicsr\n la sp, stack_end\n la t0, fault\n csrw mtvec, t0\n j start");
}
#else
__attribute__((section(".first"), used)) static const struct {
    uint32_t *stack;
    void (*calls[15])(void);
} vectors = {stack_end, {start, fault, fault, fault, fault, fault}};
#endif
