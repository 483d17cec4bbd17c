/* Whether code for x86-64-v3 runs on the processor, and pays. x86-64-v3 is AVX, AVX2, BMI1, BMI2, F16C, FMA, LZCNT and
 * MOVBE, and the wide registers kept when the system changes from one thread to another. It pays where octets are moved
 * about by more than one unit: that has no bit of its own, so VAES tells it, which Intel's processors have since Ice
 * Lake and AMD's since Zen 3.
 *
 * It is looked up as the program or library is loaded, before any thread can be there. */
#include "platform.h"

#include <cpuid.h>

enum {
    FMA = 1 << 12,
    MOVBE = 1 << 22,
    OSXSAVE = 1 << 27,
    AVX = 1 << 28,
    F16C = 1 << 29,
    FIRST = FMA | MOVBE | OSXSAVE | AVX | F16C, /* of leaf 1, register ecx */
    BMI1 = 1 << 3,
    AVX2 = 1 << 5,
    BMI2 = 1 << 8,
    SECOND = BMI1 | AVX2 | BMI2, /* of leaf 7, register ebx */
    VAES = 1 << 9,               /* of leaf 7, register ecx */
    LZCNT = 1 << 5,              /* of leaf 80000001, register ecx */
    REGISTERS = 6                /* of xgetbv: those of 128 bits and of 256 */
};

static int takes_v3;

static int keeps_registers(void) {
    uint32_t low, high;
    __asm__("xgetbv" : "=a"(low), "=d"(high) : "c"(0));
    return (low & REGISTERS) == REGISTERS;
}

__attribute__((constructor)) static void look(void) {
    uint32_t eax, ebx, ecx, edx;
    if (!__get_cpuid(1, &eax, &ebx, &ecx, &edx) || (ecx & FIRST) != FIRST || !keeps_registers()) return;
    if (!__get_cpuid_count(7, 0, &eax, &ebx, &ecx, &edx) || (ebx & SECOND) != SECOND || !(ecx & VAES)) return;
    if (!__get_cpuid(0x80000001, &eax, &ebx, &ecx, &edx) || !(ecx & LZCNT)) return;
    takes_v3 = 1;
}

int platform_takes_v3(void) { return takes_v3; }
