/* Which processors platform/processor.c takes for x86-64-v3: it is compiled here over models of processors, which stand
 * in place of cpuid and xgetbv. One has all that it asks for, and each other one lacks one bit of that, or a leaf. The
 * numbers are those of Intel's and AMD's manuals. Status 0: just the first is taken. */
#include <cpuid.h>
#include <stdint.h>
#include <stdio.h>

/* Registers ecx of leaf 1, ebx and ecx of leaf 7 and ecx of leaf 80000001, the greatest leaves, and what xgetbv tells. */
typedef struct {
    uint32_t first, second, third, extended, leaf, extended_leaf, registers;
} processor;

static const processor whole = {
    .first = UINT32_C(0x38401000), /* FMA, MOVBE, OSXSAVE, AVX, F16C */
    .second = 0x128,               /* BMI1, AVX2, BMI2 */
    .third = 0x200,                /* VAES */
    .extended = 0x20,              /* LZCNT */
    .leaf = 7,
    .extended_leaf = UINT32_C(0x80000001),
    .registers = 7, /* of the x87, of 128 bits, of 256 bits */
};
static processor model;

static int cpuid_of(uint32_t leaf, uint32_t part, uint32_t *ebx, uint32_t *ecx) {
    if (leaf > (leaf >> 31 ? model.extended_leaf : model.leaf)) return 0;
    *ebx = *ecx = 0;
    if (leaf == 1) *ecx = model.first;
    if (leaf == 7 && part == 0) *ebx = model.second, *ecx = model.third;
    if (leaf == UINT32_C(0x80000001)) *ecx = model.extended;
    return 1;
}

#define __get_cpuid(leaf, eax, ebx, ecx, edx) (*(eax) = *(edx) = 0, cpuid_of(leaf, 0, ebx, ecx))
#define __get_cpuid_count(leaf, part, eax, ebx, ecx, edx) (*(eax) = *(edx) = 0, cpuid_of(leaf, part, ebx, ecx))
#define __asm__(...) (low = model.registers, high = 0, (void)high)
#include "../../platform/processor.c"

static int tests, failures;

static void test(int wanted, const char *what, uint32_t bit) {
    takes_v3 = 0;
    look();
    tests++;
    if (platform_takes_v3() == wanted) return;
    failures++;
    fprintf(stderr, "%s %x: taken %d\n", what, (unsigned)bit, !wanted);
}

/* Each bit of a word is missing, alone. */
static void test_bits(uint32_t *word, const char *name) {
    uint32_t all = *word;
    for (uint32_t bit = 1; bit; bit <<= 1)
        if (all & bit) {
            *word = all & ~bit;
            test(0, name, bit);
        }
    *word = all;
}

int main(void) {
    model = whole;
    test(1, "nothing is missing", 0);
    test_bits(&model.first, "leaf 1, ecx");
    test_bits(&model.second, "leaf 7, ebx");
    test_bits(&model.third, "leaf 7, ecx");
    test_bits(&model.extended, "leaf 80000001, ecx");
    for (uint32_t bit = 1; bit < 8; bit <<= 1) {
        model.registers = 7 & ~bit;
        test(bit == 1, "registers", bit); /* (those of the x87 are not asked for) */
    }
    model = whole;
    model.leaf = 6;
    test(0, "leaf", 7);
    model.leaf = 0;
    test(0, "leaf", 1);
    model = whole;
    model.extended_leaf = UINT32_C(0x80000000);
    test(0, "leaf", UINT32_C(0x80000001));
    printf("%d models, %d failed\n", tests, failures);
    return failures > 0;
}
